# Of a file of row numbers and a report: as many rows of the report as there are numbers, each as a list of its number
# and, for each column in which it has values, the column's name, its type and these.
FILENAME == ARGV[1] { numbers[count++] = $0; next }
/^\["rows",/ {
    gsub(/[^0-9]/, "")
    if ($0 + 0 < count) count = $0 + 0
    next
}
/^\["column",/ {
    column = $0
    sub(/,"[a-z]+",[0-9]+\]$/, "", column)
    column = "," "[" substr(column, 11)
    next
}
/^\["row",/ {
    match($0, /^\["row",[0-9]+,/)
    row = substr($0, 8, RLENGTH - 8) + 0
    if (row < count) cells[row] = cells[row] column "," substr($0, RLENGTH + 1)
}
END { for (row = 0; row < count; row++) print "[\"row\"," numbers[row] cells[row] "]" }
