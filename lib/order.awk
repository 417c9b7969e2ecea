# Of a script: the first pair of its order that names a row which isn't there. `counts` has the rows of the inputs.
BEGIN { segments = split(counts, rows, " ") }
/^[ \t\r]*\[[ \t\r]*"segment"/ {
    gsub(/[^0-9]/, "")
    rows[++segments] = $0
}
/^[ \t\r]*\[[ \t\r]*"order"/ { at = NR; order = $0 }
END {
    count = split(order, numbers, /[^0-9]+/)
    for (i = 2; i + 1 < count; i += 2) {
        s = numbers[i]
        if (s + 0 >= segments)
            why = "there are " segments " segments with the inputs, counted from 0, which come first"
        else if (numbers[i + 1] + 0 >= rows[s + 1] + 0)
            why = "segment " s " has " rows[s + 1] + 0 " rows, counted from 0; inputs come first"
        else continue
        printf "line %d: [%s,%s] isn't there: %s\n", at, s, numbers[i + 1], why
        exit
    }
}
