# Of a report: each lookup and facet whose column isn't there, beside the types that its name has. Of the line of a sort
# behind it, where its name is spelled without a backslash: whether its column isn't there.
function category(type) { return type ~ /^[iu]64$/ ? "number" : type }
/^\["column",/ {
    line = $0
    sub(/,"[a-z]+",[0-9]+\]$/, "", line)
    match(line, /,"[a-z0-9]+"$/)
    name = substr(line, 11, RSTART - 11)
    type = substr(line, RSTART + 2, RLENGTH - 3)
    types[name] = types[name] (types[name] == "" ? "" : " and ") type
    categories[name, category(type)]
}
/^\["(find|facet)",.*,null\]$/ {
    what = /^\["find",/ ? "a lookup found nothing" : "a facet counted nothing"
    line = $0
    sub(/,null\]$/, "", line)
    sub(/^\["[a-z]+",/, "", line)
    match(line, /,"[a-z0-9]+"$/)
    name = substr(line, 1, RSTART - 1)
    type = substr(line, RSTART + 2, RLENGTH - 3)
    if (name in types) print what ": there is no column " name " of type " type ", it is " types[name]
    else print what ": there is no column " name
}
/^[ \t\r]*\[[ \t\r]*"sort"/ {
    line = $0
    if (!match(line, /"sort"[ \t\r]*,[ \t\r]*"[^"\\]*"[ \t\r]*,[ \t\r]*"[a-z0-9]+"/)) next
    split(substr(line, RSTART, RLENGTH), said, "\"")
    name = "\"" said[4] "\""
    type = said[6]
    if ((name, category(type)) in categories) next
    if (name in types) print "the sort moved no row: there is no column " name " of type " type ", it is " types[name]
    else print "the sort moved no row: there is no column " name
}
