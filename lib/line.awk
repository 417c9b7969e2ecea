# The last of some lines of a script, with which it comes to end with `status`: its number, its beginning, and what is
# wrong with it. It has bytes 1 in place of zeros.

# What is said of the lines before the last one, of the usual spelling: the last segment's, the order's, and of each
# column of the segment its type line, its first record's line and its last record's line and document.
{
    if (NR > 1) note_line(text, NR - 1)
    text = $0
}

function note_line(line, number,   word, rest, doc, key) {
    if (!match(line, /^[ \t\r]*\[[ \t\r]*"[a-z0-9]+"[ \t\r]*,?[ \t\r]*/)) return
    word = substr(line, 1, RLENGTH)
    rest = substr(line, RLENGTH + 1)
    gsub(/[^a-z0-9]/, "", word)
    if (word == "segment") {
        segment = number
        match(rest, /^[0-9]+/)
        documents = substr(rest, 1, RLENGTH)
        split("", typed); split("", last); split("", last_line); split("", first)
    } else if (verb == "set" && word ~ /^(drop|compact|find)$/) {
        if (segment) ended = number
        segment = 0
    } else if (word ~ /^(order|sort)$/) {
        order = number
    } else if (word in types && status ~ /^1[45]$/) {
        if (!match(rest, /^[0-9]+/)) return
        doc = substr(rest, 1, RLENGTH)
        rest = substr(rest, RLENGTH + 1)
        if (!match(rest, /^[ \t\r]*,[ \t\r]*"([^"\\]|\\.)*"/)) return
        key = substr(rest, 1, RLENGTH)
        sub(/^[ \t\r]*,[ \t\r]*/, "", key)
        key = key " " category(word)
        if (!(key in first)) { first[key] = number; first_type[key] = word }
        last[key] = doc
        last_line[key] = number
    } else if (word ~ /^(type|sorted|tie)$/ && status == 14) {
        if (!match(rest, /^"([^"\\]|\\.)*"/)) return
        key = substr(rest, 1, RLENGTH)
        rest = substr(rest, RLENGTH + 1)
        gsub(/[^a-z0-9]/, "", rest)
        typed[key " " category(word == "tie" ? "i64" : rest)] = number
    }
}

function category(type) { return type ~ /^[iu]64$/ ? "number" : type }

BEGIN {
    count = split("i64 u64 bool datetime ip str bytes", names, " ")
    for (i = 1; i <= count; i++) types[names[i]]
    shapes["segment"] = "[\"segment\",n]"
    shapes["type"] = "[\"type\",name,t]"
    shapes["sorted"] = "[\"sorted\",name,t]"
    shapes["tie"] = "[\"tie\",name,start]"
    if (verb == "set") shapes_of_sets()
    else shapes_of_merges()
    for (type in types) shapes[type] = "[\"" type "\",d,name,v]"
    for (word in shapes) sizes[word] = split(shapes[word], unused, ",")
    sizes["order"] = 2
    sizes["drop"] = 2
}

function shapes_of_sets() {
    shapes["drop"] = "[\"drop\",[id,..]]"
    shapes["compact"] = "[\"compact\"]"
    shapes["find"] = "[\"find\",name,t,lo,hi]"
}

function shapes_of_merges() {
    shapes["require"] = "[\"require\",name,t]"
    shapes["order"] = "[\"order\",[[s,r],..]]"
    shapes["sort"] = "[\"sort\",name,t,reversed]"
    shapes["find"] = "[\"find\",name,t,lo,hi,from,to]"
    shapes["facet"] = "[\"facet\",name,t]"
    shapes["query"] = "[\"query\",q]"
}

END {
    why = status == 20 ? bad_line() : refused_line()
    print "line " NR ", `" beginning() "`" (why == "" ? "" : ": " why)
}

# The line's first bytes, without a part of a character at their end.
function beginning(   front) {
    front = substr(text, 1, 60)
    if (length(text) > 60) {
        while (front ~ /[\200-\277]$/) front = substr(front, 1, length(front) - 1)
        sub(/[\300-\377]$/, "", front)
        front = front " .."
    }
    if (not_utf_8(front)) gsub(/[\200-\377]/, "?", front)
    gsub(/[\001-\037\177]/, "?", front)
    return front
}

function refused_line(   name, key) {
    at = 1
    read_value(1)
    name = part[kinds[2] == "number" ? 3 : 2]
    key = unquoted(part[1])
    if (key == "tie") key = "i64"
    else if (!(key in types)) key = unquoted(part[3])
    key = name " " category(key)
    if (status == 16)
        return "the segment of line " segment " has " (documents + 0 ? documents " documents, 0 to " documents - 1 \
            : "no documents") ": a greater " \
            "number in that line, or a new segment line in front of this one"
    if (status == 17) return "the start and the segment's documents pass 9223372036854775807: begin lower"
    if (status == 15 && key in last)
        return "line " last_line[key] " recorded document " last[key] " of " name " already: sort the lines of a " \
            "column by document"
    if (status == 14 && key in typed) return "line " typed[key] " forced another type on " name
    if (status == 14 && key in first) return "line " first[key] " recorded " name " as " first_type[key]
    if (status == 11) return "with it " name " has numbers below 0 and numbers past 9223372036854775807"
    if (status == 8) return "take the \\u0000 out of the name"
    if (status == 9) return "another line requires " name " with another type"
    if (status == 10) return "a number of " name " isn't in this type"
    return ""
}

function unquoted(raw) { return substr(raw, 2, length(raw) - 2) }

# What is wrong with a line that is no line of a script, as far as can be told.
function bad_line(   byte) {
    if (text ~ /^\377\376\001\001|^\001\001\376\377/)
        return "this is UTF-32: `iconv -f UTF-32 -t UTF-8` makes it a script"
    if (text ~ /^\377\376|^\376\377/ || text ~ /^[^\001]?\001[^\001]\001/)
        return "this is UTF-16: `iconv -f UTF-16 -t UTF-8` makes it a script"
    if (text ~ /^\357\273\277/)
        return "a byte order mark stands in front: `sed '1s/^\\xEF\\xBB\\xBF//'` takes it away"
    byte = not_utf_8(text)
    if (byte)
        return "byte " byte " isn't UTF-8: where the file is Latin-1, `iconv -f LATIN1 -t UTF-8` makes it a script"
    if (text ~ /^[ \t\r]*$/) return "blanks alone: an empty line holds nothing at all"
    if (text ~ /^[ \t\r]*(#|\/\/|\/\*)/) return "there are no comments: leave it out"
    if (text ~ /^[ \t\r]*\{/) return "an object: a line is a list, as [\"i64\",0,\"size\",700] is for the document 0"
    if (text ~ /^[ \t\r]*\[[ \t\r]*$/)
        return "a list ends on its line: one list a line, without a list around all (`jq -c '.[]'`)"
    if (text ~ /^[ \t\r]*\][ \t\r]*,?[ \t\r]*$/) return "one list a line, without a list around all"
    at = 1
    if (!read_value(1)) return "no JSON at byte " at ": " wrong
    skip_blanks()
    if (at <= length(text) && kind != "list")
        return "a line is a list, in [ and ], as [\"i64\",0,\"size\",700], and this begins with " a(kind)
    if (at <= length(text))
        return substr(text, at, 1) == "," ? "a comma stands behind the line's list, at byte " at ": leave it out" \
            : "more stands behind the line's list, at byte " at ": one list a line"
    if (kind != "list") return "a line is a list, as [\"segment\",2], and this is " a(kind)
    if (parts == 0) return "an empty list: a line begins with a word, as [\"segment\",2]"
    if (kinds[1] == "list") return "lists in a list: one list a line, without a list around all (`jq -c '.[]'`)"
    if (kinds[1] != "text") return "a line begins with a word in double quotes, and this begins with " part[1]
    return wrong_parts(unquoted(part[1]))
}

function a(kind) { return kind ~ /^(true|false|null)$/ ? kind : kind == "object" ? "an object" : "a " kind }

function wrong_parts(word,   why) {
    if (!(word in shapes)) return "\"" word "\" is no first word" meant(word)
    if (parts != sizes[word])
        return parts (parts == 1 ? " part" : " parts") ", where there are " sizes[word] ": " shapes[word] \
            lacking(word)
    if (word == "segment") why = whole(2, "the count of documents", "4294967295")
    else if (word == "order")
        why = kinds[2] != "list" ? "the second part is a list of pairs, as [[0,1],[0,0]]" : pairs()
    else if (word == "drop")
        why = kinds[2] != "list" || part[2] !~ /^\[([ \t\r]*[0-9]+[ \t\r]*(,[ \t\r]*[0-9]+[ \t\r]*)*)?[ \t\r]*\]$/ \
            ? "the second part is a list of whole numbers, as [0,2]" : ""
    else if (word == "compact") why = ""
    else if (word == "find") why = wrong_find()
    else if (word == "query") why = wrong_query()
    else if (word in types) why = wrong_value(word)
    else {
        why = text_part(2, "a column's name")
        if (why == "" && word == "tie") why = value(3, "i64")
        else if (why == "" && !(part[3] ~ /^"/ && unquoted(part[3]) in types))
            why = part[3] " is no type: i64, u64, bool, datetime, ip, str or bytes" type_meant(unquoted(part[3]))
        else if (why == "" && word == "sorted" && part[3] !~ /^"(str|bytes)"$/)
            why = "only str and bytes can be sorted"
        else if (why == "" && word == "sort" && kinds[4] !~ /^(true|false)$/)
            why = "the last part is true, for falling values, or false, and not " part[4]
    }
    if (why != "") return why
    if (word ~ /^(order|sort)$/ && order) return "a second order: line " order " has one already"
    if (word ~ /^(type|sorted|tie)$/ || word in types)
        if (!segment) return ended ? "line " ended " ended the segment: another one begins with [\"segment\",n]" \
            : "no segment line stands before it: begin with [\"segment\",n], for n documents"
    return ""
}

function lacking(word) {
    if (word == "find" && parts == 5 && verb != "set") return "; from and to say in which rows to look, as 0,4294967295 for all"
    if (word in types && parts == 3) return "; d is the document's number in its segment, from 0"
    if (word == "sort" && parts == 3) return "; reversed is true for falling values, else false"
    if (word in types && parts > 4) return "; a document with several values has a line for each"
    return ""
}

function meant(word,   small) {
    small = tolower(word)
    if (small != word && small in shapes) return ": words are in small letters, \"" small "\""
    if (small ~ /^(segments?|seg|docs?|documents?|rows|begin|table|batch)$/) return ": did you mean \"segment\"?"
    if (small ~ /^(find|search|select|lookup|range|get|filter)$/) return ": did you mean \"find\"?"
    if (verb == "set") return meant_of_set(small)
    if (small ~ /^(drop|compact)$/) return ": it is for `columnar set`"
    if (small ~ /^(facets|counts?|histogram|terms|group)$/) return ": did you mean \"facet\"?"
    if (small ~ /^(queries|where|has|and|or|not|all)$/) return ": did you mean \"query\"?"
    if (small ~ /^(sort_?by|order_?by|ordered)$/) return ": did you mean \"sort\"?"
    if (small ~ /^(required?|column)$/) return ": did you mean \"require\"?"
    if (small ~ /^(orders|permutation|rowid)$/) return ": did you mean \"order\"?"
    return type_meant(small) == "" ? ": segment, a type (i64, u64, bool, datetime, ip, str, bytes), type, sorted, " \
        "tie, require, order, sort, find, facet or query" : type_meant(small)
}

function meant_of_set(small) {
    if (small ~ /^(delete|remove|dropped)$/) return ": did you mean \"drop\"?"
    if (small ~ /^(require|order|sort|facet|query)$/)
        return ": it is for `columnar merge`, which takes what `columnar set` writes"
    return type_meant(small) == "" ? ": segment, a type (i64, u64, bool, datetime, ip, str, bytes), type, sorted, " \
        "tie, drop, compact or find" : type_meant(small)
}

function type_meant(word) {
    if (word != tolower(word) && tolower(word) in types) return ": types are in small letters"
    word = tolower(word)
    if (word ~ /^(f64|f32|f16|float|float32|float64|double|real|decimal|numeric)$/)
        return ": there is no type of fractions; count a smaller unit, as i64 (cents for money)"
    if (word ~ /^(int|integer|i8|i16|i32|i128|int8|int16|int32|int64|long|short|number)$/)
        return ": did you mean \"i64\"?"
    if (word ~ /^(u8|u16|u32|u128|uint|uint8|uint16|uint32|uint64|unsigned|size)$/) return ": did you mean \"u64\"?"
    if (word ~ /^(string|text|varchar|char|keyword|utf8|facet|json)$/) return ": did you mean \"str\"?"
    if (word ~ /^(boolean|flag|bit)$/) return ": did you mean \"bool\"?"
    if (word ~ /^(date|time|timestamp|datetime64|date_time)$/) return ": did you mean \"datetime\"?"
    if (word ~ /^(ipv4|ipv6|ipaddr|addr|address|inet|ip_addr)$/) return ": did you mean \"ip\"?"
    if (word ~ /^(binary|blob|hex|byte|bytea)$/) return ": did you mean \"bytes\"?"
    return ""
}

# Whether a whole number without a sign is past another one.
function is_past(number, most) {
    return length(number) > length(most) || (length(number) == length(most) && number "" > most "")
}

function whole(i, what, most) {
    if (kinds[i] == "text" && part[i] ~ /^"[0-9]+"$/) return what " stands without quotes: " unquoted(part[i])
    if (kinds[i] == "fraction") return what " is a whole number, and " part[i] " is read as a fraction"
    if (kinds[i] != "number") return what " is a whole number, and not " part[i]
    if (part[i] ~ /^-/) return what " isn't below 0"
    if (is_past(part[i], most)) return what " is at most " most
    return ""
}

function text_part(i, what) {
    if (kinds[i] != "text") return what " is a text in double quotes, and not " part[i]
    return ""
}

function wrong_value(type,   why) {
    if (kinds[2] == "text" && kinds[3] == "number")
        return "the document's number stands in front of the name: " shapes[type]
    why = whole(2, "the document", "4294967295")
    if (why == "") why = text_part(3, "a column's name")
    return why == "" ? value(4, type) : why
}

function wrong_find(   why) {
    why = text_part(2, "a column's name")
    if (why == "" && !(part[3] ~ /^"/ && unquoted(part[3]) in types))
        why = part[3] " is no type: i64, u64, bool, datetime, ip, str or bytes" type_meant(unquoted(part[3]))
    if (why == "") why = value(4, unquoted(part[3]))
    if (why == "") why = value(5, unquoted(part[3]))
    if (why == "" && verb != "set") why = whole(6, "the first row", "4294967295")
    if (why == "" && verb != "set") why = whole(7, "the row behind the last one", "4294967295")
    return why
}

# The line is bad, and of all its parts just the query can be.
function wrong_query() {
    return "no query: one is [\"all\"], [\"has\",name,t], [\"range\",name,t,lo,hi], [\"not\",q], [\"and\",[q,..]] " \
        "or [\"or\",[q,..]], with values of t as other lines have them"
}

function pairs(   rest) {
    rest = part[2]
    gsub(/[ \t\r]/, "", rest)
    if (rest == "[]" || rest ~ /^\[(\[[0-9]+,[0-9]+\],?)+\]$/) return ""
    return "each row of an order is a pair of whole numbers, its segment and its row, as [0,1]"
}

# What is wrong with a part as a value of the type.
function value(i, type,   raw, held) {
    raw = part[i]
    if (kinds[i] == "null") return "null is no value: leave the line out where a document has none"
    if (kinds[i] == "list") return "a list is no value: a document with several has a line for each"
    if (kinds[i] == "object") return "an object is no value: each of its fields is a column, and a line of its own"
    if (type ~ /^([iu]64|datetime)$/) return number_value(i, type)
    if (type == "bool")
        return kinds[i] ~ /^(true|false)$/ ? "" : "a bool is true or false, without quotes, and not " raw
    if (kinds[i] != "text" && type != "str") return type " wants hexadecimal digits in double quotes, and not " raw
    if (kinds[i] != "text") return type " wants a text in double quotes: \"" raw "\""
    held = unquoted(raw)
    if (type == "bytes") {
        if (held !~ /^[0-9a-fA-F]*$/)
            return "bytes are hexadecimal digits, two for each (`od -An -v -tx1 | tr -d ' \\n'`)"
        if (length(held) % 2) return "bytes are two hexadecimal digits each, and here one is left over"
    }
    if (type == "ip" && (held !~ /^[0-9a-fA-F]*$/ || length(held) != 32)) return wrong_address(held)
    return ""
}

function number_value(i, type,   raw) {
    raw = part[i]
    if (kinds[i] == "text" && raw ~ /^"-?[0-9]+"$/) return "a number stands without quotes: " unquoted(raw)
    if (kinds[i] == "text" && type == "datetime")
        return "a point in time is nanoseconds since 1970, as `date -u -d " raw " +%s%N` prints"
    if (kinds[i] == "text") return type " wants a whole number; a text is recorded as \"str\""
    if (kinds[i] == "true" || kinds[i] == "false")
        return type " wants a whole number; true and false are recorded as \"bool\""
    if (kinds[i] == "fraction")
        return raw " is read as a fraction: " type " wants whole numbers, as of a smaller unit (cents for money)"
    if (type == "u64" && raw ~ /^-/) return "u64 isn't below 0: record it as \"i64\""
    if (type == "u64" && is_past(raw, "18446744073709551615"))
        return "a number past 64 bits: u64 ends at 18446744073709551615"
    if (type == "u64") return ""
    if (raw ~ /^-/ && is_past(substr(raw, 2), "9223372036854775808"))
        return "a number past 64 bits: " type " begins at -9223372036854775808"
    if (raw !~ /^-/ && is_past(raw, "18446744073709551615")) return "a number past 64 bits"
    if (raw !~ /^-/ && is_past(raw, "9223372036854775807"))
        return type " ends at 9223372036854775807" (type == "i64" ? ": record it as \"u64\"" : "")
    return ""
}

function wrong_address(held,   bytes) {
    if (split(held, bytes, ".") == 4 && held ~ /^[0-9]+[.][0-9]+[.][0-9]+[.][0-9]+$/ \
        && bytes[1] < 256 && bytes[2] < 256 && bytes[3] < 256 && bytes[4] < 256)
        return sprintf("an address is 32 hexadecimal digits: \"00000000000000000000ffff%02x%02x%02x%02x\"", \
            bytes[1], bytes[2], bytes[3], bytes[4])
    if (held ~ /:/) return "an address is 32 hexadecimal digits, all of them and without colons"
    return "an address is 32 hexadecimal digits, and here are " length(held) " characters"
}
