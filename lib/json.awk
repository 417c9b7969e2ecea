# Reads JSON as the program does, of `text` from `at` on; where it isn't JSON, `wrong` says why, and `at` where.

function fail(why) {
    if (wrong == "") wrong = why
    return 0
}

function skip_blanks(   c) {
    for (c = substr(text, at, 1); c == " " || c == "\t" || c == "\r"; c = substr(text, at, 1)) at++
}

function read_text(   rest) {
    at++
    for (;;) {
        rest = substr(text, at, 1000)
        if (rest == "") return fail("a text isn't closed: its second \" is missing")
        if (match(rest, /^[^"\\\001-\037]+/)) { at += RLENGTH; continue }
        if (substr(rest, 1, 1) == "\"") { at++; return 1 }
        if (substr(rest, 1, 1) != "\\")
            return fail("a tab or another control character stands in a text: write \\t, \\n or \\u and four digits")
        if (match(rest, /^\\u[dD][89abAB][0-9a-fA-F][0-9a-fA-F]\\u[dD][c-fC-F][0-9a-fA-F][0-9a-fA-F]/)) at += RLENGTH
        else if (match(rest, /^\\u[dD][89a-fA-F]/)) return fail("one half of a pair of \\u escapes stands alone")
        else if (match(rest, /^\\(["\\\/bfnrt]|u[0-9a-fA-F][0-9a-fA-F][0-9a-fA-F][0-9a-fA-F])/)) at += RLENGTH
        else return fail("a \\ in a text is written \\\\")
    }
}

# A value that is no list: its first character tells which.
function read_plain(   c, rest) {
    rest = substr(text, at, 400)
    c = substr(rest, 1, 1)
    if (c == "\"") { kind = "text"; return read_text() }
    if (match(rest, /^-?(0|[1-9][0-9]*)(\.[0-9]+)?([eE][-+]?[0-9]+)?/)) {
        kind = substr(rest, 1, RLENGTH) ~ /[.eE]|^-0$/ ? "fraction" : "number"
        at += RLENGTH
        c = substr(text, at, 1)
        if (c ~ /[0-9]/) return fail("a number begins with 0")
        if (c == ".") return fail("a number ends with a point")
        if (c ~ /[a-zA-Z_:\/-]/)
            return fail("a number isn't a number alone; a text, a date too, stands in double quotes")
        return 1
    }
    if (match(rest, /^(true|false|null)/) && substr(rest, RLENGTH + 1, 1) !~ /[a-zA-Z0-9_]/) {
        kind = substr(rest, 1, RLENGTH)
        at += RLENGTH
        return 1
    }
    if (c == "") return fail("the line ends before its last ]")
    if (rest ~ /^\342\200[\230-\237]/) return fail("a text stands in straight double quotes, \"")
    if (c == "'") return fail("a text stands in double quotes, \", and not in single ones")
    if (c == "," || c == "]" || c == "}") return fail("a value is missing in front of the " c)
    if (c == "+" || c == ".") return fail("a number begins with a digit or with -")
    if (c == "#" || substr(rest, 1, 2) == "//" || substr(rest, 1, 2) == "/*")
        return fail("there are no comments: leave it out")
    if (match(rest, /^(NaN|nan|NAN|-?Infinity|-?inf|None|nil|NULL|Null|undefined|NA)/))
        return fail("there is no " substr(rest, 1, RLENGTH) ": leave the line out where a document has no value")
    if (match(rest, /^(True|TRUE|False|FALSE)/)) return fail("true and false stand in small letters")
    if (match(rest, /^[A-Za-z_][A-Za-z0-9_]*/))
        return fail("a text stands in double quotes: \"" substr(rest, 1, RLENGTH) "\"")
    return fail("no JSON value begins so")
}

function read_object(depth) {
    at++
    skip_blanks()
    if (substr(text, at, 1) == "}") { at++; return 1 }
    for (;;) {
        skip_blanks()
        if (substr(text, at, 1) != "\"") return fail("a key of an object stands in double quotes")
        if (!read_text()) return 0
        skip_blanks()
        if (substr(text, at, 1) != ":") return fail("a : is missing behind a key")
        at++
        if (!read_value(depth + 1)) return 0
        skip_blanks()
        if (substr(text, at, 1) == "}") { at++; return 1 }
        if (substr(text, at, 1) != ",") return fail("a , or } is missing")
        at++
    }
}

# A list; of the outermost one the parts are kept, with their kinds.
function read_list(depth,   from, c) {
    at++
    skip_blanks()
    if (substr(text, at, 1) == "]") { at++; return 1 }
    for (;;) {
        skip_blanks()
        from = at
        if (!read_value(depth + 1)) return 0
        if (depth == 1) {
            parts++
            part[parts] = substr(text, from, at - from)
            kinds[parts] = kind
        }
        skip_blanks()
        c = substr(text, at, 1)
        if (c == "]") { at++; return 1 }
        if (c == "") return fail("the line ends before its last ]: each line is one whole list")
        if (c != ",") return fail("a , or ] is missing")
        at++
    }
}

function read_value(depth,   c) {
    skip_blanks()
    if (depth > 127) return fail("lists stand in lists more than 127 deep")
    c = substr(text, at, 1)
    if (c == "[") { if (!read_list(depth)) return 0; kind = "list"; return 1 }
    if (c == "{") { if (!read_object(depth)) return 0; kind = "object"; return 1 }
    return read_plain()
}

# Characters as UTF-8 has them.
BEGIN {
    more = "[\200-\277]"
    utf_8 = "^([\001-\177]|([\302-\337]|\340[\240-\277]|[\341-\354\356\357]" more "|\355[\200-\237]" \
        "|\360[\220-\277]" more "|[\361-\363]" more more "|\364[\200-\217]" more ")" more ")*"
}

# The first byte that isn't UTF-8, or 0.
function not_utf_8(line) {
    match(line, utf_8)
    return RLENGTH < length(line) ? RLENGTH + 1 : 0
}
