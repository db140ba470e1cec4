# Shared by the tools: text without comments, and in one form whatever its layout.

# A line in which the spaces and dashes of literal strings are other characters, so that they stay as they are.
function shielded(s,   t, part) {
    while (match(s, /"([^"\\]|\\.)*"/)) {
        part = substr(s, RSTART, RLENGTH)
        gsub(/ /, "\001", part); gsub(/-/, "\002", part)
        t = t substr(s, 1, RSTART - 1) part
        s = substr(s, RSTART + RLENGTH)
    }
    return t s
}

# A line of .antt without its comments. `inside` is 1 if a comment in braces goes on from the line before.
function antt_code(s,   at, rest) {
    s = shielded(s)
    while (inside || (at = index(s, "{-"))) {
        if (!inside) { rest = rest substr(s, 1, at - 1) " "; s = substr(s, at + 2); inside = 1 }
        if (!(at = index(s, "-}"))) { s = ""; break }
        s = substr(s, at + 2); inside = 0
    }
    s = rest s
    if (match(s, /(^|[ \t])--.*$/)) s = substr(s, 1, RSTART - 1)
    return s
}

# A line of .rt without its comments and literal strings and characters.
function rt_code(s,   at, rest) {
    while (inside || (at = index(s, "/*"))) {
        if (!inside) { rest = rest substr(s, 1, at - 1) " "; s = substr(s, at + 2); inside = 1 }
        if (!(at = index(s, "*/"))) { s = ""; break }
        s = substr(s, at + 2); inside = 0
    }
    s = rest s
    gsub(/extern "C"/, "extern C", s)
    gsub(/"([^"\\]|\\.)*"/, "\"\"", s)
    gsub(/'([^'\\]|\\[^'])'/, "0", s)
    sub(/\/\/.*$/, "", s)
    return s
}

# One form for all layouts: one space between words, none beside brackets and separators, no separator before a closing bracket.
function plain(s) {
    gsub(/[ \t]+/, " ", s)
    gsub(/ *\( */, "(", s); gsub(/ *\) */, ")", s)
    gsub(/ *\{ */, "{", s); gsub(/ *\} */, "}", s)
    gsub(/ *; */, ";", s); gsub(/ *, */, ",", s)
    gsub(/[;,]\}/, "}", s); gsub(/,\)/, ")", s)
    sub(/^ /, "", s); sub(/ $/, "", s)
    return s
}
