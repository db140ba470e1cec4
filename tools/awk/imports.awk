# Names that .antt and .rt files import (with text.awk): for each a line of FILE, LINE, the NAME in the file, WHERE it is from, and PUB, 1 if
# the file passes it on, apart by tabs. A module imported `as` a name has a dot after it. The names in braces may stand on lines of their own.
FNR == 1 { inside = 0; path = "" }
{ line = FILENAME ~ /\.rt$/ ? rt_code($0) : antt_code($0) }
path != "" { list(line); next }
line ~ /^[ \t]*(pub )?(ghost )?use / { imports(line) }

function imports(s,   open) {
    pub = s ~ /^[ \t]*pub /
    sub(/^[ \t]*(pub )?(ghost )?use /, "", s)
    sub(/[ ;\t]*$/, "", s)
    if (!(open = index(s, "{"))) { whole(s); return }
    path = substr(s, 1, open - 1)
    list(substr(s, open + 1))
}

# Names up to the closing brace, or up to the line's end if more follow.
function list(s,   closed, part, n, i) {
    if ((closed = index(s, "}"))) s = substr(s, 1, closed - 1)
    n = split(s, part, ",")
    for (i = 1; i <= n; i++) if (part[i] ~ /[^ \t]/) one(part[i])
    if (closed) path = ""
}

function one(s,   w, n) {
    n = split(s, w, " ")
    say(n == 3 && w[2] == "as" ? w[3] : w[1], path w[1])
}

# `use a::b;` brings b; `use A.B as c` brings c and what is reached through it.
function whole(s,   w, n, last) {
    n = split(s, w, " ")
    if (n == 3 && w[2] == "as") { say(w[3] (index(w[1], "::") ? "" : "."), w[1]); return }
    last = w[1]
    sub(/^.*(::|\.)/, "", last)
    say(last (index(w[1], "::") ? "" : "."), w[1])
}

function say(named, from) { printf "%s\t%d\t%s\t%s\t%d\n", FILENAME, FNR, named, from, pub }
