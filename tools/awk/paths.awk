# Names and paths of the code of .rt files (with text.awk), apart from imports: FILE and PATH, apart by tabs, each once, the name of a field or
# of a method that is called with a dot before it; and the names of modules that a file declares: FILE, LINE, NAME, "mod", PUB.
FNR == 1 { inside = using = 0 }
{ line = rt_code($0) }
using || line ~ /^[ \t]*(pub )?(ghost )?use / { using = line !~ /;/; next }
line ~ /^[ \t]*(pub )?mod / {
    pub = line ~ /^[ \t]*pub /
    sub(/^[ \t]*(pub )?mod /, "", line)
    sub(/[ ;{].*$/, "", line)
    print FILENAME "\t" FNR "\t" line "\tmod\t" pub
    next
}
{
    while (match(line, /[A-Za-z_][A-Za-z0-9_]*(::[A-Za-z_][A-Za-z0-9_]*)*/)) {
        path = substr(line, RSTART, RLENGTH)
        before = substr(line, 1, RSTART - 1)
        line = substr(line, RSTART + RLENGTH)
        # `x.name` and, on a line of its own, `.name`; not `0..name`
        if (before ~ /(^|[^.])\.$/) path = "." path
        if (!((FILENAME, path) in said)) { said[FILENAME, path] = 1; print FILENAME "\t" path }
    }
}
