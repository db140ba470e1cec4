# The words of files apart from their imports (with text.awk): FILE and WORD, apart by tabs, each word of a file once. Of a path the words are
# its first part with a dot and its last part.
FNR == 1 { inside = using = 0 }
{ line = antt_code($0) }
line ~ /^[^ \t}]/ { using = line ~ /^(pub )?(use|mod) / }
!using { words(line) }

function words(s,   w, n, i) {
    n = split(s, w, /[ \t(){};,]+/)
    for (i = 1; i <= n; i++) if (w[i] != "") word(w[i])
}

function word(t,   first) {
    say(t)
    if (t ~ /^\./) return
    if (sub(/\.+$/, "", t)) say(t)
    if (match(t, /^[^.]+\./)) {
        say(substr(t, 1, RLENGTH))
        sub(/^.*\./, "", t)
        say(t)
    }
}

function say(t) { if (!((FILENAME, t) in said)) { said[FILENAME, t] = 1; print FILENAME "\t" t } }
