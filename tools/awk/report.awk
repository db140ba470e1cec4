# The report on what moved.awk found, as Markdown. `only` is 1 for the public contracts alone; then the exit status is 1 if one moved or was removed.
function report() {
    print "From " base " to " head ":"
    print ""
    spread()
    print "'Moved' is said of what says something else now; layout and comments do not count."
    print ""
    public_part("contract", "public contracts")
    public_part("type", "public types")
    if (only) exit (bad > 0)
    part("definition", "definitions")
    part("contract", "contracts of all functions")
    part("type", "types of the code")
    part("law", "laws, by statement")
    proofs_of_laws()
    part("proof", "proof files")
    by_crate()
}

# One line of counts, then the names.
function counts(title, same, moved, added, removed, place, renamed,   s) {
    s = title ": " same + 0 " unchanged, " moved + 0 " moved, " added + 0 " added, " removed + 0 " removed"
    if (place) s = s ", " place " in another place"
    if (renamed) s = s ", " renamed " renamed"
    print s
}

function public_part(which, title,   j, i, n, names, st, s) {
    for (j = 1; j <= total[2]; j++) {
        if (section[2, j] != which || !public[2, j]) continue
        i = mate[2, j]
        st = !i || !public[1, i] ? "added" : status[2, j]
        n[st]++
        if (st == "same" && rests(cites[2, j])) s = s ", `" key[2, j] "`"
        note(names, st, key[2, j], i ? key[1, i] : "")
    }
    for (i = 1; i <= total[1]; i++) {
        j = mate[1, i]
        if (section[1, i] != which || !public[1, i] || (j && public[2, j])) continue
        n["removed"]++
        note(names, "removed", key[1, i], j ? " (now `" key[2, j] "`, not public)" : "")
    }
    bad += n["moved"] + n["removed"] + n["renamed"]
    counts(title, n["same"] + n["place"], n["moved"], n["added"], n["removed"], n["place"], n["renamed"])
    lists(names)
    if (s != "") wrap("- unchanged, but what they say rests on definitions that moved: " substr(s, 3))
    print ""
}

# Marks the definitions that moved, those that cite them, and so on.
function spread(   j, more) {
    for (j = 1; j <= total[2]; j++) if (pool[2, j] == "declaration" && status[2, j] == "moved") shaken[key[2, j]] = 1
    for (more = 1; more;) {
        more = 0
        for (j = 1; j <= total[2]; j++) {
            if (pool[2, j] != "declaration" || (key[2, j] in shaken) || !rests(cites[2, j])) continue
            shaken[key[2, j]] = more = 1
        }
    }
}

function rests(cited,   w, n, i) {
    n = split(cited, w, " ")
    for (i = 1; i <= n; i++) if (substr(w[i], index(w[i], "=") + 1) in shaken) return 1
    return 0
}

function part(which, title,   j, i, n, names, alone) {
    for (j = 1; j <= total[2]; j++) {
        if (section[2, j] != which) continue
        n[status[2, j]]++
        tell(2, j, status[2, j])
        note(names, status[2, j], key[2, j], mate[2, j] ? key[1, mate[2, j]] : "")
        if (which == "proof" && status[2, j] == "same" && again[j]) alone = alone ", `" key[2, j] "`"
    }
    for (i = 1; i <= total[1]; i++) {
        if (section[1, i] != which || mate[1, i]) continue
        n["removed"]++
        tell(1, i, "removed")
        note(names, "removed", key[1, i], "")
    }
    counts(title, n["same"], n["moved"], n["added"], n["removed"], n["place"], n["renamed"])
    lists(names)
    if (alone != "") wrap("- unchanged but for their imports: " substr(alone, 3))
    print ""
}

# Laws that say what they said and are proved otherwise.
function proofs_of_laws(   j, n, s) {
    for (j = 1; j <= total[2]; j++) {
        if (section[2, j] != "law" || !again[j] || status[2, j] == "moved") continue
        n++
        cell[crate[2, j], "again"]++
        s = s ", `" key[2, j] "`"
    }
    print "laws whose statement stands and whose proof changed: " n + 0
    if (n) wrap("- " substr(s, 3))
    print ""
}

# A name for a list; what went elsewhere is put together by where it was and where it is.
function note(names, st, now, before,   from, to) {
    if (st == "same") return
    if (st == "place") {
        from = stem(before); to = stem(now)
        if (!((st, from, to) in names)) names["order", ++names["n"]] = st SUBSEP from SUBSEP to
        names[st, from, to] = names[st, from, to] ", `" substr(now, length(to) + 1) "`"
        return
    }
    names[st] = names[st] ", `" (st == "renamed" ? before "` to `" now "`" : now "`" (st == "removed" ? before : ""))
}

# All before the last name, with its mark
function stem(s) { match(s, /^.*(\.|::)/); return substr(s, 1, RLENGTH) }

function lists(names,   i, w, st) {
    for (i = 1; i <= split("moved added removed renamed", st, " "); i++)
        if (st[i] in names) wrap("- " st[i] ": " substr(names[st[i]], 3))
    for (i = 1; i <= names["n"]; i++) {
        split(names["order", i], w, SUBSEP)
        wrap("- from `" bare(w[2]) "` to `" bare(w[3]) "`: " substr(names[w[1], w[2], w[3]], 3))
    }
}

function bare(s) { sub(/(\.|::)$/, "", s); return s }

# Lines of at most 150 bytes, broken between names.
function wrap(s,   w, n, i, line) {
    n = split(s, w, " ")
    for (i = 1; i <= n; i++) {
        if (line != "" && length(line) + 1 + length(w[i]) > 150) { print line; line = "  " w[i] }
        else line = line (line == "" ? "" : " ") w[i]
    }
    print line
}

# ---- the table of crates

function tell(s, i, st) {
    if (!(crate[s, i] in known)) { known[crate[s, i]] = 1; order[++crates] = crate[s, i] }
    cell[crate[s, i], section[s, i], st]++
    if (st != "same") touched[crate[s, i]] = 1
    if (st == "place") gone(crate[1, mate[2, i]], crate[2, i], section[2, i])
}

# What went to another crate is counted in the crate that it left, too.
function gone(from, to, which) {
    if (from == to) return
    if (!(from in known)) { known[from] = 1; order[++crates] = from }
    cell[from, which, "left"]++
    touched[from] = 1
}

function figures(c, which,   st, i, s) {
    for (i = 1; i <= split("same moved added removed place left renamed", st, " "); i++)
        if ((c, which, st[i]) in cell) s = s ", " cell[c, which, st[i]] " " worded(st[i])
    return substr(s, 3)
}

function worded(st) { return st == "place" ? "from elsewhere" : st == "left" ? "to elsewhere" : st }

function by_crate(   i, c, still, rows) {
    for (i = 1; i <= crates; i++) {
        c = order[i]
        if (!(c in touched) && !((c, "again") in cell)) { still = still ", `" c "`"; continue }
        rows = rows "| `" c "` | " figures(c, "definition") " | " figures(c, "contract") " | " figures(c, "law") " | " \
            (cell[c, "again"] ? cell[c, "again"] : "") " | " figures(c, "proof") " |\n"
    }
    if (rows != "") {
        print "| crate | definitions | contracts | laws | laws proved otherwise | proof files |"
        printf "|---|---|---|---|---:|---|\n%s\n", rows
    }
    if (still != "") wrap("Crates in which nothing moved: " substr(still, 3))
}
