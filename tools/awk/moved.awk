# Pairs the entries of two commits (files named base and head, as entries.awk writes them) and finds what became of each.
# status[2, j] is same, moved, place, renamed or added, and status[1, i] of an entry with no mate is removed.
BEGIN { FS = "\t" }
{
    s = FILENAME ~ /base$/ ? 1 : 2
    i = ++total[s]
    section[s, i] = $1; crate[s, i] = $2; key[s, i] = $3; name[s, i] = $4; public[s, i] = $5
    says[s, i] = $6; rest[s, i] = $7; cites[s, i] = $8
    # a declaration may go from proofs/ to specs/
    pool[s, i] = $1 ~ /^(definition|law)$/ ? "declaration" : $1
}
END { pair("key"); pair("place"); pair("renamed"); judge(); report() }

# What has to be equal for two entries to be mates.
function sign(how, s, i) {
    if (how == "key") return pool[s, i] SUBSEP key[s, i]
    if (how == "place") return pool[s, i] SUBSEP name[s, i] SUBSEP says[s, i]
    if (pool[s, i] == "proof" || (pool[s, i] == "contract" && says[s, i] !~ /(requires|ensures)\*?( [A-Za-z_0-9]+)?\{/)) return ""
    return pool[s, i] SUBSEP without(says[s, i], last_part(name[s, i]))
}

# `Type::method` stands as `method` in its text.
function last_part(s) { sub(/^.*::/, "", s); return s }

# A text with every occurrence of a name as a whole word replaced.
function without(text, word,   w, n, i, t) {
    gsub(/[(){};,]/, " & ", text)
    n = split(text, w, " ")
    for (i = 1; i <= n; i++) t = t (w[i] == word ? "@" : w[i]) " "
    return t
}

function pair(how,   i, j, k, t, queue, heads, taken) {
    for (j = 1; j <= total[2]; j++) {
        if (mate[2, j] || (t = sign(how, 2, j)) == "") continue
        queue[t, ++heads[t]] = j
    }
    for (i = 1; i <= total[1]; i++) {
        if (mate[1, i] || (t = sign(how, 1, i)) == "" || taken[t] >= heads[t] + 0) continue
        k = queue[t, ++taken[t]]
        mate[1, i] = k; mate[2, k] = i; paired[k] = how
        if (how == "place" && pool[1, i] == "declaration") placed[key[1, i]] = key[2, k]
    }
}

# Whether the names that both texts import are from the same places.
function cites_same(i, j,   w, n, k, at, from, other) {
    n = split(cites[1, i], w, " ")
    for (k = 1; k <= n; k++) { at = index(w[k], "="); from[substr(w[k], 1, at - 1)] = substr(w[k], at + 1) }
    n = split(cites[2, j], w, " ")
    for (k = 1; k <= n; k++) {
        at = index(w[k], "=")
        if (!(substr(w[k], 1, at - 1) in from)) continue
        other = from[substr(w[k], 1, at - 1)]
        if (other in placed) other = placed[other]
        if (other != substr(w[k], at + 1)) return 0
    }
    return 1
}

function judge(   i, j) {
    for (i = 1; i <= total[1]; i++) if (!mate[1, i]) status[1, i] = "removed"
    for (j = 1; j <= total[2]; j++) {
        i = mate[2, j]
        if (!i) { status[2, j] = "added"; continue }
        if (paired[j] == "key" && says[1, i] != says[2, j]) status[2, j] = "moved"
        else if (!cites_same(i, j)) status[2, j] = "moved"
        else status[2, j] = paired[j] == "key" ? "same" : paired[j]
        if (rest[1, i] != rest[2, j]) again[j] = 1
    }
}
