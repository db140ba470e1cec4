# What is not used. Reads, each from a file named so: imports (imports.awk), declarations (antt.awk), functions (rt.awk), words (tokens.awk, of .antt),
# paths (paths.awk), trace (names in docs/TRACE.md), long (FILE, LINE, LENGTH).
BEGIN { FS = "\t" }
FILENAME == "imports" {
    i = ++imports; import[i, 1] = $1; import[i, 2] = $2; import[i, 3] = $3; import[i, 4] = $4; import[i, 5] = $5
    source[$1, $3] = where($4); brought[where($4)] = 1
    next
}
FILENAME == "declarations" {
    i = ++declarations
    file[i] = $1; at[i] = $2; name[i] = $3; text[i] = $6 " " $7
    key[i] = stem_of($1) "." $3
    place[key[i]] = i; own[$1, $3] = i
    # a goal's answer and an invariant have `pub`, and what only they cite has not
    if (in_folder($1) && $5) answer[i] = 1
    next
}
FILENAME == "functions" {
    if ($4 == "lemma") { lemma[++lemmas] = $1 SUBSEP $3; next }
    if (match($6, $4 == "fn" ? "(requires|ensures)\\*?( [A-Za-z_0-9]+)?\\{" : "(^|[ ,{])ghost ")) clauses[$1] = clauses[$1] " " substr($6, RSTART)
    if ($5) { i = ++items; item[i] = $1; item_at[i] = $2; item_name[i] = $3; item_kind[i] = $4; item_text[i] = $6 }
    if ($5 && $4 == "fn") said[crate_of($1)] = said[crate_of($1)] " " $6
    next
}
FILENAME == "words" { word[$1, $2] = 1; if (in_folder($1)) proof_word[++proof_words] = $1 SUBSEP $2; next }
FILENAME == "paths" && $4 == "mod" {
    modules[module_of($1) "::" $3] = 1
    if ($5) { i = ++items; item[i] = $1; item_at[i] = $2; item_name[i] = $3; item_kind[i] = "mod" }
    next
}
FILENAME == "paths" { path[++paths] = $2; path_file[paths] = $1; next }
FILENAME == "trace" { cited[$1] = 1; next }
FILENAME == "long" { long_line[++long] = $1 ":" $2 ": a line of " $3 " characters"; next }
END {
    resolve()
    unused_declarations()
    unused_imports()
    for (i = 1; i <= long; i++) print long_line[i]
    unused_items()
    printf "%d declarations, %d imports, %d long lines; %d public items\n", n_declarations, n_imports, long, n_items
    exit (n_declarations + n_imports + long > 0)
}

function crate_of(f,   w) { split(f, w, "/"); return w[2] }

# Whether a file has the answers or invariants of a function, in a folder of proofs/.
function in_folder(f) { return f ~ /\/proofs\/.*\/[^\/]*\.antt$/ }

# crates/C/specs/F/G.antt and crates/C/proofs/F/G.antt: C.F.G
function stem_of(f,   c) {
    c = crate_of(f)
    sub(/^crates\/[^\/]*\/[^\/]*\//, "", f); sub(/\.antt$/, "", f); gsub(/\//, ".", f)
    return c "." f
}

# Rattle.C.specs.F.x and Rattle.C.proofs.F.x: C.F.x
function where(from) {
    if (sub(/^Rattle\./, "", from)) sub(/\.(specs|proofs)\./, ".", from)
    return from
}

# ---- declarations that no proof, contract or row of the trace reaches

function unused_declarations(   i, k, w) {
    for (k in cited) if (k in place) reach(place[k])
    for (i = 1; i <= proof_words; i++) { split(proof_word[i], w, SUBSEP); if (!((w[1], w[2]) in own)) cite(w[1], w[2], 0) }
    for (i = 1; i <= lemmas; i++) { split(lemma[i], w, SUBSEP); cite_path(w[1], w[2]) }
    for (i in answer) reach(i)
    for (k in clauses) cite_text(k, clauses[k], 0)
    for (i = 1; i <= declarations; i++) cite_text(file[i], text[i], i)
    while (waiting) flow(queue[waiting--])
    for (i = 1; i <= declarations; i++) {
        if (i in reached) continue
        n_declarations++
        print file[i] ":" at[i] ": " key[i] (citers[i] ? ": only unused declarations cite it" : ": nothing cites it")
    }
}

function reach(i) { if (!(i in reached)) { reached[i] = 1; queue[++waiting] = i } }

# All that a reached declaration cites is reached.
function flow(i,   w, n, j) { n = split(edges[i], w, " "); for (j = 1; j <= n; j++) reach(w[j]) }

function cite_text(f, s, by,   w, n, i) {
    n = split(s, w, /[ (){};,]+/)
    for (i = 1; i <= n; i++) {
        if (w[i] == "") continue
        cite(f, w[i], by)
        if (sub(/\.+$/, "", w[i])) cite(f, w[i], by)
    }
}

# A path of an attribute: `crate::proofs::M::law`, `low::specs::Base::cited`.
function cite_path(f, p) {
    sub(/^crate::/, crate_of(f) "::", p)
    sub(/::(specs|proofs)::/, "::", p)
    gsub(/::/, ".", p)
    if (p in place) { citers[place[p]] = 1; reach(place[p]) }
}

# Word t of file f, in declaration `by` (0: in a proof or a contract).
function cite(f, t, by,   i) {
    i = found(f, t)
    if (!i) i = found(f, "◌" t "◌")
    if (!i && match(t, /^[^.]+\./) && (f, substr(t, 1, RLENGTH)) in source) i = place[source[f, substr(t, 1, RLENGTH)] "." substr(t, RLENGTH + 1)]
    # a constructor or a field by the name of its type
    if (!i && match(t, /^[^.]+\./)) i = found(f, substr(t, 1, RLENGTH - 1))
    if (!i || i == by) return
    citers[i] = 1
    if (by) edges[by] = edges[by] " " i; else reach(i)
}

function found(f, t) {
    if ((f, t) in own) return own[f, t]
    return (f, t) in source && source[f, t] in place ? place[source[f, t]] : 0
}

# ---- imports

function unused_imports(   i, f, t) {
    for (i in clauses) clause_words(i, clauses[i])
    for (i = 1; i <= paths; i++) { t = path[i]; sub(/::.*$/, "", t); rust[path_file[i], t] = 1 }
    for (i = 1; i <= imports; i++) {
        f = import[i, 1]; t = import[i, 3]
        if (f ~ /\.rt$/ && import[i, 4] ~ /::/ ? (f, t) in rust || (import[i, 5] && handed_on(f, t)) : used(f, t) || passed_on(f, t)) continue
        n_imports++
        print f ":" import[i, 2] ": import of " t " (" import[i, 4] ")"
    }
}

# A name that is imported with `pub use`, and by another file from this one.
function passed_on(f, t) { return (stem_of(f) "." t) in brought }

# A name of the code that is imported with `pub use`, and named by another file as of this one.
function handed_on(f, t) { return (module_of(f) "::" t) in through }

function clause_words(f, s,   w, n, i) {
    n = split(s, w, /[ (){};,]+/)
    for (i = 1; i <= n; i++) {
        word[f, w[i]] = 1
        if (sub(/\.+$/, "", w[i])) word[f, w[i]] = 1
        if (match(w[i], /^[^.]+\./)) word[f, substr(w[i], 1, RLENGTH)] = 1
    }
}

# A name with places for arguments is used if it stands so, or all parts between the places do.
function used(f, t,   w, n, i) {
    if ((f, t) in word || (f, t ".") in word) return 1
    if (t !~ /◌/) return 0
    n = split(t, w, "◌")
    for (i = 1; i <= n; i++) if (w[i] != "" && !((f, w[i]) in word)) return 0
    return 1
}

# ---- public items of the code that no other crate names

# What the code and the imports name.
function resolve(   i) {
    for (i = 1; i <= imports; i++)
        if (import[i, 5] && import[i, 4] ~ /::/) alias[module_of(import[i, 1]) "::" import[i, 3]] = whole(import[i, 1], import[i, 4])
    for (i = 1; i <= paths; i++) {
        if (path[i] ~ /^\./) called(path_file[i], substr(path[i], 2)); else take_path(path_file[i], path[i])
    }
    for (i = 1; i <= imports; i++) {
        if (import[i, 4] ~ /::/) name_path(import[i, 1], whole(import[i, 1], import[i, 4]), import[i, 5])
        else if (match(import[i, 4], /^Rattle\.[^.]+.*\.declared\./)) name_path(import[i, 1], declared(import[i, 4]))
    }
}

# A method that file f calls, whatever its type.
function called(f, named) {
    if (!((f, named) in calls)) { calls[f, named] = 1; files_that_call[named] = files_that_call[named] " " f }
}

function unused_items(   i, t, full, how, w, n, k, home) {
    for (i = 1; i <= items; i++) {
        t = crate_of(item[i])
        full = (item_name[i] ~ /::/ ? t : module_of(item[i])) "::" item_name[i]
        if ((full in abroad) || item_name[i] == "main" || item_text[i] ~ /no_mangle/) continue
        if (item_kind[i] ~ /struct|enum/ && said[t] ~ ("[^A-Za-z0-9_]" item_name[i] "([^A-Za-z0-9_]|$)")) continue
        home = full in at_home
        if (match(item_name[i], /::/)) {
            n = split(files_that_call[substr(item_name[i], RSTART + 2)], w, " ")
            for (k = 1; k <= n; k++) if (crate_of(w[k]) != t) break; else if (w[k] != item[i]) home = 1
            if (k <= n) continue
        }
        how = home ? "its own crate does" : "nor does another file of its own"
        n_items++
        print item[i] ":" item_at[i] ": pub " item_kind[i] " " full ": no other crate uses it, " how
    }
}

# crates/C/src/m.rt: C::m, and C for lib and main
function module_of(f,   s) {
    s = f
    sub(/^crates\//, "", s); sub(/\/src\//, "::", s); sub(/\.rt$/, "", s); sub(/::(lib|main)$/, "", s); gsub(/\//, "::", s)
    return s
}

# A path from the crate's name on: `crate::`, `super::`, an imported or a sibling module.
function whole(f, p,   first, m) {
    m = module_of(f)
    if (sub(/^crate::/, "", p)) return crate_of(f) "::" p
    if (sub(/^super::/, "", p)) { sub(/::[^:]*$/, "", m); return m "::" p }
    first = p; sub(/::.*$/, "", first)
    if (p ~ /::/ && (f, first) in source) { sub(/^[^:]*/, "", p); return source[f, first] p }
    if (p ~ /::/ && (m "::" first) in modules) return m "::" p
    return p
}

function take_path(f, p) { if (p ~ /::/) name_path(f, whole(f, p)) }

# A path names the item and the modules on the way to it, what it is passed on as and what it is; a method is of its crate's type, in whichever
# file. A `pub use` names what it passes on for no one.
function name_path(f, p, passing,   c) {
    c = p; sub(/::.*$/, "", c)
    while (p ~ /::/) {
        if (p ~ /^[^:]+::.*[A-Z][A-Za-z0-9]*::[a-z_0-9]+$/) name_method(f, c, p)
        if (p in alias) { if (!passing) through[p] = 1; name_path(f, alias[p], passing) }
        else if (c != crate_of(f)) abroad[p] = 1
        else if (!passing) at_home[p] = 1
        sub(/::[^:]*$/, "", p)
    }
}

function name_method(f, c, p) {
    match(p, /[A-Za-z0-9]*::[a-z_0-9]+$/)
    if (c == crate_of(f)) at_home[c "::" substr(p, RSTART)] = 1; else abroad[c "::" substr(p, RSTART)] = 1
}

# Rattle.C.specs.declared.m.S.S: C::m::S
function declared(from,   c, n, w) {
    c = from; sub(/^Rattle\./, "", c); sub(/\..*$/, "", c)
    sub(/^.*\.declared\./, "", from)
    n = split(from, w, ".")
    return c "::" (n > 2 ? w[1] "::" : "") w[n]
}
