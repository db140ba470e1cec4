# Makes the entries that moved.awk compares, a line each: SECTION, CRATE, KEY, NAME, PUBLIC, WHAT IT SAYS, THE REST, WHAT IT CITES, apart by tabs.
# Reads imports, declarations (twice: with names=1 for their names alone), functions and proof files, each from a file named so.
BEGIN { FS = OFS = "\t"; n = split(crates, list, " "); for (i = 1; i <= n; i++) open[list[i]] = 1 }
FILENAME ~ /imports$/ { source[$1, $3] = where($4); next }
$4 == "lemma" { next }
{ split($1, path, "/"); crate = path[2]; module = inner($1) }
names { source[$1, $3] = crate "." module "." $3; next }
FILENAME ~ /proofs$/ { print "proof", crate, module, last(module), 0, $2, $3, ""; next }
FILENAME ~ /functions$/ {
    section = $4 ~ /^(fn|ghost)$/ ? "contract" : "type"
    print section, crate, module "::" $3, $3, (crate in open) && module == crate && ($5 || $3 == "main"), $6, $7, cited($1, $6)
    next
}
{ print (path[3] == "specs" ? "definition" : "law"), crate, crate "." module "." $3, $3, 0, $6, $7, cited($1, $6) }

# crates/C/specs/F.antt: F; crates/C/proofs/a/b/Answers.antt: C::a::b, and C::a::b::Invariants of another file there; crates/C/src/m.rt: C::m, and C for lib and main
function inner(file,   s) {
    s = file
    sub(/^crates\/[^\/]*\/[^\/]*\//, "", s)
    if (s ~ /\.rt$/) { sub(/\.rt$/, "", s); s = s ~ /^(lib|main)$/ ? "" : s }
    else if (s ~ /\// && file ~ /\/proofs\//) { if (!sub(/\/Answers\.antt$/, "", s)) sub(/\.antt$/, "", s) }
    else { sub(/\.antt$/, "", s); gsub(/\//, ".", s); return s }
    gsub(/\//, "::", s)
    return crate (s == "" ? "" : "::" s)
}

function last(s) { sub(/^.*::/, "", s); return s }

# Rattle.C.specs.F.x and Rattle.C.proofs.F.x: C.F.x
function where(from) {
    if (sub(/^Rattle\./, "", from)) sub(/\.(specs|proofs)\./, ".", from)
    return from
}

# The names of declarations that a text has, each with where it is from: ' name=from name=from '.
function cited(file, text,   w, n, i, s) {
    n = split(text, w, /[ (){};,]+/)
    split("", seen)
    s = " "
    for (i = 1; i <= n; i++) {
        if (w[i] == "" || (w[i] in seen)) continue
        seen[w[i]] = 1
        if ((file, w[i]) in source) s = s w[i] "=" source[file, w[i]] " "
        else if ((file, "◌" w[i] "◌") in source) s = s w[i] "=" source[file, "◌" w[i] "◌"] " "
    }
    return s
}
