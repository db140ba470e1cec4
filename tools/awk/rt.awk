# Functions, types, traits and their ghost members of .rt files (with text.awk): for each a line of FILE, LINE, NAME, KIND, PUB, WHAT IT SAYS and
# an empty field, apart by tabs. KIND is fn, struct, enum, trait or ghost; a method is named TYPE::METHOD, a ghost member TYPE::TRAIT::MEMBER
# in an `impl` and TRAIT::MEMBER in the trait. A function says its attributes, the head of the `impl` or trait around it, its signature, requires
# and ensures; a type or a ghost member says all of its text. Attributes that say how to prove or build are left out; each path in their
# `using` and `unfolding` has a line of its own, of KIND lemma and with the path as NAME.
FNR == 1 { file = FILENAME; mode = attributes = asked = ""; depth = level = inside = 0 }
{ line = rt_code($0); lemmas(line); scan(line) }

function scan(rest) {
    while (rest ~ /[^ \t]/) {
        if (mode == "") rest = look(rest)
        else if (mode == "attribute") rest = attribute(rest)
        else if (mode == "head") rest = head(rest)
        else if (mode == "item") rest = collect(rest)
        else rest = pass(rest)
    }
    if (mode != "") text = text " "
}

# Attributes may stand anywhere, in bodies too, and over several lines.
function lemmas(s,   w, n, i) {
    asked = asked " " s
    while (match(asked, /(using|unfolding)\([^()]*\)/)) {
        s = substr(asked, RSTART, RLENGTH)
        asked = substr(asked, RSTART + RLENGTH)
        sub(/^[a-z]*\(/, "", s)
        n = split(s, w, /[ ,)]+/)
        for (i = 1; i <= n; i++) if (w[i] ~ /::/) printf "%s\t%d\t%s\tlemma\t0\t\t\n", file, FNR, w[i]
    }
    if (asked !~ /(using|unfolding)\([^()]*$/) asked = ""
}

# Outside of items: attributes, the end of an `impl`, and the start of the next item.
function look(rest,   s, w) {
    sub(/^[ \t]+/, "", rest)
    if (rest ~ /^#!?\[/) { mode = "attribute"; text = ""; level = 0; return rest }
    if (rest ~ /^[^A-Za-z_]/) { if (rest ~ /^}/ && depth) depth--; attributes = ""; return substr(rest, 2) }
    public = sub(/^pub(\([^)]*\))?[ \t]+/, "", rest)
    line_of = FNR; level = clause = 0; text = ""
    s = rest
    while (sub(/^(const|unsafe|async|final|extern C)[ \t]+/, "", s)) { }
    if (s ~ /^fn[ \t]/) { start("fn", s); return rest }
    w = rest; sub(/[^a-z_].*$/, "", w)
    if (w ~ /^(struct|enum)$/ || (w == "ghost" && rest !~ /^ghost[ \t]+use[ \t]/)) { start(w, rest); return rest }
    mode = w ~ /^(impl|trait|mod)$/ ? "head" : "pass"
    braces = in_body = 0
    attributes = ""
    return rest
}

function start(how, s,   w) {
    mode = "item"; item = how
    split(s, w, /[ \t(<{;:=]+/)
    title = w[2]
    text = attributes (depth && scope_head[depth] != "" ? scope_head[depth] " " : "")
    attributes = ""
}

# An attribute up to its closing bracket. It belongs to the next item unless it is the file's.
function attribute(rest,   c) {
    while (match(rest, /[][]/)) {
        c = substr(rest, RSTART, 1)
        text = text substr(rest, 1, RSTART); rest = substr(rest, RSTART + 1)
        level += c == "[" ? 1 : -1
        if (level) continue
        if (text !~ /^#!|^#\[(tactic|inline|cycle)/) attributes = attributes text " "
        mode = ""
        return rest
    }
    text = text rest
    return ""
}

# The head of an `impl`, a trait or a module, up to its opening brace.
function head(rest,   brace) {
    if (!match(rest, /[{;]/)) { text = text rest; return "" }
    text = plain(text substr(rest, 1, RSTART - 1)); brace = substr(rest, RSTART, 1); rest = substr(rest, RSTART + 1)
    mode = ""
    if (brace == "{") enter(text)
    return rest
}

function enter(s,   trait) {
    depth++
    scope[depth] = ""; scope_head[depth] = s; scope_trait[depth] = ""
    if (s ~ /^mod /) { scope_head[depth] = ""; return }
    if (sub(/^trait /, "", s)) { scope[depth] = last_name(s); printf "%s\t%d\t%s\ttrait\t%d\t%s\t\n", file, line_of, scope[depth], public, scope_head[depth]; return }
    sub(/^impl */, "", s)
    if (s ~ /^</) s = past_generics(s)
    if (match(s, / for [^<]/)) { trait = substr(s, 1, RSTART - 1); s = substr(s, RSTART + 5); scope_trait[depth] = last_name(trait) }
    scope[depth] = last_name(s)
}

# `a::b::Name<..> where ..`: Name
function last_name(s) { sub(/^[ &!]+/, "", s); sub(/[^A-Za-z0-9_:].*$/, "", s); sub(/:+$/, "", s); sub(/^.*::/, "", s); return s }

function past_generics(s,   i, c, open) {
    for (i = 1; i <= length(s); i++) {
        c = substr(s, i, 1)
        if (c == "<") open++
        else if (c == ">" && substr(s, i - 1, 1) != "-" && --open == 0) break
    }
    s = substr(s, i + 1)
    sub(/^ /, "", s)
    return s
}

# The text of an item up to the end of its signature or, of a type or a ghost member, of its text.
function collect(rest,   c, before) {
    if (!match(rest, /[][(){};]/)) { text = text rest; return "" }
    before = substr(rest, 1, RSTART - 1); c = substr(rest, RSTART, 1); rest = substr(rest, RSTART + 1)
    text = text before
    if (c ~ /[][()]/) { text = text c; if (!clause) level += c ~ /[[(]/ ? 1 : -1; return rest }
    if (c == "}") { text = text c; if (--clause == 0 && item ~ /struct|enum/) done(); return rest }
    if (c == ";") { if (clause || level) text = text c; else done(); return rest }
    if (clause || level || item != "fn" || text ~ /(requires|ensures|decreases|invariant)\*?([ \t]+[A-Za-z_0-9]+)?[ \t]*$/) { clause++; text = text c; return rest }
    done()
    mode = "pass"; braces = in_body = 1
    return rest
}

# Past the body of a function, or past another item: up to its last brace, or a semicolon outside of braces and brackets.
function pass(rest,   c) {
    if (!match(rest, /[][(){};]/)) return ""
    c = substr(rest, RSTART, 1)
    if (c ~ /[][()]/) { if (!braces) level += c ~ /[[(]/ ? 1 : -1 }
    else if (c == "{") braces++
    else if (c == "}") { if (--braces == 0 && in_body) { mode = ""; in_body = 0 } }
    else if (!braces && !level) mode = ""
    return substr(rest, RSTART + 1)
}

function done(   named) {
    named = title
    if (depth && scope[depth] != "") named = scope[depth] "::" (item == "ghost" && scope_trait[depth] != "" ? scope_trait[depth] "::" : "") title
    printf "%s\t%d\t%s\t%s\t%d\t%s\t\n", file, line_of, named, item, public, plain(text)
    mode = ""
}
