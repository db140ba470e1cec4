# Declarations of .antt files (with text.awk): for each a line of FILE, LINE, NAME, KIND, PUB, WHAT IT SAYS, THE REST, apart by tabs.
# KIND is record, data, ruleset, abbrev, unfoldable or law (a declaration that does not unfold). What a law says is its type with the
# parameters of the modules around it, and the rest is its proof; any other declaration says all of its text.
FNR == 1 { file_done(); file = FILENAME }
{ line = antt_code($0); if (line ~ /[^ \t]/) take(line) }
END { file_done() }

function file_done(   i) {
    for (i = 1; i <= count; i++) {
        if (kind[i] != "law") { says[i] = says[i] " " rest[i]; rest[i] = "" }
        printf "%s\t%d\t%s\t%s\t%d\t%s\t%s\n", file, at[i], name[i], kind[i], public[i], plain(says[i]), plain(rest[i])
    }
    count = current = depth = heading = inside = 0
    indent[0] = 0
    split("", known)
}

# One line: more of the head of a module, more of a declaration, or the start of something at the scope's indentation.
function take(line,   column) {
    column = match(line, /[^ \t]/) - 1
    if (heading) { head[depth] = head[depth] " " line; heading = !ends_head(line); return }
    if (depth && indent[depth] < 0) {
        if (column > indent[depth - 1]) indent[depth] = column; else depth--
    }
    while (depth && column < indent[depth]) depth--
    if (column > indent[depth]) more(line); else start(line)
}

function ends_head(line) { return line ~ /(^|[ )}])where *$/ }

function more(line) {
    if (!current) return
    if (saying) says[current] = says[current] " " line; else rest[current] = rest[current] " " line
}

function start(line,   w, n, i, mods, pub) {
    n = split(line, w, " ")
    for (i = 1; w[i] ~ /^(pub|abbrev|unfoldable|opaque|private)$/; i++) if (w[i] == "pub") pub = 1; else mods = mods w[i] " "
    if (w[i] ~ /^[\])}]/) { more(line); return }
    if (w[i] ~ /^(use|mod|open|import|infix|infixl|infixr)$/) { current = 0; return }
    if (w[i] == "module") { scope(line); heading = !ends_head(line); return }
    if (w[i] == "mutual") { scope(""); around[depth] = mods; return }
    if (w[i] ~ /^(record|data|ruleset)$/) { declare(w[i + 1], w[i], pub, line); return }
    if (is_signature(line, w[i])) { declare(w[i], unfolds(inherited() mods), pub, line); return }
    if (w[i] in known) current = known[w[i]]
    saying = 0
    more(line)
}

# Whether a colon follows the name, after parameters in brackets if there are any: `name : A`, `name {ℓ} (x : A) : B`.
function is_signature(line, named,   s, i, c, level) {
    s = substr(line, index(" " line, " " named " ") + length(named))
    for (i = 1; i <= length(s); i++) {
        c = substr(s, i, 1)
        if (c == "(" || c == "{") level++
        else if (c == ")" || c == "}") level--
        else if (c != " " && !level) return c == ":" && substr(s, i + 1, 1) ~ /^[ ]?$/
    }
    # parameters alone: more of them follow, unless it is a clause
    return !(named in known)
}

function scope(text) {
    depth++
    indent[depth] = -1; head[depth] = text; around[depth] = ""
    current = 0
}

function inherited(   i, s) { for (i = 1; i <= depth; i++) s = s around[i]; return s }

function unfolds(mods) { return mods ~ /abbrev/ ? "abbrev" : mods ~ /unfoldable/ ? "unfoldable" : "law" }

function declare(named, how, pub, line,   i, s) {
    for (i = 1; i <= depth; i++) s = s head[i] " "
    sub(/(^|[ \t])pub /, " ", line)
    current = ++count
    at[current] = FNR; name[current] = named; kind[current] = how; public[current] = pub
    says[current] = s inherited() line; rest[current] = ""
    known[named] = current
    saying = 1
}
