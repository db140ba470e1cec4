# The times of two logs of the gate (files `old` and `new`) as a Markdown table: seconds to prove each crate, and its must-fail edits.
{ s = FILENAME == old ? 1 : 2 }
/^rt: [^ ]+ proved \([0-9]+ s\)$/ { crate($2); proved[s, $2] = seconds($0) }
/^rt: must-fail [^ ]+: .*[ (][0-9]+ s\)$/ { c = $3; sub(/\/.*/, "", c); crate(c); edits[s, c]++; tried[s, c] += seconds($0) }
END { table() }

function seconds(line) { match(line, /[0-9]+ s\)$/); return substr(line, RSTART) + 0 }

function crate(c) { if (!(c in known)) { known[c] = 1; order[++crates] = c } }

function table(   i, c, s, sum) {
    print "| crate | proved in s, before | after | must-fail edits, before | after | s, before | after |"
    print "|---|---:|---:|---:|---:|---:|---:|"
    for (i = 1; i <= crates; i++) {
        c = order[i]
        print "| `" c "` | " proved[1, c] " | " proved[2, c] " | " edits[1, c] " | " edits[2, c] " | " tried[1, c] " | " tried[2, c] " |"
        for (s = 1; s <= 2; s++) { sum[s, 1] += proved[s, c]; sum[s, 2] += edits[s, c]; sum[s, 3] += tried[s, c] }
    }
    print "| all | " sum[1, 1] + 0 " | " sum[2, 1] + 0 " | " sum[1, 2] + 0 " | " sum[2, 2] + 0 " | " sum[1, 3] + 0 " | " sum[2, 3] + 0 " |"
}
