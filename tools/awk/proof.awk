# Files of proofs whole (with text.awk): for each a line of FILE, its TEXT without imports, and its IMPORTS, apart by tabs.
FNR == 1 { file_done(); file = FILENAME; text = uses = ""; inside = using = 0 }
{ line = antt_code($0) }
line ~ /^[^ \t}]/ { using = line ~ /^(pub )?use / }
line ~ /[^ \t]/ { if (using) uses = uses " " line; else text = text " " line }
END { file_done() }

function file_done() { if (file != "") printf "%s\t%s\t%s\n", file, plain(text), plain(uses) }
