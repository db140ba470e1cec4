# shellcheck shell=bash
# Read by tools/trace and tools/show: where the names of docs/TRACE.md stand. The page says what each sort of name means.

# The first line of FILE that declares NAME in antt, or nothing.
declared_line() { # FILE NAME
    awk -v name="$2" '
        { i = 1; while ($i == "unfoldable" || $i == "abbrev" || $i == "pub" || $i == "record" || $i == "data") i++
          if ($i == name && ($(i + 1) == ":" || $(i + 1) ~ /^[({]/)) { print NR; exit } }' "$1"
}

# The line of FILE that starts the function NAME, or nothing.
function_line() { # FILE NAME
    grep -nE -m 1 "^(pub )?(const )?(extern \"C\" )?fn $2\b" "$1" | cut -d : -f 1
}

# The line of FILE that starts the method TYPE::NAME, in the first `impl` of the type that has it, or in a trait of that name; or nothing.
method_line() { # FILE TYPE::NAME
    awk -v type="${2%%::*}" -v start="fn ${2##*::}" '
        /^impl|^(pub )?trait / {
            line = $0; sub(/^impl(<[^>]*>)? |^(pub )?trait /, "", line); sub(/^.* for /, "", line)
            own = (line " ") ~ "^([a-z_0-9]+::)*" type "[^A-Za-z0-9_]" }
        /^}/ { own = 0 }
        own && (at = index($0, start)) && substr($0, at + length(start)) !~ /^[A-Za-z0-9_]/ { print NR; exit }' "$1"
}

# The line of FILE that starts the test NAME, a function marked as one, or nothing.
test_line() { # FILE NAME
    awk -v start="$2(" '
        $1 == "#[test]" { marked = 1; next }
        /^ *(#\[|\/\/)/ { next }
        marked && $1 == "fn" && index($2, start) == 1 { print NR; exit }
        { marked = 0 }' "$1"
}

# first_in FINDER NAME FILE..: 'FILE:LINE' of the first file in which FINDER finds the name; fails if it is in none.
first_in() {
    local finder=$1 name=$2 file line
    shift 2
    for file in "$@"; do
        [ -f "$file" ] || continue
        line=$("$finder" "$file" "$name")
        if [ -n "$line" ]; then
            echo "$file:$line"
            return
        fi
    done
    return 1
}

whole_file() { # FILE
    [ -f "$1" ] && echo "$1:1"
}

# place_of NAME: 'FILE:LINE' of what a name of docs/TRACE.md stands for; fails if it is not there.
place_of() {
    local first rest file name
    case $1 in
    samples/* | crates/*) whole_file "$1" ;;
    *::*)
        first=${1%%::*} rest=${1#*::} name=${1##*::} file=lib
        case $rest in
        [A-Z]*::*)
            first_in method_line "$rest" "crates/$first/src/"*.rt
            return
            ;;
        *::*) file=${rest%%::*} ;;
        esac
        first_in function_line "$name" "crates/$first/src/$file.rt"
        ;;
    *:*:*)
        first=${1%%:*} rest=${1#*:}
        file=${rest%%:*} name=${rest#*:}
        first_in test_line "$name" "host/$first/tests/$file.rs" "host/$first/$file.rs"
        ;;
    */*) whole_file "crates/${1%%/*}/must-fail/${1#*/}.edit" ;;
    *.*.*)
        first=${1%%.*} rest=${1#*.}
        file=${rest%.*} name=${rest##*.}
        file=${file//.//}
        first_in declared_line "$name" "crates/$first/specs/$file.antt" "crates/$first/proofs/$file.antt"
        ;;
    *) return 1 ;;
    esac
}

# The files of specs/ that have what contracts need beside the definitions: `Calls.antt`, what stands under `Calls/`, and the files that say what a type of
# the code stands for.
beside='^crates/[^/]*/specs/(Calls/.*|(Calls|Allowed|Choices|Formats|Good|Planes|Readers|Refusals?|Replies|Stages|Streams|Writers)\.antt)'

# column_of NAME: the cell of a row in which a name of docs/TRACE.md belongs, 2 to 5: a definition; a contract, a law, a statement of `claims` or
# `compositions` or what contracts need beside the definitions; a must-fail edit; a test. Fails if the name is not there.
column_of() {
    local place
    place=$(place_of "$1") || return 1
    case $1 in
    samples/* | crates/* | *:*:*) case $1 in *::*) echo 3 ;; *) echo 5 ;; esac ;;
    */*) echo 4 ;;
    *)
        case $place in
        crates/claims/* | crates/compositions/*) echo 3 ;;
        crates/*/specs/*) if [[ $place =~ $beside ]]; then echo 3; else echo 2; fi ;;
        *) echo 3 ;;
        esac
        ;;
    esac
}
