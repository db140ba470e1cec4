# shellcheck shell=bash
# Read by the script 'windlassow': calls of the prover, with what it says shortened to how far it is.

need_rt() {
    if ! command -v rt >/dev/null 2>&1; then
        echo "windlassow: the Rattle kit's command 'rt' is not on the PATH" >&2
        exit 2
    fi
}

# rt writes beside each crate, to its out/, and what it builds is put to target/. Where it cannot, it ends with a page of its own insides.
need_target() {
    local probe=target/probe.$$ folder
    if ! { mkdir -p target && echo probe >"$probe" && [ "$(cat "$probe")" = probe ] && rm "$probe"; } 2>/dev/null; then
        echo "windlassow: cannot write target in $PWD, where what is built is put" >&2
        exit 2
    fi
    for folder in crates/*/; do
        [ ! -e "${folder}out" ] || folder=${folder}out/
        if [ ! -w "$folder" ]; then
            echo "windlassow: cannot write $folder in $PWD, where the prover leaves its results" >&2
            exit 2
        fi
    done
}

# ---- what is started, and its end

room=
group=

# A temporary folder of our own, in which all others are made. A program that rt runs as nobody must be able to pass through it.
need_room() {
    [ -z "$room" ] || return 0
    if ! room=$(mktemp -d) || ! chmod 711 "$room"; then
        echo "windlassow: cannot make a temporary folder in ${TMPDIR:-/tmp}" >&2
        exit 2
    fi
    export TMPDIR=$room
}

# Runs a command in a process group of its own, so that all that it starts can be ended, whatever signal this script is told to end by.
in_group() {
    local status
    need_room
    set -m
    { set +m; "$@"; } </dev/null &
    group=$!
    set +m
    wait "$group"
    status=$?
    end_group
    group=
    return "$status"
}

# Ends the group that is running, at the latest after two seconds.
end_group() {
    local tries=20
    [ -n "$group" ] || return 0
    kill -TERM -- "-$group" 2>/dev/null
    while kill -0 -- "-$group" 2>/dev/null; do
        [ "$tries" -gt 0 ] || kill -KILL -- "-$group" 2>/dev/null
        tries=$((tries - 1))
        sleep 0.1
    done
}

tidy() {
    [ -z "$room" ] || rm -rf "$room"
}

# interrupted NUMBER: by this signal
interrupted() {
    trap '' INT TERM HUP
    end_group
    exit $((128 + $1))
}

# A group of its own is in the terminal's background, where 'stty tostop' would stop it at its first word.
trap '' TTOU
trap 'interrupted 1' HUP
trap 'interrupted 2' INT
trap 'interrupted 15' TERM
trap tidy EXIT

# ---- crates and edits

# The crates of crates.txt, one a line.
crate_names() {
    sed -n 's/#.*//; s/^[ \t]*\([a-z0-9_]*\)[^:]*:.*/\1/p' crates.txt
}

crate_count() {
    crate_names | wc -l
}

edit_count() {
    find crates -path '*/must-fail/*.edit' | wc -l
}

# reached NAME..: these crates and those that they stand on, or all if none is named, one a line
reached() {
    [ $# -gt 0 ] || { crate_names && return; }
    awk -v wanted="$*" '
        function visit(n,    parts, count, k) {
            if (!(n in deps) || (n in seen)) return
            seen[n] = 1
            print n
            count = split(deps[n], parts, " ")
            for (k = 1; k <= count; k++) visit(parts[k])
        }
        { sub(/#.*/, ""); i = index($0, ":"); if (!i) next
          n = substr($0, 1, i - 1); sub(/^[ \t]+/, "", n); sub(/[ \t].*/, "", n); deps[n] = substr($0, i + 1) }
        END { count = split(wanted, names, " "); for (j = 1; j <= count; j++) visit(names[j]) }' crates.txt
}

# newer_than FILE: a file or a folder of the crates that is newer, or nothing. What rt leaves in out/ does not count.
newer_than() {
    find crates.txt crates/*/src crates/*/specs crates/*/proofs -newer "$1" -print -quit 2>/dev/null
}

# ---- what the prover says

elapsed() {
    printf '%d:%02d' $((SECONDS / 60)) $((SECONDS % 60))
}

# progress CRATES EDITS: a line for each crate and each edit, 'k of n' with the time so far, and rt's other lines as they are. What the prover says of a
# crate that it proves, notes on slow steps among it, is not shown; what it says of one that it does not prove is.
progress() {
    local crates=$1 edits=$2 crate=0 edit=0 held='' open='' line
    while IFS= read -r line; do
        case $line in
        'rt: must-fail '*)
            edit=$((edit + 1)) held=''
            printf '%s edit %d of %d: %s\n' "$(elapsed)" "$edit" "$edits" "${line#rt: must-fail }"
            case $line in *': BAD EDIT: '*) open=1 ;; *) open='' ;; esac
            ;;
        'rt: '*' proved' | 'rt: '*' is kept: '*)
            crate=$((crate + 1)) held='' open=''
            printf '%s crate %d of %d: %s\n' "$(elapsed)" "$crate" "$crates" "${line#rt: }"
            ;;
        'rt: '*' NOT PROVED'*)
            crate=$((crate + 1)) open=''
            printf '%s%s crate %d of %d: %s\n' "$held" "$(elapsed)" "$crate" "$crates" "${line#rt: }"
            held=''
            ;;
        'rt: '*)
            printf '%s%s\n' "$held" "$line"
            held='' open=''
            ;;
        [0-9]*' passed, '*' failed'*) ;;
        *) if [ -n "$open" ]; then printf '%s\n' "$line"; else held=$held$line$'\n'; fi ;;
        esac
    done
    printf '%s' "$held"
}

# prove_crates NAME..: these and what they stand on, or all. rt proves what a crate stands on first, where that has changed.
prove_crates() {
    local name said status
    need_room
    said=$room/check
    if [ $# = 0 ]; then
        rt all check 2>&1 | tee "$said" | checked "$(crate_count)"
        return "${PIPESTATUS[0]}"
    fi
    for name in "$@"; do
        (set -o pipefail && (cd "crates/$name" && rt check) 2>&1 </dev/null | tee "$said" | checked "$(reached "$name" | wc -l)")
        status=$?
        if [ "$status" != 0 ]; then
            grep -v '^\(statements\|library\|logic\|axioms\) ' "$said"
            echo "$(elapsed) $name NOT PROVED"
            return "$status"
        fi
        echo "$(elapsed) $name proved"
    done
}

# checked CRATES: of what a check says, a line for each crate at which it begins, 'k of n'
checked() {
    local crates=$1 crate=0 line
    while IFS= read -r line; do
        case $line in
        '== summary' | [a-z0-9_]*': ok' | [a-z0-9_]*': failed'*) echo "$line" ;;
        'rt: chose '*' for '* | '== '*) crate=$((crate + 1)) && printf '%s crate %d of at most %d: %s\n' "$(elapsed)" "$crate" "$crates" "${line##* }" ;;
        'rt: '*NOT* | *': error: '*) printf '%s\n' "$line" ;;
        esac
    done
}

# prove_all LOG: the gate, with all that rt says in LOG
prove_all() {
    rt ci 2>&1 | tee "$1" | progress "$(crate_count)" "$(edit_count)"
    return "${PIPESTATUS[0]}"
}
