# shellcheck shell=bash disable=SC2154
# Read by tools/test-cli: the command 'copy' with stand-ins for cargo and for the program that it builds.

# A whole command, of words without spaces.
copying="copy --kind floats --dimension=1 --width 8N old new"

# A cargo that leaves word of its call and builds the program in $room/copier, which says where it runs and with which words, and
# ends with the status in $room/ends. With the file $room/unbuilt it fails.
copier() {
    stand_in "$bin/cargo" <<STAND_IN
echo "\$PWD \$*" >>"$room/calls/cargo"
[ ! -e "$room/unbuilt" ] || exit 101
mkdir -p "$copy/target/host/debug"
cp "$room/copier" "$copy/target/host/debug/copy-archive"
STAND_IN
    stand_in "$room/copier" <<STAND_IN
printf '%s' "in \$PWD:"
printf ' <%s>' "\$@"
exit "\$(cat "$room/ends")"
STAND_IN
}

# copies STATUS TEXT: copy in the caller's folder, with a name that has a space, ends with this status and says this and nothing else
copies() {
    tests=$((tests + 1))
    said=$(cd "$room/caller" && PATH=$bin:$PATH ../copy/windlassow copy --kind floats --dimension 1 --width=8N "old file" ../new 2>&1)
    status=$?
    [ "$status" = "$1" ] || fault "copy ended with $status, not $1: $said"
    [ "$said" = "$2" ] || fault "copy says '$said', not '$2'"
}

copy_statuses() {
    local code ran="in $room/caller: <--kind> <floats> <--dimension> <1> <--width=8N> <old file> <../new>"
    local proving="windlassow: proving and building the library first, some five minutes; target/built-windlassow.log shows how far it is"
    copier
    mkdir -p "$room/caller" "$copy/target/staticlib"
    copies 0 "$proving"$'\n'"$ran"
    holds "cargo is called with: $(cat "$room/calls/cargo")" grep -Eq "^$copy/host build --offline --quiet .*-p copy-archive\$" "$room/calls/cargo"
    touch -d '+1 hour' "$copy/target/staticlib/libwindlassow.a"
    for code in 0 1 2 139; do
        echo "$code" >"$room/ends"
        copies "$code" "$ran"
    done
    echo 0 >"$room/ends"
    touch -d '2001-01-01' "$copy/target/staticlib/libwindlassow.a"
    copies 0 "$proving"$'\n'"$ran"
    touch "$room/unbuilt" "$copy/target/staticlib/libwindlassow.a"
    copies 1 "windlassow: the program of 'copy' could not be built"
    rm "$room/unbuilt"
    rm "$bin/cargo"
    tests=$((tests + 1))
    # shellcheck disable=SC2086
    said=$(PATH=$room/path "$copy/windlassow" $copying 2>&1)
    [ "$?,$said" = "2,windlassow: copy needs cargo, which is missing" ] || fault "without cargo: $said"
}
