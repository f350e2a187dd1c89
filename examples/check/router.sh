#!/usr/bin/env bash
# Finds, reads, writes and walks a device behind a small router (router.py), all on the loopback
# interface: `bac serve` stands on network 7 with the address 0a01, and the tools ask the router.
#
#     examples/check/router.sh [PROGRAM]
#
# PROGRAM is crates/bac/out/bac where none is given. The last line is `N passed, M failed`.
set -u
cd "$(dirname "$0")"
program=$(realpath -- "${1:-../../crates/bac/out/bac}")
. ./limited.sh
room=$(mktemp -d)
server=
router=
# What this script started is ended by its own numbers.
trap 'for it in $server $router; do kill "$it" 2> /dev/null; done; rm -rf "$room"' EXIT
passed=0
failed=0

is() {
    row "$1"
    if [ "$2" = "$3" ]; then
        passed=$((passed + 1))
    else
        failed=$((failed + 1))
        printf '%s: %s\nis wanted, and it is: %s\n' "$1" "$3" "$2" | head -c 2000
    fi
}

# Its output, its text on standard error and its status, in one text.
bac() {
    local status
    "$program" "$@" > "$room/out" 2> "$room/err"
    status=$?
    said="$(cat "$room/out")|$(cat "$room/err")|$status"
}

ended() {
    echo "$passed passed, $failed failed"
    [ "$failed" -eq 0 ]
    exit
}

# Replies of 50 octets hold one record each.
sed s/1476/50/ ../use/plant.conf > "$room/small.conf"
for try in {1..50}; do
    device=127.0.0.1:$((20000 + RANDOM))
    "$program" serve "$device" < "$room/small.conf" > "$room/served" 2>&1 &
    server=$!
    for wait in {1..50}; do
        bac wi "$device" --timeout=300
        [ "${said##*|}" -ne 0 ] || break 2
        kill -0 "$server" 2> /dev/null || break
        sleep 0.1
    done
done
python3 router.py 127.0.0.1:0 7 "$device" 0a01 > "$room/routed" 2>&1 &
router=$!
for wait in {1..100}; do
    at=$(head -n 1 "$room/routed")
    [ -z "$at" ] || break
    sleep 0.1
done
far=(--dnet=7 --dadr=0a01)

bac wi "$at" --dnet=7 --timeout=500
is 'found on its network' "$said" "I-Am 123 $at net 7 mac 0a01 max-apdu 50 segmentation 3 vendor 0||0"
bac wi "$at" --dnet=65535 --timeout=500
is 'found on all networks' "$said" "I-Am 123 $at net 7 mac 0a01 max-apdu 50 segmentation 3 vendor 0||0"
bac wi "$at" --dnet=8 --timeout=200
is 'nobody on another network' "$said" '|no answer
addresses asked: 1; devices that answer by broadcast are only heard with --local=0.0.0.0:47808|2'
bac wi "$at" --timeout=200
is 'a router is no device' "$said" '|no answer
addresses asked: 1; devices that answer by broadcast are only heard with --local=0.0.0.0:47808|2'
bac rp "$at" 8 123 77 "${far[@]}"
is 'the name of the device' "$said" '"plant"||0'
bac rp "$at" 8 123 77 --dnet=7 --dadr=0a02 --timeout=100 --retries=1
is 'another address' "$said" "|lost
no reply from $at|2"
bac rp "$at" 8 123 77 --timeout=100 --retries=1
is 'no way to the device' "$said" "|lost
no reply from $at|2"
bac rp "$at" 5 2 85 "${far[@]}"
is 'a binary value that is not there' "$said" '|refused: error 1 31
unknown object|3'
bac wp "$at" 5 1 85 8 9 --value=1 "${far[@]}"
is 'the pump is switched on' "$said" 'written||0'
bac rp "$device" 5 1 85
is 'the pump is on' "$said" 'enum(1)||0'
for turn in {1..4}; do
    bac wp "$at" 20 2 133 0 1 --value=$((turn % 2 ? 0 : 1)) "${far[@]}"
    is 'the log is switched' "$said" 'written||0'
done
bac log "$device" 2 oldest
here=$said
bac log "$at" 2 oldest "${far[@]}"
is 'the walk is the same by both ways' "$said" "$here"
is 'four records' "$(cut -d ' ' -f 1 "$room/out" | head -n 4 | tr '\n' ' ')$(tail -n 1 "$room/out")" '1 2 3 4 caught up, next 5'
bac log "$at" 2 1 --steps=3 "${far[@]}"
is 'three steps' "$(tail -n 1 "$room/out")|${said##*|}" 'step limit, next 4|0'
bac log "$at" 2 oldest --dnet=8 --dadr=0a01 --timeout=100 --retries=0
is 'a log on another network' "$said" "lost, next 1|no reply from $at|2"
"$program" wi "$at" --dnet=7 --timeout=500 > "$room/found"
bac keep "$room/far.db" - < "$room/found"
is 'the lines of wi are kept by their way' "$(grep -c "^$at/7/0a01 [12] .* caught up, next" "$room/out")|${said#*|}" '2||0'
# A sample, one each second, may come between the two: then both are asked once more.
for turn in {1..5}; do
    bac logs "$device"
    here=$said
    bac logs "$at" "${far[@]}"
    there=$said
    listed=$(cut -f 1,2 "$room/out" | tail -n 2 | tr '\t\n' '  ')
    bac logs "$device"
    [ "$said" != "$here" ] || break
done
is 'the logs are the same by both ways' "$there" "$here"
is 'two logs' "$listed" '1 "pump-trend" 2 "by-hand" '
bac logs "$at" 2 --dnet=7 --dadr=0a02 --timeout=100 --retries=0
is 'logs at another address' "$said" $'instance\tname\tlogs\tenable\ttype\tinterval\trecords\tbuffer\ttotal\tstop|lost\nno reply from '"$at|2"

ended
