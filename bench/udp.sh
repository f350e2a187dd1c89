#!/usr/bin/env bash
# What the tools cost over UDP: `bac log` of a served trend log of 65,535 records over the loopback
# interface, and beside it, in the same run, bare round trips in C of as many datagrams of the same
# sizes, and, where there is a rustc, a client written by hand in plain Rust that prints the same
# (bench/udp/hand.rs; `bac serve` answers both). A round of the one, then a round of the others; the
# best and the median of each, and their ratios. Then the same of logs of as many REALs and as many
# numbers of one octet, with status flags, which a server in C answers with replies as large. Where
# there is a valgrind, the instructions of `bac log` for each record of the three logs. Then the start
# of the program beside that of `true`. It needs a C compiler.
set -eu
cd "$(dirname "$0")/.."
program=$(realpath -- "${1:-crates/bac/out/bac}")
rounds=${ROUNDS:-21}
records=65535
room=$(mktemp -d)
servers=
trap '[ -z "$servers" ] || kill $servers 2> /dev/null; rm -rf "$room"' EXIT
cc -O2 -o "$room/udp" bench/udp/udp.c
hand=
if command -v rustc > /dev/null; then
    rustc --edition 2021 -O -o "$room/hand" bench/udp/hand.rs
    hand=$room/hand
fi

port=$((20000 + RANDOM))
served=127.0.0.1:$port
bare=$((20000 + RANDOM))
printf '%s\n' 'device 123 plant 0 1476 2024-05-06T07:08:09.10' 'binary 1 pump 0' \
    "log 1 trend binary 1 $records 0 0" > "$room/configuration"
"$program" serve "$served" < "$room/configuration" 2> "$room/served" &
servers=$!
# A question by number has 24 octets; 65,535 records of a log's status come in replies of 1,470 and so.
asked=24
reply=1470
"$room/udp" pong "$bare" "$reply" &
servers="$servers $!"
for ((try = 0; try < 40; try++)); do
    if "$program" wi "$served" --timeout=100 > /dev/null 2>&1; then break; fi
done
"$room/udp" fill "$port" "$records"

# The replies that a walk takes: each is one step, and the last of them is followed by one that is empty.
"$program" log "$served" 1 oldest --steps=100000 > "$room/whole"
[ "$(wc -l < "$room/whole")" -eq $((records + 1)) ]
first=$("$program" log "$served" 1 1 --steps=1 | grep -c status)
trips=$(((records + first - 1) / first + 2))

# timed FILE WORD..: adds the nanoseconds of a run to the file
timed() {
    local file=$1 start
    shift
    start=$(date +%s%N)
    "$@" > "$room/part"
    echo $(($(date +%s%N) - start)) >> "$file"
}
declare -A served_at
for kind in real number; do
    served_at[$kind]=$((20000 + RANDOM))
    "$room/udp" log "${served_at[$kind]}" 1476 "$records" "$kind" &
    servers="$servers $!"
    "$program" log "127.0.0.1:${served_at[$kind]}" 1 1 --steps=100000 > "$room/whole-$kind"
    [ "$(wc -l < "$room/whole-$kind")" -eq $((records + 1)) ]
done
for ((n = 0; n < rounds; n++)); do
    timed "$room/walks" "$program" log "$served" 1 1 --steps=100000
    cmp "$room/part" "$room/whole"
    "$room/udp" ping "$bare" "$asked" "$reply" "$trips" >> "$room/trips"
    if [ -n "$hand" ]; then
        timed "$room/hands" "$hand" "$port" 1
        cmp "$room/part" "$room/whole"
    fi
    for kind in real number; do
        timed "$room/walks-$kind" "$program" log "127.0.0.1:${served_at[$kind]}" 1 1 --steps=100000
        cmp "$room/part" "$room/whole-$kind"
        [ -n "$hand" ] || continue
        timed "$room/hands-$kind" "$hand" "${served_at[$kind]}" 1
        cmp "$room/part" "$room/whole-$kind"
    done
done
# nth NAME PLACE: so many milliseconds in that place of the sorted rounds, the best being at 1
nth() { sort -n "$room/$1" | sed -n "$2p" | awk '{ printf "%.2f", $1 / 1e6 }'; }
middle=$(((rounds + 1) / 2))
echo "$records records, $first a reply, $trips round trips, $rounds rounds; best / median:"
# row NAME WORDS..: a row of a table, and how fast the walk is beside it
row() {
    local name=$1
    shift
    awk -v what="$*" -v best="$(nth "$name" 1)" -v median="$(nth "$name" $middle)" \
        -v walk="$(nth walks 1)" -v walks="$(nth walks $middle)" 'BEGIN {
        printf "%-44s %6.2f / %6.2f ms; bac log goes at %.2f / %.2f of its speed\n",
            what, best, median, best / walk, median / walks
    }'
}
awk -v records="$records" -v walk="$(nth walks 1)" -v walks="$(nth walks $middle)" 'BEGIN {
    printf "%-44s %6.2f / %6.2f ms, %.0f records a second at best\n", "bac log", walk, walks, records * 1e3 / walk
}'
row trips bare round trips
[ -z "$hand" ] || row hands a client written by hand that prints the same
for kind in real number; do
    awk -v kind="$kind" -v best="$(nth "walks-$kind" 1)" -v median="$(nth "walks-$kind" $middle)" 'BEGIN {
        printf "%-44s %6.2f / %6.2f ms\n", "bac log of " kind "s, as many", best, median
    }'
    [ -n "$hand" ] || continue
    awk -v walk="$(nth "walks-$kind" 1)" -v walks="$(nth "walks-$kind" $middle)" \
        -v best="$(nth "hands-$kind" 1)" -v median="$(nth "hands-$kind" $middle)" 'BEGIN {
        printf "%-44s %6.2f / %6.2f ms; bac log goes at %.2f / %.2f of its speed\n",
            "  the client written by hand", best, median, best / walk, median / walks
    }'
done

# instructions WORDS..: those of the program with these words
instructions() {
    valgrind --tool=callgrind --callgrind-out-file=/dev/null "$program" "$@" 2>&1 > /dev/null \
        | sed -n 's/.*Collected : //p'
}
if command -v valgrind > /dev/null; then
    none=$(instructions --version)
    for kind in "$port state" "${served_at[real]} real" "${served_at[number]} number"; do
        awk -v kind="${kind#* }" -v all="$(instructions log "127.0.0.1:${kind% *}" 1 1 --steps=100000)" \
            -v none="$none" -v records="$records" 'BEGIN {
            printf "instructions of the client for each %s: %.0f\n", kind, (all - none) / records
        }'
    done
fi

least() { if [ "$1" -eq 0 ] || [ "$2" -lt "$1" ]; then echo "$2"; else echo "$1"; fi; }
starts() {
    local start run
    start=$(date +%s%N)
    for ((run = 0; run < 200; run++)); do "$@" > /dev/null 2>&1 || true; done
    echo $((($(date +%s%N) - start) / 200))
}
ours=0
theirs=0
for ((n = 0; n < 10; n++)); do
    ours=$(least "$ours" "$(starts "$program" --version)")
    theirs=$(least "$theirs" "$(starts /bin/true)")
done
awk -v ours="$ours" -v theirs="$theirs" 'BEGIN {
    printf "start: %.2f ms, and %.2f ms for an empty program\n", ours / 1e6, theirs / 1e6
}'
echo "cores: $(nproc), load: $(cut -d ' ' -f 1 /proc/loadavg)"
