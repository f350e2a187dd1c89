#!/usr/bin/env bash
# Octets of script per second that `bac replay` plays, for scripts of 1,048,576 octets, as long as a
# script may be, and of 1,024: each line but the first is a Who-Is to be answered. Beside it, in the
# same run, the same work in plain Rust (bench/plain/replay.rs), where there is a rustc: a round of
# the one, then a round of the other, and the best round of each.
set -eu
cd "$(dirname "$0")/.."
program=${1:-crates/bac/out/bac}
rounds=${ROUNDS:-20}
room=$(mktemp -d)
trap 'rm -rf "$room"' EXIT

# script_of OCTETS
script_of() {
    awk -v octets="$1" 'BEGIN {
        device = "device 123 plant 0 1476 2024-05-06T07:08:09.10"
        line = "rx 810b000c0120ffff00ff1008"
        print device
        left = octets - length(device) - 1
        while (left > 2 * length(line)) { print line; left -= length(line) + 1 }
        printf "#"
        for (left -= 2; left > 0; left--) printf "."
        print ""
    }' > "$room/script"
    [ "$(wc -c < "$room/script")" -eq "$1" ]
}

# round RUNS PROGRAM [WORD]: nanoseconds of so many runs
round() {
    local runs=$1 start
    shift
    start=$(date +%s%N)
    for ((run = 0; run < runs; run++)); do "$@" < "$room/script" > "$room/output"; done
    echo $(($(date +%s%N) - start))
}

least() { if [ "$1" -eq 0 ] || [ "$2" -lt "$1" ]; then echo "$2"; else echo "$1"; fi; }

plain=
if command -v rustc > /dev/null; then
    rustc --edition 2021 -O -o "$room/plain" bench/plain/replay.rs
    plain=$room/plain
fi

for case in '1048576 4' '1024 100'; do
    read -r size runs <<< "$case"
    script_of "$size"
    ours=0
    theirs=0
    for ((n = 0; n < rounds; n++)); do
        ours=$(least "$ours" "$(round "$runs" "$program" replay)")
        cp "$room/output" "$room/ours"
        [ -n "$plain" ] || continue
        theirs=$(least "$theirs" "$(round "$runs" "$plain")")
        cmp "$room/ours" "$room/output"
    done
    awk -v size="$size" -v runs="$runs" -v ours="$ours" -v theirs="$theirs" 'BEGIN {
        printf "%d octets a script: %.0f octets a second", size, size * runs * 1e9 / ours
        if (theirs > 0) printf "; %.2f of the same work in plain Rust", theirs / ours
        print ""
    }'
done
echo "cores: $(nproc)"
