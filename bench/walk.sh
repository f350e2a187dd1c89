#!/usr/bin/env bash
# What a walk of a trend log costs, in memory: the log of a device of a script, walked by lines of the
# same script. A script with ten walks and the same without them are played, and the difference is
# the walks and the printing of what they bring. For three reply sizes, and for logs of three sizes.
# Then `collect` alone, and its share of the speed of bench/walk/plain.rattle, which does the same
# work in one file and without contracts but those of safety. Both are in one program, which is
# proved and built over copies of the libraries (its files aren't named .rt, since the gate looks for
# such files in crates/ alone). The libraries must have been built, by `rt all check` or `rt ci`.
#
#     bench/walk.sh [PROGRAM [WALKS]]
#
# PROGRAM is crates/bac/out/bac where none is given. WALKS is the program of `collect` and the plain walks:
# it is taken if it is there, and else left there once it is built. The best of five runs counts, or of ROUNDS.
set -eu
rounds=${ROUNDS:-5}
program=${1:-$(dirname "$0")/../crates/bac/out/bac}
program=$(realpath -- "$program")
kept=${2:+$(realpath -m -- "$2")}
cd "$(dirname "$0")/.."
script=$(mktemp)
room=$(mktemp -d)
trap 'rm -rf "$script" "$room"' EXIT

# script_of REPLY RECORDS WALKS
script_of() {
    awk -v reply="$1" -v records="$2" -v walks="$3" 'BEGIN {
        print "device 123 plant 0 " reply " 2024-05-06T07:08:09.10"
        print "binary 1 pump 0"
        print "log 1 trend binary 1 65535 0 0"
        for (i = 0; i < records; i++) print "sample 1"
        for (i = 0; i < walks; i++) print "walk 1 1 100000"
    }' > "$script"
}

# nanoseconds of a program with these words, the best of the rounds
best() {
    local least=0 start took round
    for ((round = 0; round < rounds; round++)); do
        start=$(date +%s%N)
        "$@" < "$script" > /dev/null
        took=$(($(date +%s%N) - start))
        if [ "$least" -eq 0 ] || [ "$took" -lt "$least" ]; then least=$took; fi
    done
    echo "$least"
}

for reply in 50 480 1476; do
    for records in 16384 32768 65535; do
        script_of "$reply" "$records" 0
        without=$(best "$program" replay)
        script_of "$reply" "$records" 10
        with=$(best "$program" replay)
        awk -v reply="$reply" -v records="$records" -v took=$((with - without)) 'BEGIN {
            printf "replies of %d octets, %d records: %.0f records per second\n", reply, records, records * 10 * 1e9 / took
        }'
    done
done

walks=${kept:-$room/crates/walk_bench/out/walk_bench}
if [ ! -x "$walks" ]; then
    libraries='bac_wire bac_apdu bac_log bac_objects bac_device bac_link bac_walk bac_memory_link'
    mkdir -p "$room/crates/walk_bench/src"
    cp HANDLES "$room"
    for library in $libraries; do
        cp -a "crates/$library" "$room/crates"
        grep "^$library:" crates.txt >> "$room/crates.txt"
    done
    echo "walk_bench: $libraries arrayvec" >> "$room/crates.txt"
    for file in main plain; do
        cp "bench/walk/$file.rattle" "$room/crates/walk_bench/src/$file.rt"
    done
    if ! (cd "$room/crates/walk_bench" && rt run -- plain 1476 1 1) > "$room/built" 2>&1; then
        cat "$room/built"
        exit 1
    fi
    [ -z "$kept" ] || cp "$room/crates/walk_bench/out/walk_bench" "$kept"
fi
for reply in 50 480 1476; do
    declare -A took
    for kind in collect plain; do
        without=$(best "$walks" $kind $reply 65535 0)
        with=$(best "$walks" $kind $reply 65535 20)
        took[$kind]=$((with - without))
    done
    awk -v reply="$reply" -v collect="${took[collect]}" -v plain="${took[plain]}" 'BEGIN {
        printf "replies of %d octets, %d records: collect %.0f, plain %.0f records per second, ratio %.2f\n", reply, 65535, 65535 * 20 * 1e9 / collect, 65535 * 20 * 1e9 / plain, plain / collect
    }'
done
echo "cores: $(nproc), load: $(cut -d ' ' -f 1 /proc/loadavg)"
