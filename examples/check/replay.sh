#!/usr/bin/env bash
# Compares `bac_replay` with `bac replay`: the same output for each script of ../scripts, and the same output and first line on
# standard error for scripts that end in a fault, with status 1. Then README's first minute: its commands print what stands below.
#
#     examples/check/replay.sh [PROGRAM [REPLAY]]
#
# They are crates/bac/out/bac and crates/bac_replay/out/bac_replay where none is given. The last line is
# `N passed, M failed`.
set -u
cd "$(dirname "$0")" || exit 1
program=$(realpath -- "${1:-../../crates/bac/out/bac}")
set -- "$program" "$(realpath -m -- "${2:-../../crates/bac_replay/out/bac_replay}")"
. ./common.sh
replay=$2

if [ ! -x "$replay" ]; then
    echo "bac_replay isn't built: 'rt run' in crates/bac_replay does it"
    echo '0 passed, 1 failed'
    exit 1
fi

# alike NAME: both programs with what $room/script holds
alike() {
    "$program" replay < "$room/script" > "$room/out" 2> "$room/err"
    status=$?
    "$replay" < "$room/script" > "$room/small" 2> "$room/told"
    is "$1" "$? $(head -n 1 "$room/told") $(cksum < "$room/small")" "$status $(head -n 1 "$room/err") $(cksum < "$room/out")"
}

for script in ../scripts/*.script; do
    cp "$script" "$room/script"
    alike "$(basename "$script")"
done
device='device 123 plant 0 1476 2024-05-06T07:08:09.10'
printf '%s\n' "$device" 'binary 1 pump 0' 'log 1 trend binary 1 3 0 0' 'sample 1' 'walk 1 1 10' 'rx 8' > "$room/script"
alike 'a bad line behind a walk'
printf '%s\n' "$device" 'binary 1 pump 0' 'binary 2 pump 0' 'sample 1' > "$room/script"
alike 'a device that cannot be built'
{ printf '%s\n' "$device"; yes ''; } 2> /dev/null | head -c 1048577 > "$room/script"
alike 'a script that is too long'

# README's first minute: what stands there behind `$` prints the lines below it. Its numbers and stamps are others each time.
alike() { sed -E 's/[0-9]+ records?/N records/; s/next [0-9]+/next N/; s/^[0-9]+ [0-9]{4}-[0-9]{2}-[0-9]{2}T[0-9:.]+ enum/N STAMP enum/'; }
sed -n '/^## The first minute/,/^## Use/s/^    //p' ../../README.md > "$room/minute"
mkdir "$room/minute.d"
ln -s "$program" "$room/minute.d/bac"
cp -r ../../examples "$room/minute.d"
at=127.0.0.1:$((20000 + RANDOM))
{ sed -n 's/^\$ //p' "$room/minute" | sed 's/ &$/ \& sleep 1/'; echo 'kill $!'; } | sed "s/127.0.0.1:47809/$at/" > "$room/words"
(cd "$room/minute.d" && PATH=$room/minute.d:$PATH timeout 60 bash ../words) > "$room/out" 2>&1
is 'the first minute' "$(alike < "$room/out")" "$(sed "/^\\$ /d; s/127.0.0.1:47809/$at/" "$room/minute" | alike)"
# And what it has for who has no program yet.
script=$(sed -nE 's|.*\(cd crates/bac_replay && rt try < \.\./\.\./(examples/scripts/[a-z-]+\.script)\).*|\1|p' ../../README.md)
"$replay" < "../../$script" > "$room/small"
is 'a log in memory' "$(grep -A 4 -x 'gap 1 2' "$room/small" | tail -n 1)" 'caught up, next 6'

# A trace, made a script: the device of the script answers as that of the trace did.
printf '%s\n' 'tx 127.0.0.1:47808 810b000c0120ffff00ff1008' 'no answer' 'tx 127.0.0.1:47809 8104' \
    'rx 127.0.0.1:47808 810a001401001000c40200007b2205c491032100' > "$room/trace"
{ printf '%s\n' "$device"; awk -f ../use/trace2script.awk -v peer=127.0.0.1:47808 "$room/trace"; } > "$room/script"
"$program" replay < "$room/script" > "$room/out"
is 'a trace as a script' "$(cat "$room/out")" 'tx 810a001401001000c40200007b2205c491032100'
is 'its answers in the script' "$(sed -n 's/^# //p' "$room/script")" "$(cat "$room/out")"

counted
