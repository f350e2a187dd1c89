#!/usr/bin/env bash
# How long a run of `bac keep` takes over a site whose devices take their time.
#
#     bench/site.sh [PROGRAM [DEVICES [LOGS [RECORDS [DELAY [OBJECTS]]]]]]
#
# PROGRAM is crates/bac/out/bac, DEVICES 100, LOGS 4, RECORDS 200 and DELAY 30 milliseconds where none is given. With
# OBJECTS each device has so many more, and is also asked for its Object_List. The devices are one process of Python,
# which answers some thousands of questions a second.
set -eu
cd "$(dirname "$0")/.."
program=$(realpath -- "${1:-crates/bac/out/bac}")
room=$(mktemp -d)
trap 'rm -rf "$room"' EXIT
python3 bench/site.py "$program" "$room" "${2:-100}" "${3:-4}" "${4:-200}" "${5:-30}" "${6:-0}"
echo "cores: $(nproc), load: $(cut -d ' ' -f 1 /proc/loadavg)"
