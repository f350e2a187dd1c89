#!/usr/bin/env bash
# What `bac keep` costs: the records of a full log kept, and the same rows inserted by Python's sqlite3 in
# transactions of 100, by turns; and a run with nothing new on a large file. Processor time, since the device
# that answers is Python's.
#
#     bench/keep.sh [PROGRAM [RECORDS [ROWS]]]
#
# PROGRAM is crates/bac/out/bac, RECORDS 65535 and ROWS 1000000 where none is given.
set -eu
cd "$(dirname "$0")/.."
program=$(realpath -- "${1:-crates/bac/out/bac}")
room=$(mktemp -d)
trap 'rm -rf "$room"' EXIT
python3 bench/keep.py "$program" "$room" "${2:-65535}" "${3:-1000000}"
echo "cores: $(nproc), load: $(cut -d ' ' -f 1 /proc/loadavg)"
