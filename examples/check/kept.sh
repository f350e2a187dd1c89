#!/usr/bin/env bash
# Judges `bac keep` from outside: kept.py has devices of another make, ends runs at any moment and at each of their calls
# on files, fills the disk, and compares what Python's sqlite3 reads with what was logged.
#
#     examples/check/kept.sh [PROGRAM] [RUNS [SEED]]
#
# PROGRAM is crates/bac/out/bac, RUNS 500 and SEED 1 where none is given. The last line is `N passed, M failed`.
set -u
cd "$(dirname "$0")"
[[ ${1-} != +([0-9]) ]] || set -- ../../crates/bac/out/bac "$@"
program=$(realpath -- "${1:-../../crates/bac/out/bac}")
limit=$((600 + ${2:-500} * 3))
. ./limited.sh
room=$(mktemp -d)
trap 'rm -rf "$room"' EXIT
cc -shared -fPIC -O1 -o "$room/kills.so" kills.c -ldl || exit 1
python3 -B kept.py "$program" "$room" "${2:-500}" "${3:-1}" "$room/kills.so"
