#!/usr/bin/env bash
# What `bac keep`, `bac kept --csv` and `bac check` cost over an archive in parts of 32 MiB: a run with nothing new in the newest
# part, the run that begins the next one beside one that opens it, and all parts, read one after the other.
#
#     bench/years.sh [PROGRAM [PARTS [LOGS]]]
#
# PROGRAM is crates/bac/out/bac, PARTS 21 (10 million rows) and LOGS 2000 where none is given. It takes 34 MB of disk a part.
set -eu
cd "$(dirname "$0")/.."
program=$(realpath -- "${1:-crates/bac/out/bac}")
room=$(mktemp -d)
trap 'rm -rf "$room"' EXIT
python3 bench/years.py "$program" "$room" "${2:-21}" "${3:-2000}"
echo "cores: $(nproc), load: $(cut -d ' ' -f 1 /proc/loadavg)"
