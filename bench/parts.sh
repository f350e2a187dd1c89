#!/usr/bin/env bash
# What a run of `bac keep` with nothing new costs over an archive in parts: in a newest part that is nearly full, in the run that
# begins the next one, and behind that.
#
#     bench/parts.sh [PROGRAM [LOGS]]
#
# PROGRAM is crates/bac/out/bac, LOGS 100 where none is given.
set -eu
cd "$(dirname "$0")/.."
program=$(realpath -- "${1:-crates/bac/out/bac}")
room=$(mktemp -d)
trap 'rm -rf "$room"' EXIT
python3 bench/parts.py "$program" "$room" "${2:-100}"
echo "cores: $(nproc), load: $(cut -d ' ' -f 1 /proc/loadavg)"
