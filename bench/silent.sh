#!/usr/bin/env bash
# How long a run of `bac keep` takes over a site of which some devices give no answer, beside one in which all do.
#
#     bench/silent.sh [PROGRAM [DEVICES [SILENT]]]
#
# PROGRAM is crates/bac/out/bac, DEVICES 100 and SILENT 10 where none is given; each device has four logs.
set -eu
cd "$(dirname "$0")/.."
program=$(realpath -- "${1:-crates/bac/out/bac}")
room=$(mktemp -d)
trap 'rm -rf "$room"' EXIT
python3 bench/silent.py "$program" "$room" "${2:-100}" "${3:-10}"
echo "cores: $(nproc), load: $(cut -d ' ' -f 1 /proc/loadavg)"
