#!/usr/bin/env bash
# How long a run of `bac keep` takes over a site of which most devices stand behind routers with slow lines.
#
#     bench/routers.sh [PROGRAM [DEVICES [ROUTERS [BEHIND [TAKES]]]]]
#
# PROGRAM is crates/bac/out/bac; without more, 100 devices of four logs, of which eight stand behind each of ten routers,
# whose lines take 20 milliseconds for a question, one after the other.
set -eu
cd "$(dirname "$0")/.."
program=$(realpath -- "${1:-crates/bac/out/bac}")
room=$(mktemp -d)
trap 'rm -rf "$room"' EXIT
python3 bench/routers.py "$program" "$room" "${2:-100}" "${3:-10}" "${4:-8}" "${5:-20}"
echo "cores: $(nproc), load: $(cut -d ' ' -f 1 /proc/loadavg)"
