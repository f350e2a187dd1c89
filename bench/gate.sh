#!/usr/bin/env bash
# What the gate costs: runs `rt ci` on a clone of the last commit while provers.py counts its provers, and prints for each
# crate the processor seconds of its check, of its tests and of its must-fail edits, the peak of memory of one process,
# and the longest chain of crates, for which the gate waits however many processors there are.
#
#     bench/gate.sh [CRATE..]
#
# With names, where the kit's `rt ci` takes some, those crates and the libraries below them. RT_JOBS is how many provers run
# at a time, of one job each: without it as many as there are processors. Where the kit keeps what an earlier run on the
# machine passed, that has no prover: so it says what the gate costs from nothing only where nothing is kept. `rt` is on the
# PATH. It takes some 40 minutes on four quiet processors; several provers that share them cost more than one after the other.
set -eu
cd "$(dirname "$0")/.."
room=$(mktemp -d -t rt-gate.XXXXXX)
watcher=
trap '[ -z "$watcher" ] || kill "$watcher"; rm -rf "$room"' EXIT
git clone -q . "$room/clone"
python3 bench/provers.py watch "$room/provers" &
watcher=$!
(cd "$room/clone" && RT_JOBS=${RT_JOBS:-$(nproc)} rt ci "$@") | tail -n 1
sleep 1
python3 bench/provers.py page "$room/provers"
