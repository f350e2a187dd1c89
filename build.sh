#!/usr/bin/env bash
# Proves what `bac` needs, several crates at once, and builds it: crates/bac/out/bac. What is proved already, and of the
# same text, is left as it is, so after an interrupt it goes on.
#
#     ./build.sh [JOBS]
#
# JOBS is how many processors it takes: without it all, but no more than one for each 4 GB of free memory. It needs `rt`
# on the PATH.
set -eu
cd "$(dirname "$0")/crates"
free=$(awk '/^MemAvailable:/ { print int($2 / 4000000) }' /proc/meminfo)
jobs=${1:-$(($(nproc) < free ? $(nproc) : free))}
[ "$jobs" -gt 1 ] || jobs=1
begun=$SECONDS

# Little can be proved beside bac_wire, bac_apdu and bac_log, in turn, but the archive: so they share the processors. Each
# has its own `rt lib`, since that of bac_log alone would read the sources of all three once more before.
if [ "$jobs" -gt 1 ]; then
    (cd bac_archive && exec rt lib --jobs 1) &
    archive=$!
    trap 'kill "$archive" 2> /dev/null || true' EXIT
    for crate in bac_wire bac_apdu bac_log; do
        (cd "$crate" && rt lib --jobs $((jobs - 1)))
    done
    wait "$archive"
    trap - EXIT
fi

# The rest one job each: `rt all` takes the crate of this folder and all below it.
(cd bac_run && rt all check --jobs "$jobs")

# `rt run` links what is proved.
cd bac
rt run --jobs $((jobs < 2 ? jobs : 2)) -- --version
echo "crates/bac/out/bac: $(((SECONDS - begun + 59) / 60)) minutes"
