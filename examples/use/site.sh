#!/usr/bin/env bash
# Finds the devices at a list of addresses, and keeps the trend logs of each in one file.
#
#     examples/use/site.sh FILE < ADDRESSES
#
# ADDRESSES has an address a line, as `bac wi -` takes them. Each device that answers is asked for its trend logs, which
# are added to FILE; from then on `bac keep FILE` fetches what is new of all. $BAC is the program, or else `bac`. The
# status is the greater of the two, that of `bac wi` where nobody answers (2) or a line is no address (1).
set -u
bac=${BAC:-bac}
[ $# -eq 1 ] || { echo "usage: site.sh FILE < ADDRESSES" >&2; exit 1; }
found=$("$bac" wi -)
status=$?
[ -n "$found" ] || exit "$status"
"$bac" keep "$1" - <<< "$found"
kept=$?
exit $((kept > status ? kept : status))
