#!/usr/bin/env bash
# Asks 1,000 addresses of the loopback interface who is there, at each of which a station answers after
# some milliseconds (stations.py): each answer has to be printed. And sends a server more at once than a socket of the
# usual size holds (waiting.py).
#
#     examples/check/stations.sh [PROGRAM]
#
# PROGRAM is crates/bac/out/bac where none is given. The last line is `N passed, M failed`.
set -u
cd "$(dirname "$0")"
program=$(realpath -- "${1:-../../crates/bac/out/bac}")
. ./common.sh

# stations MS TIMES SILENT: asks 1,000 stations that answer after MS milliseconds, TIMES times, but for the
# first SILENT of them.
stations() {
    coproc python3 ./stations.py 1000 "$@"
    server=$COPROC_PID
    local input=${COPROC[1]} at
    mapfile -t -n 1000 -u "${COPROC[0]}" at
    SECONDS=0
    # As many addresses as a list may have don't fit each system's command line.
    printf '%s\n' "${at[@]}" > "$room/list"
    bac wi - --timeout=1000 < "$room/list"
    took=$SECONDS
    is "answers after $1 ms, $2 times, not of $3: the status and what is told" "$status $(cat "$room/err")" '0 '
    is "answers after $1 ms, $2 times, not of $3: the instances" \
        "$(sed 's/^I-Am \([0-9]*\) .*/\1/' "$room/out" | sort -n | uniq -c)" \
        "$(seq $(($3 + 1)) 1000 | awk -v times="$2" '{ printf "%7d %s\n", times, $0 }')"
    exec {input}>&-
    wait "$server"
    server=
}

for times in 1 2; do
    for ms in 0 3 20 150; do
        stations $ms $times 0
    done
done

# The first 900 don't answer: no more than a second is waited for them, beside the wait at the end.
stations 0 1 900
is 'silent stations are not waited for long' "$([ "$took" -le 4 ] && echo yes)" yes

# A socket of 212,992 octets, the usual size, holds 277 of them.
served ../use/plant.conf
is 'what comes at once waits in the socket' "$(./waiting.py "$port" "$server" 400)" 400
unserved

counted
