# What the scripts of this folder share that serve a device on the loopback interface: sourced with
# the program in $program. It counts in `passed` and `failed`, keeps files in $room, and ends its
# servers by their own numbers. Such a script runs under a limit of time.

. ./limited.sh

room=$(mktemp -d)
server=
trap '[ -z "$server" ] || kill -KILL "$server" 2> /dev/null; rm -rf "$room"' EXIT
passed=0
failed=0

# is NAME GOT WANTED
is() {
    row "$1"
    if [ "$2" = "$3" ]; then
        passed=$((passed + 1))
    else
        failed=$((failed + 1))
        printf '%s: %s\nis wanted, and it is: %s\n' "$1" "$3" "$2" | head -c 2000
    fi
}

# Its output, its text on standard error and its status, in one text.
bac() {
    "$program" "$@" > "$room/out" 2> "$room/err"
    status=$?
    said="$(cat "$room/out")|$(cat "$room/err")|$status"
}

# What was counted, as the last line.
counted() {
    echo "$passed passed, $failed failed"
    [ "$failed" -eq 0 ]
}

# served CONFIGURATION [OPTION..]: serves at a free port of 127.0.0.1, and waits until it answers.
served() {
    local configuration=$1 try wait
    shift
    for try in {1..50}; do
        port=$((20000 + RANDOM))
        at=127.0.0.1:$port
        "$program" serve "$at" "$@" < "$configuration" > "$room/served" 2>&1 &
        server=$!
        for wait in {1..100}; do
            bac wi "$at" --timeout=300
            [ "$status" -ne 0 ] || return 0
            kill -0 "$server" 2> /dev/null || break
            sleep 0.1
        done
        # The port is in use: the next one is tried.
        grep -q 'socket fault' "$room/served" || break
    done
    echo "no server: $(cat "$room/served")"
    failed=$((failed + 1))
    counted
    exit 1
}

# The server is ended; it is not asked what it told.
unserved() {
    kill "$server"
    wait "$server" 2> /dev/null
    server=
}
