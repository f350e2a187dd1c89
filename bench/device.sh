#!/usr/bin/env bash
# What a device costs: octets per second of a script of 1,048,576 octets whose lines but the first
# few are ReadProperty and WriteProperty requests in turn; the time to build a device of 5,000,
# 10,000, 20,000 and 40,000 objects; a datagram to a device of 10 objects and to one of 40,000; and
# a Trend Log that holds 65,535 records: samples a second, ReadRange replies of 85 records by number
# and by time, and the memory of it all.
set -eu
cd "$(dirname "$0")/.."
program=${1:-crates/bac/out/bac}
script=$(mktemp)
output=$(mktemp)
trap 'rm -f "$script" "$output"' EXIT
device='device 123 plant 0 1476 2024-05-06T07:08:09.10'
awk -v device="$device" 'BEGIN {
    head = device "\nbinary 1 pump 0\n"
    lines = "rx 810a001701040005010f0c0140000119553e91013f4908\nrx 810a001101040005020c0c014000011955\n"
    printf "%s", head
    left = 1048576 - length(head)
    while (left > 2 * length(lines)) { printf "%s", lines; left -= length(lines) }
    printf "#"
    for (left -= 2; left > 0; left--) printf "."
    print ""
}' > "$script"
size=$(wc -c < "$script")
[ "$size" -eq 1048576 ]
rounds=${ROUNDS:-20}
start=$(date +%s%N)
for ((round = 0; round < rounds; round++)); do
    "$program" replay < "$script" > "$output"
done
end=$(date +%s%N)
awk -v octets=$((size * rounds)) -v nanoseconds=$((end - start)) -v rounds="$rounds" -v answers="$(wc -l < "$output")" 'BEGIN {
    printf "%d octets a script, %d answers, %d rounds: %.0f octets per second\n", octets / rounds, answers, rounds, octets * 1e9 / nanoseconds
}'

# A build alone: object lines, and nothing behind them.
for objects in 5000 10000 20000 40000; do
    awk -v device="$device" -v objects="$objects" 'BEGIN {
        print device
        for (i = 1; i <= objects; i++) print "binary " i " " i " 0"
    }' > "$script"
    start=$(date +%s%N)
    "$program" replay < "$script" > "$output"
    end=$(date +%s%N)
    awk -v objects="$objects" -v nanoseconds=$((end - start)) 'BEGIN {
        printf "%d objects built in %.2f s\n", objects, nanoseconds / 1e9
    }'
done

# A full log: samples alone, and then with requests behind them.
full_log() {
    awk -v device="$device" -v samples="$1" -v requests="$2" -v request="$3" 'BEGIN {
        print device
        print "binary 1 pump 0"
        print "log 1 trend binary 1 65535 0 0"
        for (i = 0; i < samples; i++) print "sample 1"
        for (i = 0; i < requests; i++) print request
    }' > "$script"
}
# the best of five, in nanoseconds
best() {
    local least=0 took
    for _ in 1 2 3 4 5; do
        start=$(date +%s%N)
        "$program" replay < "$script" > "$output"
        took=$(($(date +%s%N) - start))
        if [ "$least" -eq 0 ] || [ "$took" -lt "$least" ]; then least=$took; fi
    done
    echo "$least"
}
# Datagrams as a server takes them, each behind a look at the clock: how long the server is on a
# processor for a WriteProperty, the system's own time with it. Over the loopback interface.
if command -v cc > /dev/null; then
    room=$(mktemp -d)
    server=
    trap '[ -z "$server" ] || kill "$server" 2> /dev/null; rm -rf "$script" "$output" "$room"' EXIT
    cc -O2 -o "$room/udp" bench/udp/udp.c
    asked=20000
    for objects in 10 40000; do
        awk -v device="$device" -v objects="$objects" 'BEGIN {
            print device
            for (i = 1; i < objects; i++) print "binary " i " " i " 0"
            print "log 1 trend binary 1 65535 0 0"
        }' > "$script"
        port=$((20000 + RANDOM))
        "$program" serve "127.0.0.1:$port" < "$script" 2> "$room/served" &
        server=$!
        for ((try = 0; try < 40; try++)); do
            if "$program" wi "127.0.0.1:$port" --timeout=100 > "$output" 2>&1; then break; fi
        done
        least=0
        for _ in 1 2 3 4 5; do
            read -r before _ < "/proc/$server/schedstat"
            "$room/udp" fill "$port" "$asked"
            read -r after _ < "/proc/$server/schedstat"
            took=$((after - before))
            if [ "$least" -eq 0 ] || [ "$took" -lt "$least" ]; then least=$took; fi
        done
        kill "$server"
        wait "$server" 2> /dev/null || true
        server=
        awk -v objects="$objects" -v took="$least" -v asked="$asked" 'BEGIN {
            printf "a datagram to a device of %d objects: %.2f us\n", objects, took / asked / 1e3
        }'
    done
fi

full_log 0 0 ''
empty=$(best)
full_log 65535 0 ''
samples=$(best)
awk -v took=$((samples - empty)) 'BEGIN { printf "65535 samples: %.0f a second\n", 65535 * 1e9 / took }'
full_log 110000 0 ''
more=$(($(best) - samples))
awk -v took="$more" 'BEGIN { printf "44465 samples more, of a full log: %.0f a second\n", 44465 * 1e9 / took }'
by_number='rx 810a001701040005011a0c0500000119836e210131646f'
by_time='rx 810a001f01040005011a0c0500000119837ea478010103b40000000031647f'
# No record is newer than this one.
by_last_time='rx 810a001f01040005011a0c0500000119837ea47c050601b40708090a31647f'
for kind in number time last_time; do
    request=by_$kind
    full_log 65535 5000 "${!request}"
    took=$(($(best) - samples))
    awk -v kind="$kind" -v took="$took" -v octets="$(tail -n 1 "$output" | wc -c)" 'BEGIN {
        printf "ReadRange by %s of a full log: %.0f replies a second of %d octets\n", kind, 5000 * 1e9 / took, (octets - 4) / 2
    }'
done
if [ -x /usr/bin/time ]; then
    full_log 0 0 ''
    /usr/bin/time -f '%M kB of memory without the records' "$program" replay < "$script" > "$output"
    full_log 65535 0 ''
    /usr/bin/time -f '%M kB of memory with 65535 records' "$program" replay < "$script" > "$output"
fi
echo "cores: $(nproc), load: $(cut -d ' ' -f 1 /proc/loadavg)"
