#!/usr/bin/env bash
# What no contract sees of the program: how long it waits, the machine's clock, ports as octets,
# signals, a log that fills while nobody asks, clap's text, and the sizes of answers. The waits to the
# millisecond, each look at the clock and many signals are in faults.py.
#
#     examples/check/edges.sh [PROGRAM]
#
# PROGRAM is crates/bac/out/bac where none is given. The last line is `N passed, M failed`.
set -u
cd "$(dirname "$0")"
program=$(realpath -- "${1:-../../crates/bac/out/bac}")
. ./common.sh

# ---- waits

# lasts NAME LEAST MOST WORDS..: the run takes between so many milliseconds.
lasts() {
    local name=$1 least=$2 most=$3 begin took
    shift 3
    begin=$(date +%s%N)
    bac "$@"
    took=$((($(date +%s%N) - begin) / 1000000))
    is "$name: $least to $most ms" "$([ "$took" -ge "$least" ] && [ "$took" -le "$most" ] || echo "$took")" ''
}

# No one is at this address: two waits of 200 ms each, or one of 300. A program that waits its own 3 s, or ten times as
# long, takes more than the upper bounds, which leave room for a busy machine.
silent=127.77.77.77:9
lasts 'rp' 400 2900 rp $silent 8 123 77 --timeout=200 --retries=1
lasts 'wp' 400 2900 wp $silent 5 1 85 8 0 --timeout=200 --retries=1
lasts 'log' 400 2900 log $silent 1 1 --timeout=200 --retries=1
lasts 'wi' 300 2900 wi $silent --timeout=300
lasts 'rp with its three retries' 800 2900 rp $silent 8 123 77 --timeout=200
lasts 'rp with its three seconds' 3000 5900 rp $silent 8 123 77 --retries=0

# ---- ports

# A port of its two octets, high one first: Who-Is from the shell ends a server of one datagram.
for port in 43981 47808; do
    if [ $port = 47808 ]; then at=127.77.1.$((RANDOM % 250 + 1)); else at=127.77.2.$((RANDOM % 250 + 1)):$port; fi
    "$program" serve "$at" --count=1 < ../use/plant.conf > "$room/served" 2>&1 &
    server=$!
    for try in {1..50}; do
        printf '\x81\x0a\x00\x08\x01\x00\x10\x08' > "/dev/udp/${at%:*}/$port"
        kill -0 "$server" 2> /dev/null || break
        sleep 0.1
    done 2> /dev/null
    kill -KILL "$server" 2> /dev/null
    wait "$server"
    is "a server at port $port" "$? $(cat "$room/served")" "0 serving ${at%:*}:$port"
    server=
done

# That it is up is told before the first receive, which waits without limit here: nothing is sent.
at=127.77.4.$((RANDOM % 250 + 1)):47000
echo 'device 1 alone 0 1476 2024-05-06T07:08:09.10' > "$room/alone.conf"
"$program" serve "$at" < "$room/alone.conf" > "$room/alone.told" 2>&1 &
server=$!
for try in {1..100}; do
    [ ! -s "$room/alone.told" ] || break
    sleep 0.1
done
is 'a server tells that it is up before anyone asks' "$(cat "$room/alone.told")" "serving $at"
unserved

# Waits in vain aren't counted: a server of one datagram is there behind several of 200 ms each.
at=127.77.5.$((RANDOM % 250 + 1)):47001
"$program" serve "$at" --count=1 < ../use/plant.conf > "$room/waits.told" 2>&1 &
server=$!
sleep 1.5
is 'a server waits on while nobody asks' "$(kill -0 "$server" 2> /dev/null && echo yes)" yes
unserved

# --local is the address and the port that a device sees, for each tool that asks.
cat > "$room/seen.py" <<'P'
import socket, subprocess, sys
me = socket.socket(socket.AF_INET, socket.SOCK_DGRAM)
me.bind(("127.0.0.1", 0))
me.settimeout(10)
at, own = "127.0.0.1:%d" % me.getsockname()[1], "127.77.3.9:43981"
for words in ["rp AT 8 123 77 --retries=0", "wp AT 5 1 85 8 0 --retries=0", "log AT 1 1 --retries=0", "wi AT"]:
    run = [sys.argv[1], *words.replace("AT", at).split(), "--timeout=20", "--local=" + own]
    subprocess.run(run, stdout=subprocess.DEVNULL, stderr=subprocess.DEVNULL)
    print(words[:3].strip(), "%s:%d" % me.recvfrom(2000)[1])
P
python3 "$room/seen.py" "$program" > "$room/out" 2>&1
is 'the address and port of --local' "$(tr '\n' ' ' < "$room/out")" \
    'rp 127.77.3.9:43981 wp 127.77.3.9:43981 log 127.77.3.9:43981 wi 127.77.3.9:43981 '

# ---- clap's text is told once

for words in '' 'rp' 'Replay' 'replay again' 'wi 127.0.0.1 --retries=1' 'serve 127.0.0.1 --count=1 --count=1'; do
    # shellcheck disable=SC2086 # they are words
    bac $words
    is "told once: bac $words" "$(grep -c '^Usage: bac' "$room/err") $(grep -c '^error: ' "$room/err") $(wc -c < "$room/out") $status" \
        '1 1 0 1'
done

# ---- the machine's clock, and a log that fills while nobody asks

served ../use/plant.conf
sleep 3.3
bac log "$at" 1 oldest
is 'a record each second, while nobody asked' "$([ "$(wc -l < "$room/out")" -ge 4 ] && echo yes)" yes

# The moment of the device is one of the seconds around the two readings.
begin=$(date +%s)
bac rp "$at" 8 123 56
told=$(cat "$room/out")
bac rp "$at" 8 123 57
told="$told $(sed 's/\..*//' "$room/out")"
end=$(date +%s)
found=
for ((second = begin - 1; second <= end; second++)); do
    [ "$told" != "$(date -u -d "@$second" '+date(%Y-%m-%d,%u) time(%H:%M:%S')" ] || found=yes
done
is "Local_Date and Local_Time, as $told" "$found" yes

# The hundredths go on: two of ten readings differ.
for try in {1..10}; do
    bac rp "$at" 8 123 57
    sed 's/.*\.//' "$room/out"
    sleep 0.013
done | sort -u | wc -l > "$room/hundredths"
is 'hundredths of a second' "$([ "$(cat "$room/hundredths")" -ge 2 ] && echo yes)" yes

# ---- signals

# A server that is stopped and goes on answers, whether a log wakes it up or not.
for configuration in ../use/plant.conf "$room/quiet.conf"; do
    sed 's/100 0$/0 0/' ../use/plant.conf > "$room/quiet.conf"
    unserved
    served "$configuration"
    for turn in 1 2 3; do
        kill -STOP "$server"
        sleep 0.3
        kill -CONT "$server"
        sleep 0.1
    done
    bac rp "$at" 8 123 77
    is "stopped and gone on ($(basename "$configuration"))" "$said" '"plant"||0'
done

# So does a client: while it is stopped and goes on, its answer comes.
bac log "$at" 1 oldest
"$program" rp $silent 8 123 77 --timeout=1500 --retries=0 > "$room/out" 2> "$room/err" &
client=$!
sleep 0.3
kill -STOP "$client"
kill -CONT "$client"
sleep 0.3
is 'a client that was stopped waits on' "$(kill -0 "$client" 2> /dev/null && echo yes)" yes
wait "$client"
is 'and ends as lost' "$? $(cat "$room/err")" "2 lost
no reply from $silent"

# ---- datagrams that are no requests, and forged addresses

cat > "$room/strange.py" <<'P'
import socket, sys
me = socket.socket(socket.AF_INET, socket.SOCK_DGRAM)
me.bind(("127.0.0.1", 0))
me.settimeout(5)
at = ("127.0.0.1", int(sys.argv[1]))
# 1502 octets; a Who-Is forwarded for 0.0.127.1:0, where no answer can go; then one that is answered; and one that
# another socket forwards, which is answered to the address that it names.
me.sendto(b"\x81" * 1502, at)
me.sendto(bytes.fromhex("81040012 00007f010000 0120ffff00ff 1008"), at)
me.sendto(bytes.fromhex("810b000c 0120ffff00ff 1008"), at)
octets, sender = me.recvfrom(2000)
print(octets.hex(), sender == at)
other = socket.socket(socket.AF_INET, socket.SOCK_DGRAM)
other.sendto(bytes.fromhex("81040012 7f000001 %04x 0120ffff00ff 1008" % me.getsockname()[1]), at)
print(me.recvfrom(2000)[0].hex())
P
python3 "$room/strange.py" "$port" > "$room/out" 2>&1
is 'a server goes on behind datagrams that are none' "$(cat "$room/out")" '810a001401001000c40200007b2205c491032100 True
810a001401001000c40200007b2205c491032100'

# Each low and each high octet of a port is answered. Low ports may be for the system alone.
cat > "$room/answered.py" <<'P'
import socket, sys
at, silent = ("127.0.0.1", int(sys.argv[1])), []
for port in [*range(44032, 44288), *range(1066, 65536, 256)]:
    me = socket.socket(socket.AF_INET, socket.SOCK_DGRAM)
    me.bind(("127.77.4.9", port))
    me.settimeout(2)
    me.sendto(bytes.fromhex("810b000c 0120ffff00ff 1008"), at)
    try:
        me.recvfrom(2000)
    except OSError:
        silent.append(port)
    me.close()
print("silent:", silent)
P
python3 "$room/answered.py" "$port" > "$room/out" 2>&1
is 'a server answers at each port' "$(cat "$room/out")" 'silent: []'
unserved

# An answer of 12 octets, and of five for each of 292 objects, goes over a socket too.
{
    echo 'device 123 plant 0 1476 2024-05-06T07:08:09.10'
    for ((i = 1; i < 292; i++)); do echo "integer $i n$i 0"; done
} > "$room/many.conf"
served "$room/many.conf"
bac rp "$at" 8 123 76
{ echo 'object(8,123)'; for ((i = 1; i < 292; i++)); do echo "object(45,$i)"; done; } > "$room/want"
is 'an answer of 1472 octets is sent' "$status $(cmp "$room/out" "$room/want" 2>&1)" '0 '
unserved

# ---- sizes of answers

# Object_List of a device with N - 1 integers has N identifiers of five octets: 30 01 0c, 0c and the
# device, 19 4c, 3e, 3f and these are 12 + 5 N octets. Asked by a request that takes 50, 128, 206, 480,
# 1024 or 1476 octets (codes 0 to 5), the longest list that fits is answered, and one more is Abort 4.
row=0
for code in 0:7 1:23 2:38 3:93 4:202 5:292; do
    for count in "${code#*:}" $((${code#*:} + 1)); do
        {
            echo 'device 123 plant 0 1476 2024-05-06T07:08:09.10'
            for ((i = 1; i < count; i++)); do echo "integer $i n$i 0"; done
            echo "rx 810a00110104000${code%:*}010c0c0200007b194c"
        } > "$room/list"
        if [ "$count" = "${code#*:}" ]; then
            {
                printf 'tx 810a%04x010030010c0c0200007b194c3ec40200007b' $((18 + 5 * count))
                for ((i = 1; i < count; i++)); do printf 'c4%08x' $((45 * 4194304 + i)); done
                echo 3f
            } > "$room/want"
        else
            echo 'tx 810a00090100710104' > "$room/want"
        fi
        bac replay < "$room/list"
        is "a list of $count to a request of code ${code%:*}" "$(cat "$room/out")" "$(cat "$room/want")"
    done
done

# Exactly 50 octets: a name of 35, in 15 + 35.
for length in 35 36; do
    name=$(printf 'n%.0s' $(seq $length))
    printf '%s\n' "device 123 $name 0 1476 2024-05-06T07:08:09.10" 'rx 810a001101040000010c0c0200007b194d' > "$room/name"
    bac replay < "$room/name"
    if [ $length = 35 ]; then
        want="tx 810a0038010030010c0c0200007b194d3e752400$(printf '6e%.0s' $(seq 35))3f"
    else
        want='tx 810a00090100710104'
    fi
    is "a name of $length to a request of 50 octets" "$(cat "$room/out")" "$want"
done

# ---- invoke IDs, and more than a hundred steps

# A log of 300 records, of which each reply has one: the invoke ID after 255 is 0, and then 1.
{
    echo '$ bac log ADDRESS 1 1 --steps=260'
    for ((n = 1; n <= 260; n++)); do
        invoke=$(printf %02x $((n % 256)))
        number=$([ $n -lt 256 ] && printf '21%02x' $n || printf '22%04x' $n)
        first=$([ $n -lt 256 ] && printf '69%02x' $n || printf '6a%04x' $n)
        printf '> 810a%04x 0104 0005%s1a 0c05000001 1983 6e %s 3164 6f\n' $((21 + ${#number} / 2)) $invoke $number
        printf '< 810a%04x 0100 30%s1a 0c05000001 1983 3a0520 4901 5e' $((42 + ${#first} / 2)) $invoke
        printf ' 0e a47c050601 b40708090a 0f 1e 3900 1f 2a0400 5f %s\n' $first
        echo "| $n 2024-05-06T07:08:09.10 enum(0) 0000"
    done
    echo '| step limit, next 261'
    echo '= 0'
} > "$room/long.talk"
is 'invoke IDs come round' "$(./talk.py "$program" "$room/long.talk" | tail -n 1)" '1 passed, 0 failed'

counted
