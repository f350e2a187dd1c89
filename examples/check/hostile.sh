#!/usr/bin/env bash
# A device among strangers: changed datagrams (hostile.py), scripts of line feeds alone, addresses in
# use, and a server that is flooded while a client walks its log. Only 127.0.0.1 is spoken to.
#
#     examples/check/hostile.sh [PROGRAM [SEED]]
#
# PROGRAM is crates/bac/out/bac where none is given. The last line is `N passed, M failed`.
set -u
cd "$(dirname "$0")"
program=$(realpath -- "${1:-../../crates/bac/out/bac}")
limit=1200
. ./common.sh

# ---- line feeds

yes '' | head -c 1048576 > "$room/feeds"
bac replay < "$room/feeds"
is '1,048,576 line feeds' "$said" '||0'
echo >> "$room/feeds"
bac replay < "$room/feeds"
is 'and one more' "$said" '|script too long|1'

# ---- a flood

# Replies of 50 octets: a walk of the log asks once for each record.
sed s/1476/50/ ../use/plant.conf > "$room/small.conf"
served "$room/small.conf"
bac rp 127.77.77.77:9 8 123 77 --local="$at" --timeout=100
is 'an address in use' "$said" '|socket fault
another socket has the address|2'
for turn in {1..20}; do
    bac wp "$at" 20 2 133 0 1 --value=$((turn % 2 ? 0 : 1))
done

# The memory of the server's own, in kB.
memory() { sed -n 's/^VmRSS:[^0-9]*\([0-9]*\) kB/\1/p' "/proc/$server/status"; }

# flood SECONDS: sends the scripts' datagrams that write nothing, changed or not, without a pause.
cat > "$room/flood.py" <<'P'
import random, socket, sys, time
sys.path.insert(0, ".")
import hostile
base = hostile.datagrams_of("refusals.script", "properties.script", "who-is.script", "by-time.script")
chance = random.Random(1)
sent = base + [hostile.changed_at_random(chance, base) for _ in range(3000)]
# A WriteProperty has an octet 0f.
sent = [it for it in sent if b"\x0f" not in it]
me = socket.socket(socket.AF_INET, socket.SOCK_DGRAM)
end, count = time.monotonic() + float(sys.argv[2]), 0
while time.monotonic() < end:
    for it in sent:
        me.sendto(it, ("127.0.0.1", int(sys.argv[1])))
    count += len(sent)
print(count)
P
python3 -B "$room/flood.py" "$port" 1 > "$room/sent"
before=$(memory)
python3 -B "$room/flood.py" "$port" 6 > "$room/sent" &
flood=$!
sleep 0.5
bac log "$at" 2 oldest --timeout=100 --retries=10
is 'a walk beside a flood' "$(cut -d ' ' -f 1 "$room/out" | sed '$d' | tr '\n' ' ')$(tail -n 1 "$room/out") $status" \
    '1 2 3 4 5 6 7 8 9 10 11 12 13 14 15 16 17 18 19 20 caught up, next 21 0'
wait "$flood"
is 'memory stays flat' "$([ $(($(memory) - before)) -le 256 ] || echo "$before kB, then $(memory)")" ''
bac rp "$at" 5 1 85
is 'the flood wrote nothing' "$said" 'enum(0)||0'
echo "the flood: $(cat "$room/sent") datagrams" >&2
unserved

# ---- changed datagrams

./hostile.py "$program" ${2:+"$2"} > "$room/changed"
sed '$d' "$room/changed"
read -r more fewer <<< "$(tail -n 1 "$room/changed" | sed -nE 's/^([0-9]+) passed, ([0-9]+) failed$/\1 \2/p')"
passed=$((passed + ${more:-0}))
failed=$((failed + ${fewer:-1}))

counted
