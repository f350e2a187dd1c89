#!/usr/bin/env bash
# Serves plant.conf on the loopback interface, and finds, reads, writes and walks it with the other
# tools, each as a program of its own. A walk is stopped after each few replies and resumed at the
# number that it printed; no record may be lost or come twice.
#
#     examples/check/loopback.sh [PROGRAM]
#
# PROGRAM is crates/bac/out/bac where none is given. The last line is `N passed, M failed`.
set -u
cd "$(dirname "$0")"
program=$(realpath -- "${1:-../../crates/bac/out/bac}")
. ./common.sh

# ---- a server of one datagram

served ../use/plant.conf --count=1
is 'found' "$said" "I-Am 123 $at max-apdu 1476 segmentation 3 vendor 0||0"
wait "$server"
status=$?
server=
is 'the server after one datagram' "$status $(cat "$room/served")" "0 serving $at"
bac rp "$at" 8 123 77 --timeout=100 --retries=1
is 'nobody is there' "$said" "|lost
no reply from $at|2"
bac wp "$at" 5 1 85 8 0 --timeout=100 --retries=0
is 'nobody is there to write to' "$said" "|lost
no reply from $at|2"
bac wi "$at" --timeout=100
is 'nobody answers' "$said" '|no answer
addresses asked: 1; devices that answer by broadcast are only heard with --local=0.0.0.0:47808|2'
# At the address at which broadcasts are heard, that isn't advised.
bac wi "$at" --local=0.0.0.0:47808 --timeout=100
is 'nobody answers where broadcasts are heard' "$said" '|no answer
addresses asked: 1|2'
printf '%s\n' 127.0.0.1:1 '# and' '' "$at" > "$room/list"
bac wi - --timeout=100 < "$room/list"
is 'nobody of two answers' "$said" '|no answer
addresses asked: 2; devices that answer by broadcast are only heard with --local=0.0.0.0:47808|2'
bac log "$at" 1 oldest --timeout=100 --retries=0
is 'nobody is there to walk' "$said" "lost, next 1|no reply from $at|2"
# The system sends no broadcast for a program that didn't ask for it.
bac rp 255.255.255.255 8 123 77 --timeout=100 --retries=1
is 'nothing can be sent' "$said" '|lost
nothing could be sent to 255.255.255.255:47808|2'
bac log 255.255.255.255 1 oldest --timeout=100 --retries=0
is 'nothing can be sent to walk' "$said" 'lost, next 1|nothing could be sent to 255.255.255.255:47808|2'

# ---- a server

# Replies of 50 octets hold one record each.
sed s/1476/50/ ../use/plant.conf > "$room/small.conf"
served "$room/small.conf"
bac serve "$at" --count=0 < ../use/plant.conf
is 'an address in use' "$said" '|socket fault
another socket has the address|2'
bac wi "$at" --min=124 --timeout=250
is 'another instance' "$said" '|no answer
addresses asked: 1; devices that answer by broadcast are only heard with --local=0.0.0.0:47808|2'

printf '127.0.0.1:1\r\n%s' "$at" > "$room/list"
bac wi - --timeout=250 < "$room/list"
is 'found by a list without an end of its last line' "$said" "I-Am 123 $at max-apdu 50 segmentation 3 vendor 0||0"
# A network: of the hosts 127.0.0.1 to 127.0.0.6 one is served; as a word, and as a line with an address in front.
bac wi "127.0.0.5:$port/29" --timeout=250
is 'found by its network' "$said" "I-Am 123 $at max-apdu 50 segmentation 3 vendor 0||0"
printf '127.77.77.77:9\n127.0.0.2:%s/30\n' "$port" > "$room/list"
bac wi - --timeout=250 < "$room/list"
is 'found by the network of a line' "$said" "I-Am 123 $at max-apdu 50 segmentation 3 vendor 0||0"
bac wi "$at/32" --timeout=250
is 'found as a network of one' "$said" "I-Am 123 $at max-apdu 50 segmentation 3 vendor 0||0"
# Its first and its last address are no hosts: 127.0.0.1 is the first of these four.
bac rp "$at" 8 123 77
is 'the name of the device' "$said" '"plant"||0'
bac rp "$at" 8 4194303 75
is 'the device that is asked' "$said" 'object(8,123)||0'
bac rp "$at" 5 1 85
is 'the pump is off' "$said" 'enum(0)||0'
bac wp "$at" 5 1 85 8 9 --value=1
is 'the pump is switched on' "$said" 'written||0'
bac rp "$at" 5 1 85
is 'the pump is on' "$said" 'enum(1)||0'
bac rp "$at" 5 1 87 --index=8
is 'the command at priority 8' "$said" 'enum(1)||0'
bac rp "$at" 5 1 87 --index=0
is 'the number of priorities' "$said" '16||0'
bac wp "$at" 5 1 85 8 0
is 'the command is taken back' "$said" 'written||0'
bac rp "$at" 5 1 85
is 'the pump is off again' "$said" 'enum(0)||0'
bac rp "$at" 5 1 85 --trace
is 'a trace of a question' "$said" "enum(0)|tx $at 810a001101040005010c0c014000011955
rx $at 810a0014010030010c0c0140000119553e91003f|0"
# How many lines of a trace tell what was sent, how many what was received, and how many anything else.
traced() {
    bac "$@" --trace
    is "a trace of $1" "$(($(grep -c "^tx $at 810a" "$room/err") > 0)) $(($(grep -c "^rx $at 810a" "$room/err") > 0)) $(grep -vc "^[rt]x $at 810a" "$room/err")" '1 1 0'
}
traced wi "$at" --timeout=300
traced wp "$at" 5 1 85 8 0
traced log "$at" 2 oldest
traced logs "$at" 2
traced keep "$room/traced.db" "$at" 2
bac rp "$at" 5 1 85
is 'no trace unless it is asked for' "$said" 'enum(0)||0'
bac wp "$at" 45 1 85 0 3 --value=-5
is 'a level is written' "$said" 'written||0'
bac rp "$at" 45 1 85
is 'the level' "$said" '-5||0'
columns=$'instance\tname\tlogs\tenable\ttype\tinterval\trecords\tbuffer\ttotal\tstop'
bac logs "$at" 2 9
is 'a log, and one that is not there' "$said" "$columns
2	\"by-hand\"	object(45,1).85	true	polled	0.00	0	1000	0	false
9	-	-	-	-	-	-	-	-	-||0"
bac logs "$at"
is 'each log of the device' "$(cut -f 1-3,5,6,8 "$room/out")|$(cat "$room/err")|$status" "$(cut -f 1-3,5,6,8 <<< "$columns")
1	\"pump-trend\"	object(5,1).85	polled	1.00	1000
2	\"by-hand\"	object(45,1).85	polled	0.00	1000||0"
bac rp "$at" 5 2 85
is 'a binary value that is not there' "$said" '|refused: error 1 31
unknown object|3'
bac wp "$at" 5 1 85 6 9 --value=1
is 'priority 6' "$said" '|refused: error 2 40
write access denied|3'
bac wp "$at" 5 1 85 8 2 --value=1
is 'a value of another type' "$said" '|refused: error 2 9
invalid data type|3'
bac rp "$at" 20 2 131
is 'records are read by ranges' "$said" '|refused: error 2 27
read access denied|3'
bac log "$at" 9 1
is 'a log that is not there' "$said" 'refused: error 1 31, next 1|unknown object|3'

# ---- a log that is walked in parts

for turn in {1..20}; do
    bac wp "$at" 20 2 133 0 1 --value=$((turn % 2 ? 0 : 1))
    [ "$said" = 'written||0' ] || is 'the log is switched' "$said" 'written||0'
done
bac log "$at" 2 oldest
is 'the whole log' "$(grep -c '^[0-9]* [^ ]* status' "$room/out") $(tail -n 1 "$room/out") $status" '20 caught up, next 21 0'
sed '$d' "$room/out" > "$room/whole"
for count in 1 7 100; do
    bac log "$at" 2 oldest --count=$count
    is "the whole log, $count records a question" "$(sed '$d' "$room/out" | cmp - "$room/whole" && tail -n 1 "$room/out") $status" 'caught up, next 21 0'
done
bac log "$at" 2 21
is 'nothing more' "$said" 'caught up, next 21||0'
bac log "$at" 2 1 --steps=0
is 'no step' "$said" 'step limit, next 1||0'

# parts FROM: walks a step at a time, from the number that was printed last, up to the newest record.
parts() {
    local next=$1 walked
    : > "$room/parts"
    for walked in {1..400}; do
        bac log "$at" "$log" "$next" --steps=1
        sed '$d' "$room/out" >> "$room/parts"
        next=$(sed -n '$s/^.*, next //p' "$room/out")
        case $(tail -n 1 "$room/out") in
            'step limit, next '*) ;;
            'caught up, next '*) return 0 ;;
            *) echo "a part of a walk: $said"; return 1 ;;
        esac
    done
    return 1
}

log=2
parts oldest
is 'the walk in parts comes to the end' "$?" 0
is 'the parts are the whole' "$(cat "$room/parts")" "$(cat "$room/whole")"

# The log of the pump takes a record each second while it is walked.
log=1
for walk in 1 2 3; do
    for try in {1..100}; do
        bac log "$at" 1 oldest
        [ "$(wc -l < "$room/out")" -le $((walk + 1)) ] || break
        sleep 0.2
    done
done
sed '$d' "$room/out" > "$room/whole"
is 'the log has grown' "$([ "$(wc -l < "$room/whole")" -ge 4 ] && echo yes)" yes
parts oldest
is 'the walk of a growing log comes to the end' "$?" 0
is 'no record is lost, and none comes twice' "$(cut -d ' ' -f 1 "$room/parts")" "$(seq "$(wc -l < "$room/parts")")"
is 'the parts begin with the whole' "$(head -n "$(wc -l < "$room/whole")" "$room/parts")" "$(cat "$room/whole")"

bac wp "$at" 20 2 141 0 2 --value=0
is 'the log is purged' "$said" 'written||0'
bac log "$at" 2 1
is 'what went is one gap' "$(head -n 1 "$room/out")$(cut -d ' ' -f 1,3- "$room/out" | sed -n 2p) $(tail -n 1 "$room/out")" \
    'gap 1 2021 status(010) - caught up, next 22'
bac log "$at" 2 oldest
is 'from the oldest there is no gap' "$(cut -d ' ' -f 1,3- "$room/out" | head -n 1) $(tail -n 1 "$room/out") $(wc -l < "$room/out")" \
    '21 status(010) - caught up, next 22 2'

# ---- a device of another make: records of each kind, in encodings of its own (trend.py)

for seed in {1..10}; do
    coproc python3 ./trend.py "$room/held" "$seed"
    stranger=$COPROC_PID input=${COPROC[1]}
    read -r other <&"${COPROC[0]}"
    bac log "$other" 7 oldest --timeout=1000
    is "each record of another device, seed $seed" "$said" "$(cat "$room/held"; echo 'caught up, next 350')||0"
    bac log "$other" 7 4294967290 --timeout=1000
    is "its records across the last number, seed $seed" "$said" "$(tail -n 355 "$room/held"; echo 'caught up, next 350')||0"
    bac log "$other" 7 4294966940 --timeout=1000
    is "its gap and its records, seed $seed" "$said" "$(echo 'gap 4294966940 4294966944'; cat "$room/held"; echo 'caught up, next 350')||0"
    exec {input}>&-
    wait "$stranger"
done

# ---- an answer's lines are there before the next answer is (ahead.py)

is 'the lines of an answer are written before the next one comes' \
    "$(python3 ./ahead.py "$program" log 127.0.0.1:PORT 1 1 --timeout=5000)" ok

# ---- outputs that refuse

"$program" log "$at" 1 oldest > /dev/full 2> "$room/err"
is 'a full disk' "$? $(cat "$room/err")" '2 write fault'
"$program" rp "$at" 8 123 77 >&- 2> "$room/err"
is 'no output' "$? $(cat "$room/err")" '2 write fault'
mkfifo "$room/pipe"
exec 4<> "$room/pipe" 3> "$room/pipe" 4<&-
"$program" log "$at" 1 oldest >&3 2> "$room/err"
is 'a pipe that nobody reads' "$? $(cat "$room/err")" '2 write fault'
exec 3>&-

kill "$server"
wait "$server" 2> /dev/null
is 'the server until it is ended' "$? $(cat "$room/served")" "143 serving $at"
server=

counted
