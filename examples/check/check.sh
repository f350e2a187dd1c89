#!/usr/bin/env bash
# Runs a built `bac` on each script of ../scripts, and on words, streams and scripts that end in a
# fault, and compares what it prints, what it tells on standard error, and its exit status.
#
#     examples/check/check.sh [PROGRAM]
#
# PROGRAM is crates/bac/out/bac where none is given. The last line is `N passed, M failed`.
set -u
cd "$(dirname "$0")"
program=$(realpath -- "${1:-../../crates/bac/out/bac}")
# All of it: the scripts that it runs have limits of their own.
limit=7200
. ./limited.sh
room=$(mktemp -d)
trap 'rm -rf "$room"' EXIT
passed=0
failed=0

# ended NAME STATUS ERRORS [OUTPUT]: compares the run whose status is $?, and whose texts lie in
# $room/out and $room/err, with what is wanted; OUTPUT is a file, and without one nothing is printed.
ended() {
    local status=$?
    row "$1"
    printf '%s' "$3" > "$room/want"
    if [ "$status" -eq "$2" ] && cmp -s "$room/err" "$room/want" && cmp -s "$room/out" "${4:-/dev/null}"; then
        passed=$((passed + 1))
    else
        failed=$((failed + 1))
        echo "$1: status $status, and $2 is wanted; printed: $(head -c 200 "$room/out"); on standard error: $(cat "$room/err")"
    fi
}

bac() { "$program" "$@" > "$room/out" 2> "$room/err"; }

for script in ../scripts/*.script; do
    bac replay < "$script"
    ended "$(basename "$script")" 0 '' "${script%.script}.out"
done

# What was answered before a fault stays printed.
hex='word 2: 2 to 3002 hexadecimal digits, an even number'
event='a configuration has no events: rx, clock, sample and walk are for bac replay'
device='device 123 plant 0 1476 2024-05-06T07:08:09.10'
who_is='rx 810b000c0120ffff00ff1008'
printf 'tx 810a001401001000c40200007b2205c491032100\n' > "$room/answer"
printf '%s\n' "$device" "$who_is" 'rx 8' "$who_is" > "$room/bad"
bac replay < "$room/bad"
ended 'a bad line' 1 $'line 3: bad line\n'"$hex"$'\n' "$room/answer"
bac replay <<< "${device/123/4194303}"
ended 'an instance that no device has' 1 $'cannot build: bad instance\nline 1: device 4194303: an instance is a number from 0 to 4194302\n'
bac replay <<< "${device/plant/$'\x7f'}"
ended 'a name with a control character' 1 $'cannot build: bad name\nline 1: device 123: a name has 1 to 64 octets and no control character\n'
bac replay <<< "${device/1476/49}"
ended 'a reply of 49 octets' 1 $'cannot build: bad reply size\nline 1: device 123: REPLY is a number from 50 to 1476\n'

# Objects and the clock.
objects=$'binary 1 pump 0\nmultistate 1 mode 3 3'
printf '%s\n' "$device" "$objects" "$who_is" 'clock 2024-05-06T07:09:09.10' 'clock 2024-05-06T07:09:09.09' > "$room/objects"
{ cat "$room/answer"; printf 'sampled 0\nclock back\n'; } > "$room/clocked"
bac replay < "$room/objects"
ended 'objects and a clock' 0 '' "$room/clocked"
printf '%s\n' "$device" 'binary 1 pump 0' 'binary 2 pump 0' "$who_is" > "$room/named"
bac replay < "$room/named"
ended 'two objects of one name' 1 $'cannot build: duplicate name\nline 3: binary 2: its name is that of binary 1 in line 2\n'

# The longest script, and one octet more: empty lines fill it.
{ printf '%s\n' "$device" "$who_is"; yes ''; } 2> /dev/null | head -c 1048577 > "$room/longer"
head -c 1048576 "$room/longer" > "$room/longest"
bac replay < "$room/longest"
ended '1,048,576 octets' 0 '' "$room/answer"
bac replay < "$room/longer"
ended '1,048,577 octets' 1 $'script too long\n' "$room/answer"
# The octet behind the limit is no line feed; a line that has no end; a bad line in front of it all.
{ head -c 1048576 "$room/longest"; printf r; } > "$room/lines"
bac replay < "$room/lines"
ended 'a line behind 1,048,576 octets' 1 $'script too long\n' "$room/answer"
{ printf '%s\n' "$device" "$who_is"; printf '%01048576d\n' 0; } > "$room/lines"
bac replay < "$room/lines"
ended 'a line of 1,048,576 octets' 1 $'script too long\n' "$room/answer"
{ printf '%s\n' "$device" "$who_is" 'rx 8'; cat "$room/longer"; } > "$room/lines"
bac replay < "$room/lines"
ended 'a bad line in a script that is too long' 1 $'line 3: bad line\n'"$hex"$'\n' "$room/answer"

# A datagram has at most 1501 octets.
printf 'none\n' > "$room/none"
printf '%s\nrx %03002d\n' "$device" 0 > "$room/lines"
bac replay < "$room/lines"
ended 'a datagram of 1501 octets' 0 '' "$room/none"
printf '%s\nrx %03004d\n' "$device" 0 > "$room/lines"
bac replay < "$room/lines"
ended 'a datagram of 1502 octets' 1 $'line 2: bad line\n'"$hex"$'\n'

# clap's text is its own: it is there, and nothing is printed.
mistaken() {
    local status=$? told=
    [ -s "$room/err" ] && told=$'told\n'
    printf '%s' "$told" > "$room/err"
    (exit "$status")
    ended "$1" 1 $'told\n'
}
bac < ../scripts/who-is.script
mistaken 'no word'
bac Replay < ../scripts/who-is.script
mistaken 'another word'
bac replay again < ../scripts/who-is.script
mistaken 'a second word'
bac rp
mistaken 'no words for rp'
bac wi 127.0.0.1 --retries=1
mistaken 'an option of other tools'
bac serve 127.0.0.1 --count=1 --count=1
mistaken 'an option twice'

bac --version
printf 'bac 0.1.0, ANSI/ASHRAE 135, Protocol_Revision 12\n' > "$room/version"
ended 'the version, whole' 0 '' "$room/version"
# Help compared whole: of the program, and of each tool.
bac --help
ended 'help, whole' 0 '' bac.help
bac help
ended 'help by its word' 0 '' bac.help
bac rp here -h
ended 'help behind a wrong word' 0 '' rp.help
for tool in wi rp wp log logs keep kept check serve replay; do
    bac "$tool" --help
    ended "help of $tool" 0 '' "$tool.help"
    bac help "$tool"
    ended "help of $tool by its word" 0 '' "$tool.help"
done
# No line of help is wider than a terminal of 80 columns.
for help in bac.help {wi,rp,wp,log,logs,keep,kept,check,serve,replay}.help; do
    awk -v help="$help" 'length($0) > 80 { print help ": " $0 }' "$help"
done > "$room/out" 2> "$room/err"
ended 'help of 80 columns' 0 ''

# No definition takes more arguments by position than a reader keeps apart, and no line passes its columns.
./shape.py ../.. > "$room/out" 2> "$room/err"
ended 'the shape of definitions and lines' 0 ''
# No link of a page leads nowhere, and no page is longer than it may be.
./pages.py ../.. > "$room/out" 2> "$room/err"
ended 'links and words of the pages' 0 ''

# Values that a word or an option can't have: the second line tells which.
wrong() {
    ended "$1" 1 $'bad value\n'"$2"$'\n'
}
bac rp 127.0.0.256 8 123 77
wrong 'a host that is none' 'ADDRESS: A.B.C.D or A.B.C.D:PORT, each of A to D from 0 to 255, PORT from 1 to 65535; for bac wi also with /20 to /32 behind it'
bac rp 127.0.0.1:0 8 123 77
wrong 'port 0' 'ADDRESS: A.B.C.D or A.B.C.D:PORT, each of A to D from 0 to 255, PORT from 1 to 65535; for bac wi also with /20 to /32 behind it'
bac rp 127.0.0.1 1024 123 77
wrong 'a type that no object has' 'TYPE: a number from 0 to 1023'
bac rp 127.0.0.1 8 4194304 77
wrong 'an instance that no object has' 'INSTANCE: a number from 0 to 4194303'
bac rp 127.0.0.1 8 123 77 --timeout=0
wrong 'no time to wait' '--timeout: a number from 1 to 60000'
bac log 127.0.0.1 1 0
wrong 'record 0' 'FROM: a number from 1 to 4294967295, or oldest'
bac log 127.0.0.1 1 1 --count=0
wrong 'no record a question' '--count: a number from 1 to 100'
bac log 127.0.0.1 1 1 --count=101
wrong '101 records a question' '--count: a number from 1 to 100'
bac log 127.0.0.1 1 1 --retries=11
wrong 'eleven retries' '--retries: a number from 0 to 10'
bac wp 127.0.0.1 5 1 85 17 9 --value=1
wrong 'priority 17' 'PRIORITY: a number from 0 to 16'
bac wp 127.0.0.1 5 1 85 8 5 --value=1
wrong 'a tag that is not written' 'TAG: 0, 1, 2, 3, 4, 7 or 9'
bac wp 127.0.0.1 5 1 85 8 9
wrong 'no value' '--value: a value of the tag: none for 0, else one; bac wp --help has the tags'
# A text has at most 1,400 octets. Nobody is at this address.
text=$(printf 'x%.0s' {1..1400})
bac wp 127.0.0.1 5 1 85 8 7 "--value=x$text"
wrong 'a text of 1,401 octets' '--value: a value of the tag: none for 0, else one; bac wp --help has the tags'
bac wp 127.77.77.77:9 5 1 85 8 7 "--value=$text" --timeout=1 --retries=0
ended 'a text of 1,400 octets' 2 $'lost\nno reply from 127.77.77.77:9\n'
bac wi 127.0.0.1 --max=5
wrong '--max alone' '--max: a number from 0 to 4194303, beside --min'
bac keep a.db --stop
wrong '--stop alone' '--stop: an option without a value, beside one ADDRESS'
bac kept a.db --last --since=2026
wrong '--last beside --since' '--last: an option without a value, beside neither --since nor --until'
bac kept a.db --last --until=2026-11-30
wrong '--last beside --until' '--last: an option without a value, beside neither --since nor --until'
bac rp 127.0.0.1 8 123 77 --dnet=7
wrong '--dnet alone' '--dadr: 2 to 30 hexadecimal digits, an even number, beside --dnet'
bac log 127.0.0.1 1 1 --dnet=65535 --dadr=0a
wrong 'all networks' '--dnet: a number from 1 to 65534, beside --dadr; for bac wi from 1 to 65535'
bac rp 127.0.0.1 8 123 $'\xff'
wrong 'a word that is no text' "a word isn't UTF-8"

# Addresses that standard input lists: none, a bad one (lines count with comments and empty ones), one more than a list
# may have, more octets, a folder; `-` stands alone.
address='a line is A.B.C.D or A.B.C.D:PORT, A to D from 0 to 255, PORT from 1 to 65535; for bac wi /20 to /32 may stand behind it, for bac keep it may be one of bac wi'
bac wi - < /dev/null
wrong 'no address in a list' 'no address'
printf '# stations\n\n\r\n' > "$room/list"
bac wi - < "$room/list"
wrong 'nothing but comments in a list' 'no address'
printf '# stations\n\n127.0.0.1:1\r\n127.0.0.1:0\n' > "$room/list"
bac wi - < "$room/list"
ended 'a bad address in a list' 1 $'line 4: bad line\n'"$address"$'\n'
printf '127.0.0.1:1 \n' > "$room/list"
bac wi - < "$room/list"
ended 'a blank behind an address' 1 $'line 1: bad line\n'"$address"$'\n'
printf '127.0.0.1:1\n\xff\n' > "$room/list"
bac wi - < "$room/list"
ended 'no text in a list' 1 $'line 2: bad line\n'"$address"$'\n'
{ printf '\n'; yes 127.0.0.1:1; } 2> /dev/null | head -n 4098 > "$room/list"
bac wi - < "$room/list"
ended '4,097 addresses in a list' 1 $'line 4098: bad line\na list has at most 4096 addresses\n'
head -c 1048577 /dev/zero | tr '\0' '#' > "$room/list"
bac wi - < "$room/list"
wrong 'a list of 1,048,577 octets' 'a list has at most 1048576 octets'
bac wi - < .
ended 'a folder as a list' 2 $'read fault\n'
bac wi - 127.0.0.1 < /dev/null
wrong 'a list and an address' 'ADDRESS: A.B.C.D or A.B.C.D:PORT, each of A to D from 0 to 255, PORT from 1 to 65535; for bac wi also with /20 to /32 behind it'

# Configurations that are none.
bac serve 127.0.0.1 < /dev/null
wrong 'no device line' 'no device line'
bac serve 127.0.0.1 < ../scripts/who-is.script
ended 'an event in a configuration' 1 $'line 21: bad line\n'"$event"$'\n'
bac serve 127.0.0.1 < "$room/named"
ended 'an event behind two objects of one name' 1 $'line 4: bad line\n'"$event"$'\n'
head -n 3 "$room/named" > "$room/configuration"
bac serve 127.0.0.1 < "$room/configuration"
ended 'a configuration with two objects of one name' 1 $'cannot build: duplicate name\nline 3: binary 2: its name is that of binary 1 in line 2\n'
printf '%s\n' "$device" 'sample 1' > "$room/configuration"
bac serve 127.0.0.1:47813 --count=0 < "$room/configuration"
ended 'a sample in a configuration' 1 $'line 2: bad line\n'"$event"$'\n'
printf '%s\n' "$device" 'rx 0g' > "$room/configuration"
bac serve 127.0.0.1:47813 --count=0 < "$room/configuration"
ended 'a bad event in a configuration' 1 $'line 2: bad line\n'"$event"$'\n'
printf '%s\n' "$device" 'bynary 1 a 0' > "$room/configuration"
bac serve 127.0.0.1:47813 --count=0 < "$room/configuration"
ended 'no kind of line in a configuration' 1 $'line 2: bad line\na line begins with device, binary, multistate, integer or log\n'
printf '%s\n' "$device" "$device" > "$room/configuration"
bac serve 127.0.0.1:47813 --count=0 < "$room/configuration"
ended 'two devices in a configuration' 1 $'line 2: bad line\na device line stands before it\n'
printf '%s\n' "$device" 'binary 1 a 0 ' > "$room/configuration"
bac serve 127.0.0.1:47813 --count=0 < "$room/configuration"
ended 'a blank at the end of a line' 1 $'line 2: bad line\nthe line ends with a blank\n'
printf '%s\n' "${device/1476/49}" > "$room/configuration"
bac serve 127.0.0.1:47813 --count=0 < "$room/configuration"
ended 'a configuration with replies of 49 octets' 1 $'cannot build: bad reply size\nline 1: device 123: REPLY is a number from 50 to 1476\n'
printf '# a plant\n\n%s\r\nbinary 2 pump 0\n# twice\nbinary 2 fan 0' "$device" > "$room/configuration"
bac serve 127.0.0.1:47813 --count=0 < "$room/configuration"
ended 'a configuration with an object twice' 1 $'cannot build: duplicate object\nline 6: binary 2: line 4 has this type and instance\n'
bac serve 127.0.0.1 < "$room/longer"
ended 'a configuration of 1,048,577 octets' 1 $'script too long\n'
bac serve 127.0.0.1 < .
ended 'a folder as configuration' 2 $'read fault\n'
elsewhere=$'socket fault\nthe address isn\'t one of this machine\n'
bac rp 127.0.0.1 8 123 77 --local=192.0.2.1
ended 'an address of another machine' 2 "$elsewhere"
bac wi 127.0.0.1 --local=192.0.2.1
ended 'an address of another machine for wi' 2 "$elsewhere"
bac wp 127.0.0.1 5 1 85 8 0 --local=192.0.2.1
ended 'an address of another machine for wp' 2 "$elsewhere"
bac log 127.0.0.1 1 1 --local=192.0.2.1
ended 'an address of another machine for log' 2 "$elsewhere"
bac logs 127.0.0.1 1 --local=192.0.2.1
ended 'an address of another machine for logs' 2 "$elsewhere"
bac keep "$room/elsewhere.db" 127.0.0.1 1 --local=192.0.2.1
ended 'an address of another machine for keep' 2 "$elsewhere"
bac serve 192.0.2.1 < ../use/plant.conf
ended 'a server at an address of another machine' 2 "$elsewhere"
at=127.77.77.77:$((20000 + RANDOM))
bac serve "$at" --count=0 < ../use/plant.conf
ended 'a server of no datagram' 0 "serving $at"$'\n'
bac serve "127.077.0077.77:0${at#*:}" --count=0000000000 < ../use/plant.conf
ended 'a server whose numbers begin with zeros' 0 "serving $at"$'\n'
bac serve "${at%:*}" --count=0 < ../use/plant.conf
ended 'a server at the port of BACnet' 0 "serving ${at%:*}:47808"$'\n'
"$program" serve "$at" --count=0 < ../use/plant.conf > "$room/out" 2> /dev/full
status=$?
: > "$room/err"
(exit "$status")
ended 'a server that cannot tell that it is up' 0 ''

bac wi 255.255.255.255:47808 --timeout=100
ended 'an address that the system refuses' 2 $'socket fault\nnothing was sent to 255.255.255.255:47808\n'

bac replay < .
ended 'a folder as input' 2 $'read fault\n'
bac replay <&-
ended 'no input' 2 $'read fault\n'
: > "$room/out"
"$program" replay < ../scripts/who-is.script > /dev/full 2> "$room/err"
ended 'a full disk' 2 $'write fault\n'
"$program" replay < "$room/bad" > /dev/full 2> "$room/err"
ended 'a full disk before a bad line' 2 $'write fault\n'
"$program" replay < ../scripts/who-is.script >&- 2> "$room/err"
ended 'no output' 2 $'write fault\n'

: > "$room/out"
"$program" --help > /dev/full 2> "$room/err"
ended 'help on a full disk' 2 $'write fault\n'

# counted SCRIPT [PROGRAM]: runs a script with a count of its own, of this program or another.
counted() {
    local status more fewer
    row "$1"
    timeout --kill-after=10 1800 "$1" "${2:-$program}" > "$room/counted"
    status=$?
    read -r more fewer <<< "$(tail -n 1 "$room/counted" | sed -nE 's/^([0-9]+) passed, ([0-9]+) failed$/\1 \2/p')"
    sed '$d' "$room/counted"
    [ "$status" -ne 124 ] || echo "$1: no end within 1800 s"
    passed=$((passed + ${more:-0}))
    # A script that ends badly without a count of its failures has failed.
    [ "$status" -eq 0 ] || [ "${fewer:-0}" -gt 0 ] || fewer=1
    failed=$((failed + ${fewer:-1}))
}

# Scripts of a few lines, and words that no tool takes.
counted ./rows.sh
# The tools over sockets of this machine: with a socket that says what a file says, and with a server.
counted ./talk.py
# What a refusal means, by the program and by its pages.
counted ./causes.py
counted ./loopback.sh
counted ./stations.sh
# A device behind a router.
counted ./router.sh
counted ./edges.sh
# Logs kept in a file, runs that are killed, and devices that begin anew meanwhile.
counted ./kept.sh
# An archive of format 2 becomes one of format 3.
counted ./convert.py
counted ./warehouse.py
counted ./helpers.sh
# A site on a page, in a browser.
counted ./page.py
# A device among strangers.
counted ./hostile.sh
# Memory, streams and sockets that are refused.
counted ./faults.py

# What package.sh makes of it: installed, used, taken out.
counted ./package.sh
# The program of a script alone beside `bac replay`, and README's first minute.
counted ./replay.sh

# The rows of ../vectors, by a program of their own.
counted ./vectors.sh ../../crates/bac_vectors/out/bac_vectors
# How a log is polled, by a second program of the rule.
counted ./polls.py ../../crates/bac_poll_rows/out/bac_poll_rows
# Archives of format 3 in files: runs that are killed, full disks, and files that are none.
counted ./archive.py ../../crates/bac_archive_trial/out/bac_archive_trial

echo "$passed passed, $failed failed"
[ "$failed" -eq 0 ]
