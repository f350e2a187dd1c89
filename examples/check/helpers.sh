#!/usr/bin/env bash
# Checks what people take from ../use: object.sh and logs.sh over a served device, records.awk and records.gp on
# records of each kind, the completion of bac.bash in a bash on a terminal, and the units of systemd/, with what they start.
#
#     examples/check/helpers.sh [PROGRAM]
#
# PROGRAM is crates/bac/out/bac where none is given. gnuplot, systemd-analyze and sqlite3 are used if they are there. The
# last line is `N passed, M failed`.
set -u
cd "$(dirname "$0")"
program=$(realpath -- "${1:-../../crates/bac/out/bac}")
. ./common.sh
export BAC=$program

# has COMMAND: whether it is there; else it is told what isn't checked.
has() { command -v "$1" > /dev/null || { echo "$1 isn't there: what it checks is left out"; false; }; }

# ---- an object by the names of its properties, and the logs of a device

# Replies of 50 octets hold a list of seven objects; this device has nine.
{ sed s/1476/50/ ../use/plant.conf; printf 'integer %d n%d 0\n' 2 2 3 3 4 4; } > "$room/small.conf"
served "$room/small.conf"
../use/object.sh "$at" 5 1 > "$room/out" 2> "$room/err"
is 'an object' "$? $(grep -c . "$room/out") $(grep 'Object_Name\|Present_Value' "$room/out" | tr -s ' ' | tr '\n' ';') $(cat "$room/err")" \
    '0 9 Object_Name "pump";Present_Value enum(0); '
../use/object.sh "$at" 8 123 > "$room/out" 2> "$room/err"
is 'a list that is too long for one answer' "$? $(grep Object_List "$room/out" | tr -s ' ')" \
    '0 Object_List object(8,123) object(5,1) object(19,1) object(45,1) object(20,1) object(20,2) object(45,2) object(45,3) object(45,4)'
../use/object.sh "$at" 5 2 > "$room/out" 2> "$room/err"
is 'an object that is not there' "$? $(cat "$room/out" "$room/err")" '3 refused: error 1 31'
../use/object.sh "$at" > "$room/out" 2> "$room/err"
is 'words that are missing' "$? $(cat "$room/out" "$room/err")" '1 usage: object.sh ADDRESS TYPE INSTANCE [OPTION..]'
../use/object.sh 127.77.77.77:9 8 123 --timeout=100 --retries=0 > "$room/out" 2> "$room/err"
is 'an object of nobody, with options' "$? $(cat "$room/out" "$room/err")" '2 lost'

bac wp "$at" 20 2 133 0 1 --value=0
bac wp "$at" 20 1 133 0 1 --value=0
../use/logs.sh "$at" > "$room/out" 2> "$room/err"
is 'the logs of a device' "$? $(sed 's/^1 \(.*\) records [1-9][0-9]* of [1-9][0-9]* /1 \1 records N of N /' "$room/out" | tr '\n' ';')$(cat "$room/err")" \
    '0 1 "pump-trend" records N of N enabled false;2 "by-hand" records 1 of 1 enabled false;'
../use/logs.sh 127.77.77.77:9 --timeout=100 --retries=0 > "$room/out" 2> "$room/err"
is 'the logs of nobody' "$? $(cat "$room/out" "$room/err")" $'2 lost\nno reply from 127.77.77.77:9'
unserved

# ---- completion, in a bash on a terminal

# typed LINE COMPLETED, and so on: all of them in one bash.
typed=() wanted=()
typed() { typed+=("$1") wanted+=("$2"); }
typed 'bac rep' 'bac replay '
typed 'bac --v' 'bac --version '
typed 'bac log 10.0.0.1 1 o' 'bac log 10.0.0.1 1 oldest '
typed 'bac log 10.0.0.1:47808 1 o' 'bac log 10.0.0.1:47808 1 oldest '
typed 'bac log --retries=1 10.0.0.1:47808 1 o' 'bac log --retries=1 10.0.0.1:47808 1 oldest '
typed 'bac log --retries 2 10.0.0.1 1 o' 'bac log --retries 2 10.0.0.1 1 oldest '
typed 'bac log 10.0.0.1 --dnet 5 1 o' 'bac log 10.0.0.1 --dnet 5 1 oldest '
typed 'bac log --retries o' 'bac log --retries o'
typed 'bac log 10.0.0.1 o' 'bac log 10.0.0.1 o'
typed 'bac log 10.0.0.1 1 1 --steps=o' 'bac log 10.0.0.1 1 1 --steps=o'
typed 'bac serve 127.0.0.1 < ../use/plant.c' 'bac serve 127.0.0.1 < ../use/plant.conf '
typed 'bac serve 127.0.0.1:47809 <../use/plant.c' 'bac serve 127.0.0.1:47809 <../use/plant.conf '
typed 'bac replay < ../scripts/walk.scr' 'bac replay < ../scripts/walk.script '
typed 'bac log 10.0.0.1 1 1 > help' 'bac log 10.0.0.1 1 1 > helpers.sh '
typed 'bac keep ../use/plant.c' 'bac keep ../use/plant.conf '
typed 'bac kept ../use/plant.c' 'bac kept ../use/plant.conf '
typed 'bac check ../use/plant.c' 'bac check ../use/plant.conf '
typed 'bac help ser' 'bac help serve '
typed 'bac help keep' 'bac help keep '
# Each option that the help of a tool names, without its last letter.
for tool in wi rp wp log logs keep kept check serve replay; do
    while read -r option value; do
        typed "bac $tool ${option%?}" "bac $tool $option${value:-' '}"
    done < <(sed -nE 's/^ +(-., )?(--[a-z-]+) <.*/\2 =/p; s/^ +(-., )?(--[a-z-]+)( [^<].*)?$/\2/p' "$tool.help")
done
is 'completion' "$(./complete.py ../use/bac.bash "${typed[@]}" 2>&1)" "$(printf '%s\n' "${wanted[@]}" | sed "s/' '$/ /")"
# The tools of the help are those that are completed and those of the man page.
tools() { sed -nE 's/^  ([a-z]+)  .*/\1/p' bac.help | sort; }
# And no other: what is completed of an option's first letters is all that the help names.
completed() { bash -c '. ../use/bac.bash; compopt() { :; }; COMP_LINE=$1 COMP_POINT=${#1}; _bac; printf "%s\n" "${COMPREPLY[@]}"' _ "$1"; }
is 'the tools' "$(completed 'bac ' | grep -v -e -- | sort)" "$(tools)"
is 'the tools behind help' "$(completed 'bac help ' | sort)" "$(tools | grep -v '^help$')"
is 'the man page is made of the help' "$(../../docs/man.py | cmp - ../../docs/bac.1 2>&1)" ''
is 'the page of clauses is what the sources say' "$(../../docs/clauses.py --check 2>&1 | grep -v '^[0-9]')" ''
is 'the list of edits is that of must-fail' "$(../../docs/edits.py --check 2>&1)" ''
is 'the tools of the man page' "$(sed -nE 's/^\.B bac ([a-z]+)( .*)?$/\1/p' ../../docs/bac.1 | sort -u)" "$(tools | grep -v '^help$')"
for tool in wi rp wp log logs keep kept check serve replay; do
    is "the options of $tool" "$(completed "bac $tool --" | tr -d = | sort | tr '\n' ' ')" \
        "$(sed -nE 's/^ +(-., )?(--[a-z-]+).*/\2/p' "$tool.help" | sort | tr '\n' ' ')"
done

# ---- records as CSV: each kind of datum; 41c80000 is 25, 3dcccccd 0.1, c0490fdb -pi, 00000001 the least,
# c5610000 -3600

awk -f ../use/records.awk > "$room/records.csv" 2> "$room/err" <<'L'
gap 1 2
3 2024-05-06T07:08:09.10 real(41c80000) 0101
4 2024-05-06T07:08:09.10 real(3dcccccd) -
5 2024-05-06T07:08:09.10 real(c0490fdb) -
6 2024-05-06T07:08:09.10 real(00000001) -
7 2024-05-06T07:08:09.10 real(ff800000) -
8 2024-05-06T07:08:09.10 real(7fc00000) -
9 2024-05-06T07:08:09.10 enum(1) 0000
10 2024-05-06T07:08:09.10 -5 0000
11 2024-05-06T07:08:09.10 true -
12 2024-05-06T07:08:09.10 null -
13 2024-05-06T07:08:09.10 failure(1,31) -
14 2024-05-06T07:08:09.10 status(010) -
15 2024-05-06T07:08:09.10 bits[33] -
16 2024-05-06T06:08:09.10 time-change(c5610000) -
17 2024-05-06T06:08:09.10 4294967296 -
18 2024-05-06T06:08:09.10 time-change(00000000) -
began anew
1 2024-05-06T07:08:09.10 real(00000000) -
caught up, next 2
L
is 'records as CSV' "$(cat "$room/records.csv")" 'number,time,kind,value,flags
1,,gap,2,
3,2024-05-06T07:08:09.10,real,25,0101
4,2024-05-06T07:08:09.10,real,0.100000001,
5,2024-05-06T07:08:09.10,real,-3.14159274,
6,2024-05-06T07:08:09.10,real,1.40129846e-45,
7,2024-05-06T07:08:09.10,real,-Infinity,
8,2024-05-06T07:08:09.10,real,NaN,
9,2024-05-06T07:08:09.10,enum,1,0000
10,2024-05-06T07:08:09.10,number,-5,0000
11,2024-05-06T07:08:09.10,boolean,true,
12,2024-05-06T07:08:09.10,null,,
13,2024-05-06T07:08:09.10,failure,"1,31",
14,2024-05-06T07:08:09.10,status,010,
15,2024-05-06T07:08:09.10,bits[33],,
16,2024-05-06T06:08:09.10,time-change,-3600,
17,2024-05-06T06:08:09.10,number,4294967296,
18,2024-05-06T06:08:09.10,time-change,0,
,,anew,,
1,2024-05-06T07:08:09.10,real,0,'
is 'the end beside it' "$(cat "$room/err")" 'caught up, next 2'

# ---- the drawing: which points are joined. gnuplot writes the points that it would draw into a table, and an
# empty line, or a point that is none (u), where a line ends.

if has gnuplot; then
    awk -f ../use/records.awk > "$room/records.csv" 2> /dev/null <<'L'
1 2024-05-06T07:08:09.10 real(41c80000) -
2 2024-05-06T07:09:09.10 real(41d00000) -
gap 3 4
5 2024-05-06T07:12:09.10 real(41d80000) -
6 2024-05-06T06:13:09.10 time-change(c5610000) -
7 2024-05-06T06:13:09.10 real(41e00000) -
8 2024-05-06T06:14:09.10 7 -
began anew
1 2024-05-06T07:08:09.10 enum(1) -
2 2024-05-06T07:09:09.10 enum(0) -
caught up, next 3
L
    (cd "$room" && gnuplot "$OLDPWD/../use/records.gp" 2> err && head -c 8 records.png | od -An -c | tr -d ' ') > "$room/out"
    is 'a drawing' "$(cat "$room/out" "$room/err")" '211PNG\r\n032\n'
    sed "s/^set terminal.*/set table 'table'/; /^set output/d; s/^set format x.*/set format x '%H:%M'/" ../use/records.gp > "$room/table.gp"
    (cd "$room" && gnuplot table.gp 2> err)
    is 'points, and where a line ends' "$(awk '/^#/ { next } /[0-9]/ && $NF != "u" { line = line " " $1 "=" $2; next }
        line != "" { print line; line = "" } END { if (line != "") print line }' "$room/table")" \
        $' "07:08"=25 "07:09"=26\n "07:12"=27\n "06:13"=28 "06:14"=7\n "07:08"=1 "07:09"=0'
fi

# ---- units of systemd: the programs that they name are put where they are taken from

if has systemd-analyze; then
    mkdir -p "$room/units"
    for unit in ../use/systemd/*.service ../use/systemd/*.timer; do
        sed "s|/usr/local/bin/bac|$program|" "$unit" > "$room/units/$(basename "$unit")"
    done
    # analyzed VERB UNIT [OPTION..]: what is told of a unit, and the status.
    analyzed() { SYSTEMD_UNIT_PATH="$room/units:" systemd-analyze "$@" 2>&1; echo "status $?"; }
    for unit in bac-serve@plant.service bac-site@plant.service bac-site@plant.timer; do
        is "$unit" "$(analyzed verify "$unit")" 'status 0'
    done
    for unit in bac-serve@plant.service bac-site@plant.service; do
        is "$unit: an exposure of less than 2" "$(analyzed security --offline=yes --threshold=20 "$unit" | tail -n 1)" 'status 0'
    done
fi

# What they start, run here: as of the instance `plant`, in folders of this check, one command after the other.
started() {
    sed -nE "s/^$2=\\+?//p" "../use/systemd/$1" \
        | sed "s|/usr/local/bin/bac|$program|; s|/var/lib/bac/|$room/state/|g; s|%i|plant|g; s|[$][$]|$|g; s|chown -h root:root|test -f|"
}
mkdir -p "$room/state/plant" "$room/read"
served ../use/plant.conf
bac keep "$room/state/plant/site.db" "$at"
is 'a first run' "$status" 0
OPTIONS='--timeout=60 --retries=0'
eval "$(started bac-site@.service ExecStart)" > "$room/out" 2> "$room/err"
is 'the run of a unit' "$? $(cut -d ' ' -f 1,2 "$room/out" | tr '\n' ';')$(cat "$room/err")" "0 $at 1;$at 2;"
unserved
eval "$(started bac-site@.service ExecStart)" > "$room/out" 2> "$room/err"
is 'a dead device is no failure' "$?" "$(sed -n 's/^SuccessExitStatus=//p' ../use/systemd/bac-site@.service)"
if has sqlite3; then
    before=$(cksum "$room"/state/plant/site.db "$room"/state/plant/site.db-wal)
    started bac-site@.service ExecStopPost > "$room/behind"
    COPY= bash -e "$room/behind" > "$room/out" 2> "$room/err"
    is 'no copy unless it is asked for' "$? $(cat "$room/out" "$room/err") $(ls "$room/read" "$room/state/plant" | grep -c copy)" '0  0'
    for again in 1 2; do
        COPY=$room/read/plant.db bash -e "$room/behind" > "$room/out" 2> "$room/err"
        is "a copy, $again" "$? $(cat "$room/err") $(ls "$room/read") $(stat -c %a "$room/read/plant.db")" '0  plant.db 644'
    done
    is 'nothing of it is left' "$(ls "$room/state/plant" | grep -c copy)" 0
    is 'what is in it' "$(sqlite3 -readonly "$room/read/plant.db" 'PRAGMA journal_mode; SELECT count(*) FROM logs; SELECT count(*) > 0 FROM items')" \
        $'delete\n2\n1'
    is 'the archive is as before' "$(cksum "$room"/state/plant/site.db "$room"/state/plant/site.db-wal)" "$before"
    bac check "$room/state/plant/site.db"
    is 'and whole' "$status" 0
fi

counted
