#!/usr/bin/env bash
# Plays the rows of lines.rows (scripts of a few lines) and words.rows (words that no tool takes), and
# compares the status, the output and what is told. What is told of a number is mended to either end of its range.
#
#     examples/check/rows.sh [PROGRAM]
#
# PROGRAM is crates/bac/out/bac where none is given. The last line is `N passed, M failed`.
set -u
cd "$(dirname "$0")"
program=$(realpath -- "${1:-../../crates/bac/out/bac}")
. ./limited.sh
room=$(mktemp -d)
trap 'rm -rf "$room"' EXIT
passed=0
failed=0

# is NAME GOT WANTED
is() {
    row "$1"
    if [ "$2" = "$3" ]; then
        passed=$((passed + 1))
    else
        failed=$((failed + 1))
        printf '%s\n    is: %s\nwanted: %s\n' "$1" "$2" "$3"
    fi
}

device='device 123 plant 0 1476 2024-05-06T07:08:09.10\n'
who_is='rx 810b000c0120ffff00ff1008\n'
i_am='tx 810a001401001000c40200007b2205c491032100\n'

# played FAULT OUTPUT SCRIPT: plays a script, and compares how it ends, what it tells and what it prints.
played() {
    local status
    printf '%b' "$3" | "$program" replay > "$room/out" 2> "$room/err"
    status=$?
    printf '%b' "$2" > "$room/want"
    is "$3" "$status $(cat "$room/err")" "$([ -n "$1" ] && echo 1 || echo 0) $(printf '%b' "$1")"
    cmp -s "$room/out" "$room/want" || is "the output of $3" "$(cat -v "$room/out")" "$(cat -v "$room/want")"
    mended "$3"
}

# mended SCRIPT: where a range of numbers was told of a word of a bad line, the script with either end of it in
# that word's place is refused for no such word, and its device can be built.
mended() {
    local line word ends end told
    line=$(sed -n 's/^line \([0-9]*\): bad line$/\1/p' "$room/err")
    word=$(sed -n 's/^word \([0-9]*\): .*/\1/p' "$room/err")
    ends=$(sed -n -e 's/^word [0-9]*: .*from \([0-9-]*\) to \([0-9A-Z]*\).*/\1 \2/p' \
        -e 's/^word [0-9]*: \([0-9]*\) or \([0-9]*\)\(, of .*\)*$/\1 \2/p' "$room/err")
    for end in $ends; do
        # The states of a line are its own number.
        [ "$end" != STATES ] || continue
        told=$(printf '%b' "$1" | awk -F '[ ]' -v OFS=' ' -v line="$line" -v word="$word" -v end="$end" \
            'NR == line { $word = end } { print }' | "$program" replay 2>&1 > "$room/out" \
            | grep -e '^cannot build' -e "^word $word:")
        is "$1 with $end as word $word" "$told" ''
    done
}

# A row in which the optional lines stand, or don't.
with_lines() {
    local row=${1//'{device}'/$device}
    row=${row//'{who-is?}'/$2}
    row=${row//'{i-am?}'/$3}
    row=${row//'{i-am?4194302}'/${3/0200007b/023ffffe}}
    # A device with replies of 50 octets says so: 21 32 in place of 22 05c4.
    row=${row//'{i-am?50}'/${3/810a0014*/810a001301001000c40200007b213291032100\\n}}
    row=${row//'{who-is}'/$who_is}
    row=${row//'{i-am}'/$i_am}
    IFS='|' read -r fault output script <<< "$row"
    played "$fault" "$output" "$script"
}

while IFS= read -r row; do
    case $row in
        '' | '# '* | '#') continue ;;
    esac
    with_lines "$row" "$who_is" "$i_am"
    case $row in
        *'{who-is?}'*) with_lines "$row" '' '' ;;
    esac
done < lines.rows

# Which words a tool has, in order.
declare -A places=([wi]=ADDRESS [serve]=ADDRESS [log]='ADDRESS INSTANCE FROM' [logs]='ADDRESS INSTANCE' [rp]='ADDRESS TYPE INSTANCE PROPERTY'
    [wp]='ADDRESS TYPE INSTANCE PROPERTY PRIORITY TAG')

# range_of WORD TOOL: what is told of a word; a tool may have a text of its own.
range_of() {
    echo "${ranges["$2 $1"]:-${ranges[$1]}}"
}

# ends_of WORD TOOL: the least and the greatest value that the text of a word tells.
ends_of() {
    local range end
    range=$(range_of "$1" "$2")
    case $range in
        A.B.C.D*) echo 0.0.0.0:1 255.255.255.255:65535 ;;
        *hexadecimal*)
            # As many digits.
            for end in $(sed 's/^\([0-9]*\) to \([0-9]*\) .*/\1 \2/' <<< "$range"); do printf '%0*d ' "$end" 1; done ;;
        *'for bac wi'*)
            [ "$2" = wi ] && range=${range#*for bac wi}
            sed 's/^[^0-9]*\([0-9]*\) to \([0-9]*\).*/\1 \2/' <<< "$range" ;;
        'a number from '*) sed 's/^a number from \([0-9]*\) to \([0-9]*\).*/\1 \2/' <<< "$range" ;;
        *YYYY-*) echo 0000 9999-99-99T99:99:99.99 ;;
        *' or '[0-9]*) sed 's/^\([0-9]*\),.* or \([0-9]*\)$/\1 \2/' <<< "$range" ;;
    esac
}

# with_option NAME VALUE: the words have this option, in place of one with this name.
with_option() {
    local kept=() word
    for word in "${words[@]}"; do
        [[ $word == "$1="* ]] || kept+=("$word")
    done
    words=("${kept[@]}" "$1=$2")
}

# mended_word WORD WORDS..: with either end of what is told of a word in its place, the words are taken, or another
# word is told.
mended_word() {
    local named=$1 tool=$2 end told place words at
    shift
    for end in $(ends_of "$named" "$tool"); do
        # An address where nobody answers, so that what is taken ends soon.
        words=("${@/#10.0.0.1/127.0.0.1}")
        at=1
        for place in ${places[$tool]-}; do
            [ "$place" != "$named" ] || words[at]=$end
            at=$((at + 1))
        done
        # The last of several addresses is the wrong one.
        [ "$tool $named" != 'wi ADDRESS' ] || words=(wi "$end")
        # So it is of several instances.
        [ "$tool $named" != 'logs INSTANCE' ] || words=(logs 127.0.0.1 "$end")
        # And of several devices of `keep`, whose file isn't one of this folder.
        case "$tool $named" in
            'keep ADDRESS') words=(keep "$room/words.db" "$end") ;;
            'keep INSTANCE') words=(keep "$room/words.db" 127.0.0.1 "$end") ;;
            # A place behind a router goes with an address.
            'kept ADDRESS') words+=("$end") ;;
        esac
        case $tool in keep | kept | check) words[1]=$room/words.db ;; esac
        case $named in
            --max) with_option --min 0 ;;
            --dadr) with_option --dnet 1 ;;
            --dnet) [ "$tool" = wi ] || with_option --dadr 01 ;;
        esac
        case $tool in wi | rp | wp | log | logs | keep) with_option --timeout 1 ;; esac
        case $tool in rp | wp | log | logs | keep) with_option --retries 0 ;; esac
        case $named in --*) with_option "$named" "$end" ;; esac
        told=$(timeout 1 "$program" "${words[@]}" < /dev/null 2>&1 > "$room/out" | grep -e "^$named: " -e '^error')
        is "$* with $end as $named" "$told" ''
    done
}

# told WANTED WORDS..: the words are wrong, and the text on standard error says so.
told() {
    local wanted=$1 status
    shift
    "$program" "$@" < /dev/null > "$room/out" 2> "$room/err"
    status=$?
    is "$*" "$status $(cat "$room/out" "$room/err")" "1 $wanted"
}

# told_usage PART WORDS..: clap's text has this part.
told_usage() {
    local part=$1 status found=no
    shift
    "$program" "$@" < /dev/null > "$room/out" 2> "$room/err"
    status=$?
    grep -q -F -e "$part" "$room/err" && found=yes
    is "$* ($part)" "$status $(cat "$room/out") $found" '1  yes'
}

declare -A ranges
while IFS= read -r row; do
    case $row in
        '' | '#'*) continue ;;
        *' = '*) ranges[${row%% = *}]=${row#* = }; continue ;;
    esac
    word=${row%% |*}
    words=${row#*|}
    value=()
    case $words in
        *'|'*) value=("--value=$(sed 's/^ //' <<< "${words#*|}")"); words=${words%%|*} ;;
    esac
    read -ra words <<< "$words"
    case $word in
        'usage '*) told_usage "${word#usage }" "${words[@]}" ;;
        'long '*)
            word=${word#long }
            told $'bad value\n'"$word: $(range_of "$word" "${words[0]}"), of at most 10 digits" "${words[@]}"
            mended_word "$word" "${words[@]}" ;;
        *)
            told $'bad value\n'"$word: $(range_of "$word" "${words[0]}")" "${words[@]}" "${value[@]}"
            mended_word "$word" "${words[@]}" "${value[@]}" ;;
    esac
done < words.rows

echo "$passed passed, $failed failed"
[ "$failed" -eq 0 ]
