#!/usr/bin/env bash
# Gives each row of ../vectors/*.vectors, `CALL INPUT -> ANSWER`, to a built `bac_vectors`, which sees
# the call and its input alone, and compares. Lines that begin with # are comments. Those of
# polls.vectors are for another program: polls.py gives them to it.
#
#     examples/check/vectors.sh [PROGRAM]
#
# PROGRAM is crates/bac_vectors/out/bac_vectors if none is given. The last line is
# `N passed, M failed`.
set -u
cd "$(dirname "$0")"
program=$(realpath -m -- "${1:-../../crates/bac_vectors/out/bac_vectors}")
. ./limited.sh
room=$(mktemp -d)
trap 'rm -rf "$room"' EXIT
passed=0
failed=0

if [ ! -x "$program" ]; then
    echo "bac_vectors isn't built: 'rt run' in crates/bac_vectors does it"
    echo '0 passed, 1 failed'
    exit 1
fi

for file in ../vectors/*.vectors; do
    # Rows of bac_poll_rows, which polls.py reads.
    [ "$file" = ../vectors/polls.vectors ] && continue
    row "$file"
    grep -v -e '^#' -e '^$' "$file" > "$room/rows"
    sed 's/ -> .*//' "$room/rows" > "$room/calls"
    sed -n 's/^.* -> //p' "$room/rows" > "$room/want"
    "$program" < "$room/calls" > "$room/out"
    status=$?
    rows=$(wc -l < "$room/rows")
    wanted=$(wc -l < "$room/want")
    answers=$(wc -l < "$room/out")
    # A file without rows, a row without an answer, an answer too many or too few, or a bad end.
    if [ "$status" -ne 0 ] || [ "$rows" -eq 0 ] || [ "$wanted $answers" != "$rows $rows" ]; then
        echo "$file: status $status, $rows rows, $wanted are wanted, $answers answers"
        failed=$((failed + rows + 1))
        continue
    fi
    wrong=0
    while IFS= read -r call <&3 && IFS= read -r want <&4 && IFS= read -r got <&5; do
        [ "$want" = "$got" ] && continue
        wrong=$((wrong + 1))
        printf '%s: %s\n  %s is wanted, and it is: %s\n' "$file" "$call" "$want" "$got"
    done 3< "$room/calls" 4< "$room/want" 5< "$room/out"
    failed=$((failed + wrong))
    passed=$((passed + rows - wrong))
done

echo "$passed passed, $failed failed"
[ "$failed" -eq 0 ]
