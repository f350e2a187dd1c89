# A limit of time for the script that sources this, with the program in $program: it runs once more, as
# a process group of its own. If it takes longer than $limit seconds, five minutes where it says nothing
# else, it is ended with all that it started, and told behind which row it was: `row NAME` says so.

if [ "${limited:-}" != "$(basename "$0")" ]; then
    limited=$(basename "$0")
    row_file=$(mktemp)
    export limited row_file
    timeout --kill-after=10 "${limit:-300}" "./$limited" "$program" "${@:2}"
    status=$?
    if [ "$status" -eq 124 ] || [ "$status" -eq 137 ]; then
        echo "$limited: no end within ${limit:-300} s, behind the row: $(cat "$row_file")"
        echo '0 passed, 1 failed'
    fi
    rm -f "$row_file"
    exit "$status"
fi

row() { printf '%s' "$1" > "$row_file"; }
row none
