#!/usr/bin/env bash
# Lists the trend logs of a device: for each its instance, its name, how many records it holds, how many it ever had,
# and whether it is enabled.
#
#     examples/use/logs.sh ADDRESS [OPTION..]
#
# The options are those of `bac rp` that say how the device is asked. Object_List is read element by element, so it may
# be longer than an answer. `-` stands for what a log doesn't tell. The status is 0, and else that of `bac rp` for
# Object_List, whose text is then on standard error.
set -u
bac=${BAC:-bac}
[ $# -ge 1 ] || { echo "usage: logs.sh ADDRESS [OPTION..]" >&2; exit 1; }
address=$1
shift

# The device that is asked, its Object_List, and a Trend Log, by the numbers of the standard.
device=(8 4194303) object_list=76 trend_log=20

# read_it TYPE INSTANCE PROPERTY [OPTION..]
read_it() { "$bac" rp "$address" "$@" < /dev/null; }

# of_log PROPERTY: what the log tells of it.
of_log() { read_it "$trend_log" "$log" "$@" 2> /dev/null || echo -; }

count=$(read_it "${device[@]}" "$object_list" --index=0 "$@") || exit
for ((k = 1; k <= count; k++)); do
    object=$(read_it "${device[@]}" "$object_list" --index="$k" "$@") || exit
    [[ $object == "object($trend_log,"* ]] || continue
    log=${object#*,}
    log=${log%)}
    printf '%s %s records %s of %s enabled %s\n' "$log" "$(of_log 77 "$@")" "$(of_log 141 "$@")" \
        "$(of_log 145 "$@")" "$(of_log 133 "$@")"
done
