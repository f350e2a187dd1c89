#!/usr/bin/awk -f
# Makes a script for `bac replay` of what a client sent, from its trace:
#
#     bac log 192.168.1.20 1 oldest --trace 2> trace
#     { cat plant.conf; awk -f examples/use/trace2script.awk trace; } > plant.script
#     bac replay < plant.script
#
# Each `tx ADDRESS HEX` of the trace is a line `rx HEX` of the script: the script's device receives it. Each
# `rx ADDRESS HEX` is a comment `# tx HEX`, which is what the device of the trace answered. Other lines are passed over.
# With `-v peer=ADDRESS` these are of that device alone. The lines that describe the device aren't in a trace.

NF != 3 || $3 == "-" || (peer != "" && $2 != peer) { next }
$1 == "tx" { print "rx " $3 }
$1 == "rx" { print "# tx " $3 }
