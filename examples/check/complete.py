#!/usr/bin/env python3
"""What bash makes of a line of which a part is typed, and then a tab: in a bash on a terminal of its own.

    complete.py FILE LINE..

FILE is sourced first. For each LINE, the line is printed as it stands after one tab, with what was completed. If there
are several ways to go on, bash completes what they share.
"""
import os
import pty
import select
import sys
import time

# Ctrl-A and Ctrl-E go to the line's ends: it is then an argument of `printf`, in quotes.
SHOW = b"\x01printf '{%s}\\n' '\x05'\n"


def read_until(terminal, mark, seconds=10.0):
    """What the terminal shows, up to a mark."""
    shown, end = b"", time.monotonic() + seconds
    while mark not in shown:
        left = end - time.monotonic()
        if left <= 0 or not select.select([terminal], [], [], left)[0]:
            sys.exit(f"the terminal shows: {shown!r}")
        shown += os.read(terminal, 4096)
    return shown


def main(file, *lines):
    child, terminal = pty.fork()
    if child == 0:
        os.environ.update(PS1="", PS2="", TERM="dumb", INPUTRC="/dev/null", HISTFILE="")
        os.execvp("bash", ["bash", "--norc", "--noprofile", "-i"])
    quiet = "stty -echo; bind 'set bell-style none'; bind 'set enable-bracketed-paste off'"
    # What is waited for isn't what was typed.
    ready = f"source '{file}'; {quiet}; echo ready$((1 + 1))\n"
    os.write(terminal, ready.encode())
    read_until(terminal, b"ready2")
    for line in lines:
        os.write(terminal, line.encode() + b"\t" + SHOW)
        shown = read_until(terminal, b"}\r\n").decode()
        print(f"{shown[shown.rindex('{') + 1 : shown.rindex('}')]}")
    os.write(terminal, b"exit\n")
    os.close(terminal)
    os.waitpid(child, 0)


main(*sys.argv[1:])
