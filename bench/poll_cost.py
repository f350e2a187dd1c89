#!/usr/bin/env python3
"""What a poll's `take` of a reply of 65 records costs, in instructions a record, beside its bound.

    poll_cost.py PROGRAM [REPLIES]

PROGRAM is a built bac_poll_rows; 1,000 replies are given to it if nothing else is said, each of which begins with the
newest record that is known then. valgrind counts the instructions of whole runs; those of a run with as many datagrams
of the same sizes that are refused at their first octet are taken off, so that reading lines doesn't count. `with its row`
has the texts, too, that the program prints for a record. The status is 1 if the bound doesn't hold."""
import os
import re
import struct
import subprocess
import sys
import tempfile
from datetime import datetime, timedelta

sys.path.insert(0, os.path.join(os.path.dirname(os.path.abspath(__file__)), "..", "examples", "check"))
from poll_lines import reply_octets  # noqa: E402
from poll_rule import Reply  # noqa: E402

MOST = 500                              # instructions a record
SIZE = 65                               # records of a reply
WORD = "2026-03-28T08:00:00.00 4"       # a restart and a revision
KINDS = {
    "numbers of one octet": lambda n: str(20 + n % 10),
    "REALs": lambda n: "real(%s)" % struct.pack(">f", 20 + n / 7).hex(),
}


def record(datum, n):
    at = datetime(2026, 3, 28, 22, 15) + timedelta(minutes=15 * (n - 1))
    return n, at.strftime("%Y-%m-%dT%H:%M:%S.00"), datum(n), "0000"


def lines(datum, call, replies, refused):
    """A log whose last three records are known, and replies."""
    known = [";".join(map(str, record(datum, n))) for n in (8, 7, 6)]
    yield f"behind 9 {' '.join(known)} {record(datum, 8)[1]} {WORD} {WORD}"
    for reply in range(replies):
        first = 8 + reply * (SIZE - 1)
        octets = reply_octets(Reply([record(datum, n) for n in range(first, first + SIZE)], False, True)).hex()
        yield f"{call} {'80' if refused else octets[:2]}{octets[2:]}"


def instructions(program, rows):
    with tempfile.TemporaryFile("w+") as file:
        file.writelines(row + "\n" for row in rows)
        file.seek(0)
        words = ["valgrind", "--tool=callgrind", "--callgrind-out-file=/dev/null", program]
        run = subprocess.run(words, stdin=file, capture_output=True, text=True)
    answers = run.stdout.splitlines()
    return int(re.search(r"Collected : (\d+)", run.stderr)[1]), answers


def cost(program, datum, call, replies):
    """Instructions a record of the replies."""
    taken, answers = instructions(program, lines(datum, call, replies, False))
    left, refused = instructions(program, lines(datum, call, replies, True))
    kept = f"{SIZE - 1} records" if call == "brief" else f"record {9 + (replies - 1) * (SIZE - 1)} "
    if not answers[-1].startswith(kept) or len(answers) != replies + 1 or "record " in refused[-1]:
        sys.exit(f"the replies aren't taken: {answers[-1]}; {refused[-1]}")
    return (taken - left) / replies / SIZE


def main(program, replies):
    holds = True
    for name, datum in KINDS.items():
        taken = cost(program, datum, "brief", replies)
        printed = cost(program, datum, "reply", replies)
        holds = holds and taken <= MOST
        print(f"take of {SIZE} {name}: {taken:.0f} instructions a record, {MOST} at most; "
              f"{printed:.0f} with its row as it is printed")
    return 0 if holds else 1


if __name__ == "__main__":
    sys.exit(main(sys.argv[1], int(sys.argv[2]) if len(sys.argv) > 2 else 1000))
