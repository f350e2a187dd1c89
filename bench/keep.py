#!/usr/bin/env python3
"""keep.py PROGRAM ROOM RECORDS ROWS: what `PROGRAM keep` costs, for keep.sh."""
import os
import resource
import sqlite3
import subprocess
import sys

program, room, records, rows = sys.argv[1], sys.argv[2], int(sys.argv[3]), int(sys.argv[4])
sys.path.insert(0, os.path.join(os.path.dirname(os.path.abspath(__file__)), "..", "examples", "check"))
from kept_devices import Device, Log, serve  # noqa: E402


# The greatest memory of a child counts what its parent has, so a small one starts it.
MEASURE = """
import resource, subprocess, sys
status = subprocess.run(sys.argv[1:]).returncode
used = resource.getrusage(resource.RUSAGE_CHILDREN)
print(used.ru_utime + used.ru_stime, used.ru_maxrss / 1000, file=sys.stderr)
sys.exit(status)
"""


def cost(words):
    """Processor seconds and megabytes of a run, and what it printed."""
    run = subprocess.run([sys.executable, "-S", "-c", MEASURE, *words], capture_output=True, text=True)
    if run.returncode:
        sys.exit(f"{words}: status {run.returncode}: {run.stderr}")
    took, memory = map(float, run.stderr.split())
    return took, memory, run.stdout.strip()


def inserted(source, into):
    """Processor seconds of Python's sqlite3 that inserts the rows of a file into another."""
    base = sqlite3.connect(source)
    items = base.execute("SELECT * FROM items ORDER BY id").fetchall()
    schema = [text for (text,) in base.execute("SELECT sql FROM sqlite_master WHERE sql NOT NULL AND type = 'table'")]
    base.close()
    before = resource.getrusage(resource.RUSAGE_SELF)
    base = sqlite3.connect(into, isolation_level=None)
    base.execute("PRAGMA journal_mode = WAL").fetchall()
    base.execute("PRAGMA synchronous = FULL")
    for text in schema:
        base.execute(text)
    for at in range(0, len(items), 100):
        base.execute("BEGIN")
        base.executemany("INSERT INTO items VALUES (?, ?, ?, ?, ?, ?)", items[at : at + 100])
        base.execute("COMMIT")
    base.close()
    after = resource.getrusage(resource.RUSAGE_SELF)
    return after.ru_utime + after.ru_stime - before.ru_utime - before.ru_stime


def main():
    log, part = Log(1, records), Log(2, records // 8)
    device = Device([log, part], "bench")
    log.log(records)
    part.log(records // 8)
    serve([device])
    _, memory, told = cost([program, "keep", f"{room}/part.db", device.address, "2", "--steps=1000000", "--timeout=60000"])
    print(f"{told}: {memory:.0f} MB")
    for turn in range(3):
        file = f"{room}/{turn}.db"
        took, memory, told = cost([program, "keep", file, device.address, "1", "--steps=1000000", "--timeout=60000"])
        other = inserted(file, f"{room}/other{turn}.db")
        print(f"{told}: {took:.2f} s of processor, {memory:.0f} MB; sqlite3 of Python {other:.2f} s, ratio {other / took:.2f}")
    base = sqlite3.connect(file)
    newest, *texts = base.execute("SELECT id, last, stamp, value, datum, flags FROM items ORDER BY id DESC LIMIT 1").fetchone()
    more = rows - records
    base.executemany("INSERT INTO items VALUES (?, ?, ?, ?, ?, ?)", ((newest + 1 + at, *texts) for at in range(more)))
    base.commit()
    base.close()
    log.held = {log.total + more: log.held[log.total]}
    log.total += more
    log.oldest = log.total
    took, memory, told = cost([program, "keep", file, "--timeout=60000"])
    print(f"nothing new in a file of {rows} rows: {told}: {took:.2f} s of processor, {memory:.0f} MB")


main()
