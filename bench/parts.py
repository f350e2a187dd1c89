#!/usr/bin/env python3
"""parts.py PROGRAM ROOM LOGS: what `PROGRAM keep` of a folder costs, for parts.sh. years.py takes `cost` of it."""
import os
import sqlite3
import subprocess
import sys

sys.path.insert(0, os.path.join(os.path.dirname(os.path.abspath(__file__)), "..", "examples", "check"))
from kept_devices import Device, Log, serve  # noqa: E402

# The greatest memory of a child counts what its parent has, so a small one starts it.
MEASURE = """
import resource, subprocess, sys
status = subprocess.run(sys.argv[1:], stdout=subprocess.DEVNULL).returncode
used = resource.getrusage(resource.RUSAGE_CHILDREN)
print(used.ru_utime + used.ru_stime, used.ru_maxrss / 1000)
sys.exit(status)
"""


def cost(name, words):
    run = subprocess.run([sys.executable, "-S", "-c", MEASURE, *words], capture_output=True, text=True)
    if run.returncode:
        sys.exit(f"{words}: status {run.returncode}: {run.stderr}")
    took, memory = map(float, run.stdout.split())
    print(f"{name}: {took:.2f} s of processor, {memory:.0f} MB")


def add(file, log, rows):
    """So many rows more of the first log, as if they had been kept; the device holds the newest of them alone."""
    base = sqlite3.connect(file)
    newest, *texts = base.execute("SELECT * FROM items WHERE id >> 47 = 1 ORDER BY id DESC LIMIT 1").fetchone()
    base.executemany("INSERT INTO items VALUES (?, ?, ?, ?, ?, ?)", ((newest + 1 + at, *texts) for at in range(rows)))
    base.commit()
    base.execute("PRAGMA wal_checkpoint(TRUNCATE)")
    base.close()
    log.held = {log.total + rows: log.held[log.total]}
    log.total += rows
    log.oldest = log.total


def main():
    program, room, logs = sys.argv[1], sys.argv[2], int(sys.argv[3])
    device = Device([Log(number, 10) for number in range(1, logs + 1)], "bench")
    for log in device.logs.values():
        log.log(2)
    serve([device])
    folder = f"{room}/plant"
    os.mkdir(folder)
    keep = [program, "keep", folder]
    cost(f"a first run of {logs} logs", [*keep, device.address])
    first, log = f"{folder}/000001.db", device.logs[1]
    while os.path.getsize(first) < 2**25 - 2**19:
        add(first, log, 5000)
    rows = log.total
    cost(f"nothing new, the newest part has {os.path.getsize(first) / 2**20:.1f} MiB and {rows} rows", keep)
    while os.path.getsize(first) < 2**25:
        add(first, log, 5000)
    cost(f"the next part is begun behind {os.path.getsize(first) / 2**20:.1f} MiB", keep)
    if not os.path.exists(f"{folder}/000002.db"):
        sys.exit("it isn't there")
    cost("nothing new behind that", keep)


if __name__ == "__main__":
    main()
