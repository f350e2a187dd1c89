#!/usr/bin/env python3
"""years.py PROGRAM ROOM PARTS LOGS: what an archive in parts costs, for years.sh."""
import os
import sqlite3
import sys

from parts import cost
from kept_devices import Device, Log, serve

ROWS = 475_000  # of a part of nearly 32 MiB


def grow(file, rounds, device):
    """So many rounds of a record of each log more, as if they had been kept; the devices hold the newest alone."""
    base = sqlite3.connect(file)
    newest = base.execute("SELECT max(id), stamp, value, datum, flags FROM items GROUP BY id >> 47").fetchall()
    for number, *texts in newest:
        base.executemany("INSERT INTO items (id, stamp, value, datum, flags) VALUES (?, ?, ?, ?, ?)",
                         ((number + 1 + at, *texts) for at in range(rounds)))
    base.commit()
    base.execute("PRAGMA wal_checkpoint(TRUNCATE)")
    base.close()
    for log in device.logs.values():
        log.held = {log.total + rounds: log.held[log.total]}
        log.total += rounds
        log.oldest = log.total


def main():
    program, room, parts, logs = sys.argv[1], sys.argv[2], int(sys.argv[3]), int(sys.argv[4])
    device = Device([Log(number, 10) for number in range(1, logs + 1)], "bench")
    for log in device.logs.values():
        log.log(1)
    serve([device])
    folder = f"{room}/plant"
    os.mkdir(folder)
    keep = [program, "keep", folder]
    cost(f"a first run of {logs} logs", [*keep, device.address])
    for part in range(1, parts + 1):
        file = f"{folder}/{part:06}.db"
        grow(file, ROWS // logs, device)
        if part < parts:
            # It is full for this run alone.
            cost(f"part {part + 1} is begun behind {os.path.getsize(file) / 2**20:.1f} MiB", [*keep, "--part=20"])
    rows = ROWS // logs * logs * parts + logs
    cost(f"nothing new behind {rows} rows, {os.path.getsize(file) / 2**20:.1f} MiB in the newest part", keep)
    cost("the newest part is opened, and one log of it printed", [program, "kept", file, device.address, "1"])
    cost(f"all {rows} rows as CSV", [program, "kept", folder, "--csv"])
    cost("one log in lines", [program, "kept", folder, device.address, "1"])
    cost("all parts are checked", [program, "check", folder])


main()
