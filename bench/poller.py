#!/usr/bin/env python3
"""poller.py [PROGRAM [DEVICES [LOGS [RECORDS [DELAY]]]]]: what `PROGRAM keep` of a site costs, beside a plain client in C
(poller/plain.c) over the same plant of devices (poller/plant.c), both with 64 requests in flight.

PROGRAM is crates/bac/out/bac, DEVICES 500, LOGS 4 a device, RECORDS 672 a log (a week of quarters of an hour) and DELAY 30 milliseconds where none is given.
Each line has the seconds by the clock, the processor's seconds and these a record in microseconds, the requests and how many of
them were open at once at most. The floor is requests x DELAY / 64."""
import os
import resource
import sqlite3
import subprocess
import sys
import tempfile
import time

HERE = os.path.dirname(os.path.abspath(__file__))
AT_ONCE = 64


class Plant:
    """Devices that answer, in a process of their own."""

    def __init__(self, program, *numbers):
        self.process = subprocess.Popen([program, *map(str, numbers)], stdin=subprocess.PIPE, stdout=subprocess.PIPE, text=True)
        self.process.stdout.readline()

    def does(self, command):
        """Tells how many requests came since the last command, and how many of them were open at once at most."""
        self.process.stdin.write(command + "\n")
        self.process.stdin.flush()
        return tuple(map(int, self.process.stdout.readline().split()))

    def ends(self):
        self.process.stdin.close()
        self.process.wait()


def rows_of(file):
    base = sqlite3.connect(f"file:{file}?mode=ro", uri=True)
    rows = base.execute("SELECT count(*) FROM items WHERE last IS NULL").fetchone()[0]
    base.close()
    return rows


class Client:
    """A program that polls, and its file."""

    def __init__(self, name, file, words, lines):
        self.name, self.file, self.words, self.lines, self.rows = name, file, words, lines, 0

    def runs(self, work, plant, delay):
        plant.does("asked")
        before, start = resource.getrusage(resource.RUSAGE_CHILDREN), time.monotonic()
        run = subprocess.run(self.words, input=self.lines, capture_output=True, text=True)
        took = time.monotonic() - start
        after = resource.getrusage(resource.RUSAGE_CHILDREN)
        used = after.ru_utime + after.ru_stime - before.ru_utime - before.ru_stime
        asked, most = plant.does("asked")
        rows = rows_of(self.file)
        new, self.rows = rows - self.rows, rows
        each = f", {1e6 * used / new:.1f} microseconds a record" if new else ""
        print(f"{work}, {self.name}: {took:.2f} s (floor {asked * delay / 1000 / AT_ONCE:.2f}), {used:.2f} s of processor{each}; "
              f"{new} records, {asked} requests, {most} open at most; status {run.returncode}", flush=True)
        if run.returncode and run.stderr:
            print("  " + run.stderr.splitlines()[-1])


def main():
    words = sys.argv[1:]
    program = os.path.realpath(words[0] if words else f"{HERE}/../crates/bac/out/bac")
    devices, logs, records, delay = (int(word) for word in words[1:] + ["500", "4", "672", "30"][len(words[1:]):])
    places, instances = [f"127.1.{at // 250}.{at % 250 + 1}:47808" for at in range(devices)], [str(log) for log in range(1, logs + 1)]
    lines = "".join(f"{place} {log}\n" for place in places for log in instances)
    named = [word for place in places for word in (place, *instances)]
    with tempfile.TemporaryDirectory() as room:
        for name, library in (("plant", []), ("plain", ["-lsqlite3"])):
            subprocess.run(["cc", "-O2", "-o", f"{room}/{name}", f"{HERE}/poller/{name}.c", *library], check=True)
        plant = Plant(f"{room}/plant", devices, logs, records, delay)
        clients = [Client("plain", f"{room}/plain.db", [f"{room}/plain", f"{room}/plain.db", str(AT_ONCE)], lines),
                   Client("bac keep", f"{room}/bac.db", [program, "keep", f"{room}/bac.db", f"--at-once={AT_ONCE}", *named], "")]
        works = ((f"first run of {records} a log", "log 0"), ("nothing new", "log 0"), ("8 new a log", "log 8"),
                 (f"{records} new a log", f"log {records}"), ("a tenth silent", "silent 10"))
        for work, command in works:
            plant.does(command)
            for client in clients:
                client.runs(work, plant, delay)
        plant.ends()
    print("cores: %d, load: %s" % (os.cpu_count(), open("/proc/loadavg").read().split()[0]))


if __name__ == "__main__":
    main()
