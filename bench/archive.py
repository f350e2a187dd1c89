#!/usr/bin/env python3
"""archive.py [PROGRAM [ROWS]]: what archives of format 3 cost, by PROGRAM (crates/bac_archive_trial), beside bounds.

Batches of 64 replies with 64 records each are put, eight in each run, by turns with sqlite3's own INSERTs of the same rows by a
prepared statement in one transaction (archive.c), both into a file of 100,000 rows in WAL mode with synchronous FULL on the same disk:
the time from BEGIN to COMMIT, medians. The first of a run pays for what the open freed, so it is told apart. And a file of ROWS rows,
1,000,000 where none is given, is opened and told what it holds."""
import os
import re
import sqlite3
import statistics
import subprocess
import sys
import tempfile
import time

HERE = os.path.dirname(os.path.abspath(__file__))
CREATION = f"{HERE}/../crates/bac_archive/src/creation.rt"
BATCH, TIMES, TURNS, BEFORE = 64 * 64, 8, 11, 100_000
LOGS = 100
# The greatest memory of a child counts what its parent has, so a small one starts it.
MEASURE = """
import resource, subprocess, sys
status = subprocess.run(sys.argv[1:]).returncode
used = resource.getrusage(resource.RUSAGE_CHILDREN)
print(used.ru_utime + used.ru_stime, used.ru_maxrss / 1000, file=sys.stderr)
sys.exit(status)
"""


def statements():
    """The statements that make an archive, of its source."""
    with open(CREATION) as file:
        text = file.read()
    listed = text[text.index("const STATEMENTS") : text.index("];", text.index("const STATEMENTS"))]
    views = dict(re.findall(r'const (\w+): &str =\s*"((?:[^"\\]|\\\s)*)"', text))
    found = re.findall(r'"((?:[^"\\]|\\\s)*)"|\b([A-Z]+),', listed)
    return [re.sub(r"\\\s+", "", body or views[name]) for body, name in found]


def made(file, logs, rows):
    """An archive of so many logs and rows, from each log's number 1 on."""
    base = sqlite3.connect(file, isolation_level=None)
    base.execute("PRAGMA journal_mode = WAL").fetchall()
    base.execute("BEGIN")
    for statement in statements():
        base.execute(statement)
    base.execute("INSERT INTO archive VALUES (3, '2026-11-30T00:00:00Z')")
    base.execute("INSERT INTO devices VALUES (1, '192.0.2.1:47808', 0, '', 11, 'plant', 3, 1, 0, NULL, NULL)")
    for log in range(1, logs + 1):
        base.execute("INSERT INTO logs VALUES (?, 1, ?, 'zone', NULL, NULL, NULL, NULL, NULL, 0)", (log, log))
        base.execute("INSERT INTO beginnings VALUES (?, 1, NULL)", (log << 15,))
        base.executemany("INSERT INTO items VALUES (?, NULL, ?, ?, 'real(41a00000)', '0000')",
                         (((log << 47) + n, stamp(n), float(n)) for n in range(1, rows // logs + 1)))
    base.execute("COMMIT")
    base.close()


def stamp(n):
    return f"2026-11-29T{n // 3600 % 24:02}:{n // 60 % 60:02}:{n % 60:02}.00"


def asked(lines):
    """What the program answers."""
    return subprocess.run([PROGRAM], input=lines, capture_output=True, text=True, check=True, cwd=ROOM).stdout.strip()


def put_by_program(first):
    lines = "".join(f"record 1 0 {n} {stamp(n)} {n} real(41a00000) 0000\n" + "next\n" * ((n - first) % BATCH == BATCH - 1)
                    for n in range(first, first + TIMES * BATCH))
    return list(map(int, asked(f"{lines}timed-each program.db\n").split()))


def put_by_sqlite(first):
    words = [f"{ROOM}/plain", f"{ROOM}/plain.db", str(first), str(BATCH), str(TIMES)]
    return list(map(int, subprocess.run(words, capture_output=True, text=True, check=True).stdout.split()))


def puts():
    for name in "program.db", "plain.db":
        made(f"{ROOM}/{name}", 1, BEFORE)
    first, program, plain = BEFORE + 1, [], []
    for _turn in range(TURNS):
        program.append(put_by_program(first))
        plain.append(put_by_sqlite(first))
        first += TIMES * BATCH
    read = [sqlite3.connect(f"{ROOM}/{name}").execute("SELECT * FROM items ORDER BY id").fetchall() for name in ("program.db", "plain.db")]
    if read[0] != read[1] or len(read[0]) != BEFORE + TURNS * TIMES * BATCH:
        sys.exit("the rows differ")
    for name, taken in ("all", lambda run: run), ("the first of each run", lambda run: run[:1]), ("later ones", lambda run: run[1:]):
        ours, theirs = (statistics.median(t for run in runs for t in taken(run)) / 1000 for runs in (program, plain))
        print(f"put of {BATCH} rows, {name}: {ours:.2f} ms, sqlite3's INSERTs {theirs:.2f} ms: {ours / theirs:.2f} times, at most 1.3")


def stands(rows):
    made(f"{ROOM}/large.db", LOGS, rows)
    with open(f"{ROOM}/lines", "w") as file:
        file.write("timed stands large.db\n")
    for _turn in range(3):
        began = time.monotonic()
        run = subprocess.run([sys.executable, "-S", "-c", MEASURE, PROGRAM], stdin=open(f"{ROOM}/lines"), capture_output=True, text=True,
                             check=True, cwd=ROOM)
        wall = time.monotonic() - began
        processor, memory = map(float, run.stderr.split())
        print(f"open and stands of {rows} rows, {LOGS} logs: {wall:.2f} s ({processor:.2f} s of processor time, of them "
              f"{int(run.stdout) / 1e6:.2f} in the open file), at most 2; {memory:.0f} MB, at most 230")


if __name__ == "__main__":
    PROGRAM = os.path.realpath(sys.argv[1] if len(sys.argv) > 1 else f"{HERE}/../crates/bac_archive_trial/out/bac_archive_trial")
    with tempfile.TemporaryDirectory(dir=os.environ.get("ROOM")) as ROOM:
        subprocess.run(["cc", "-O2", "-o", f"{ROOM}/plain", f"{HERE}/archive.c", "-lsqlite3"], check=True)
        puts()
        stands(int(sys.argv[2]) if len(sys.argv) > 2 else 1_000_000)
    print(f"cores: {os.cpu_count()}, load: {os.getloadavg()[0]:.1f}, sqlite3 {sqlite3.sqlite_version}")
