#!/usr/bin/env python3
"""archive.py [PROGRAM]: judges archives of format 3 in files, by PROGRAM (crates/bac_archive_trial).

A batch is put by runs that are killed before each of their calls on files in turn (kills.c), by runs in which that call fails,
and on disks that fill up: behind each, Python's sqlite3 and the program itself read what was there before, or all of the batch;
all of it once the program said so. The same of a file that becomes an archive, and of a part that follows on one. Files that
sqlite3 made and that are no archive are refused by their reasons, and stay as they are, octet for octet. Prints what is wrong,
and `N passed, M failed` at the end."""
import contextlib
import os
import re
import shutil
import signal
import sqlite3
import subprocess
import sys
import tempfile

from kept_limits import at_most

HERE = os.path.dirname(os.path.abspath(__file__))
CREATION = f"{HERE}/../../crates/bac_archive/src/creation.rt"
TABLES = "archive", "devices", "logs", "items", "beginnings"
MOST_CALLS = 400
ALL = "0 9223372036854775807"

SITE = """device 1 192.0.2.1:47808 0 - 11 plant 3 1 0 2026-11-30T08:00:00Z -2
device 2 192.0.2.1:47808 5 0a - - - 0 0 - -
log 1 1 1 zone AI:1 celsius Room 2026-11-01T00:00:00.00 7 0
log 2 2 1 - - - - - - 0
beginning 1 0 10 -
beginning 2 0 500 counted
""" + "".join(f"record 1 0 {n} 2026-11-29T10:{n % 60:02}:00.00 {n} real(41a00000) 0000\n" for n in range(10, 60))
SMALL = """lowered 2 0 480 -
record 2 0 480 2026-11-29T09:00:00.00 1 enumerated(1) 0000
as-device 2 192.0.2.1:47808 5 0a 12 boiler 4 0 0 2026-11-30T09:00:00Z 3600
gap 1 0 60 63 -
"""
# Some 30 pages.
LARGE = SMALL + "".join(f"record 1 0 {n} 2026-11-30T10:{n % 60:02}:00.00 {n} real(41a00000) 0000\n" for n in range(64, 1000))

passed, wrong = 0, []


def is_right(name, right, why=""):
    global passed
    if right:
        passed += 1
    else:
        wrong.append(f"{name}: {why}"[:600])


def same(name, got, wanted):
    is_right(name, got == wanted, f"{wanted!r} is wanted, and it is {got!r}")


def ran(lines, call=None, fails=False, **more):
    """How a run over these lines ended, and what it printed; killed before this call on files, or that one fails."""
    env = {**os.environ, "LD_PRELOAD": KILLS, "AT": str(call)} if call else dict(os.environ)
    run = subprocess.run([PROGRAM], input=lines, capture_output=True, text=True, timeout=120, cwd=ROOM,
                         env={**env, "FAILS": "yes"} if fails else env, **more)
    return run.returncode, run.stdout


def fresh(name, source=None):
    """The path of a copy of a file, or of none, with no log beside it."""
    for end in ("", "-wal", "-shm", "-journal"):
        if os.path.exists(f"{ROOM}/{name}{end}"):
            os.remove(f"{ROOM}/{name}{end}")
    if source:
        shutil.copyfile(f"{ROOM}/{source}", f"{ROOM}/{name}")
    return f"{ROOM}/{name}"


def octets(name):
    with open(f"{ROOM}/{name}", "rb") as file:
        return file.read()


def rows_of(name):
    """What sqlite3 reads of a copy of a file and its log: its rows, or nothing if it has no tables."""
    copy = fresh("read.db", name)
    if os.path.exists(f"{ROOM}/{name}-wal"):
        shutil.copyfile(f"{ROOM}/{name}-wal", f"{copy}-wal")
    if os.path.getsize(copy) < 4096 and not os.path.exists(f"{copy}-wal"):
        return None  # A file that is half made.
    with contextlib.closing(sqlite3.connect(copy)) as base:
        try:
            if base.execute("PRAGMA integrity_check").fetchall() != [("ok",)]:
                return "integrity_check"
        except sqlite3.DatabaseError:
            return "unread"
        if not base.execute("SELECT 1 FROM sqlite_master").fetchall():
            return None
        return [base.execute(f"SELECT * FROM {table} ORDER BY 1").fetchall() for table in TABLES]


def told(name):
    """What the program reads of a file."""
    return ran(f"stands {name}\noldest {name} {ALL}\n")


def each_call(name, source, lines, target, before, behind, fails=False):
    """Runs that are ended at each of their calls: what was there, or all. `source` is copied for each."""
    seen, call, status = set(), 0, None
    while status != 0 and call < MOST_CALLS:
        call += 1
        fresh(target, source)
        status, out = ran(lines, call, fails)
        # A call that fails is told in a line.
        if fails:
            status = 0 if "failed" not in out and "not opened" not in out else 1
        rows = rows_of(target) if os.path.exists(f"{ROOM}/{target}") else None
        is_right(f"{name} at call {call}, the rows", rows == behind or rows in before and status != 0, f"{status} {out}: {str(rows)[-200:]}")
        seen.add("all" if rows == behind else "before")
        # The next run finds the same.
        if rows and rows != "unread":
            ran(f"open {target}\n")
            same(f"{name} at call {call}, read again", rows_of(target), rows)
        else:
            ran(lines)
            same(f"{name} at call {call}, made again", rows_of(target) == behind, True)
    is_right(f"{name}: calls are counted", status == 0 and call > 5 and seen == {"all", "before"}, f"{call} calls, {seen}")
    print(f"{name}: {call} calls")


def batches():
    """A batch is put into a file, whole or not at all, whatever ends the run."""
    fresh("site.db")
    same("a file", ran(f"open site.db\n{SITE}put site.db\n"), (0, "site.db: an archive; changed\nsite.db: put; changed\n"))
    before = rows_of("site.db")
    for size, batch in ("small", SMALL), ("large", LARGE):
        fresh("all.db", "site.db")
        same(f"a {size} batch", ran(f"{batch}put all.db\n"), (0, "all.db: put; changed\n"))
        behind = rows_of("all.db")
        is_right(f"a {size} batch is there", behind[3][: len(before[3])] == before[3] and len(behind[3]) > len(before[3]))
        each_call(f"a {size} batch, killed", "site.db", f"{batch}put one.db\n", "one.db", [before], behind)
        each_call(f"a {size} batch, a call fails", "site.db", f"{batch}put one.db\n", "one.db", [before], behind, True)
        full_disk(size, batch, before, behind)


def full_disk(size, batch, before, behind):
    """No file may get longer than a limit."""
    ends = []
    for most in range(0, 400_000, 8192 if size == "large" else 2048):
        fresh("one.db", "site.db")
        if most < len(octets("site.db")):
            continue
        status, out = ran(f"{batch}put one.db\n", preexec_fn=at_most(most))
        ends.append(out)
        rows = rows_of("one.db")
        if out == "one.db: put; changed\n":
            same(f"a {size} batch, at most {most} octets", rows == behind, True)
            break
        is_right(f"a {size} batch, at most {most} octets, the rows", rows in (before, behind), str(rows)[-200:])
        if rows == behind:
            continue  # It is in the log, and the file had no room for it as it was closed.
        same(f"a {size} batch, at most {most} octets, the file", octets("one.db") == octets("site.db"), True)
        is_right(f"a {size} batch, at most {most} octets, told", "failed: database or disk is full" in out or "not opened" in out, out)
        same("put again where there is room", ran(f"{batch}put one.db\n"), (0, "one.db: put; changed\n"))
        same("put again, the rows", rows_of("one.db"), behind)
    is_right(f"a {size} batch, a disk was full", any("disk is full" in out for out in ends[:-1]), ends)


def makings():
    """A file becomes an archive, or a part of one, whole or not at all."""
    fresh("new.db")
    ran("open new.db\n")
    each_call("a first run, killed", None, "open one.db\n", "one.db", [None, "unread"], rows_of("new.db"))
    fresh("part.db")
    same("a part", ran("follow all.db part.db\n"), (0, "all.db: made; as it was\n"))
    same("a part tells the same", ran("same all.db part.db\n"), (0, "stand as one\n"))
    before = rows_of("all.db")
    each_call("a part, killed", None, "follow all.db two.db\n", "two.db", [None, "unread"], rows_of("part.db"))
    same("the archive behind it", rows_of("all.db"), before)


def statements():
    """The statements that make an archive, of its source."""
    with open(CREATION) as file:
        text = file.read()
    plain = lambda literal: re.sub(r"\\\s+", "", literal)
    views = {name: plain(body) for name, body in re.findall(r'const (\w+): &str =\s*"((?:[^"\\]|\\\s)*)"', text)}
    listed = text[text.index("const STATEMENTS") : text.index("];", text.index("const STATEMENTS"))]
    return [plain(body) if body else views[name] for body, name in re.findall(r'"((?:[^"\\]|\\\s)*)"|\b([A-Z]+),', listed)]


def made(name, *more, size=4096):
    """A file that sqlite3 makes: an archive, and then these statements."""
    with contextlib.closing(sqlite3.connect(fresh(name))) as base:
        base.execute(f"PRAGMA page_size = {size}")
        rows = ("INSERT INTO archive VALUES (3, '2026-11-30T00:00:00Z')",
                "INSERT INTO devices VALUES (1, '192.0.2.1:47808', 0, '', 11, 'plant', 3, 1, 0, NULL, NULL)",
                "INSERT INTO logs VALUES (1, 1, 1, 'zone', NULL, NULL, NULL, NULL, NULL, 0)",
                "INSERT INTO beginnings VALUES (32768, 10, NULL)",
                f"INSERT INTO items VALUES ({(1 << 47) + 10}, 20, NULL, NULL, NULL, NULL)")
        for statement in (*statements(), *rows, *more):
            base.execute(statement)
        base.commit()


TRIGGER = "CREATE TRIGGER gone AFTER INSERT ON items BEGIN DELETE FROM items WHERE id = NEW.id; END"
FOREIGN = "refused: it is no archive"
WRONG = (
    (FOREIGN, TRIGGER),
    (FOREIGN, "DROP VIEW newest"),
    (FOREIGN, "DROP TABLE archive"),
    (FOREIGN, "CREATE UNIQUE INDEX once ON items (stamp)"),
    (FOREIGN, "CREATE TABLE notes (log INTEGER REFERENCES logs (id))"),
    (FOREIGN, "ALTER TABLE items ADD COLUMN note TEXT"),
    ("refused: another version", "UPDATE archive SET version = 4"),
    ("refused: another version", "DELETE FROM archive"),
    ("refused: another version", "INSERT INTO archive VALUES (4, '')"),
    ("refused: an id is out of range", "INSERT INTO logs VALUES (65536, 1, 9, NULL, NULL, NULL, NULL, NULL, NULL, 0)"),
    ("refused: an id is out of range", "INSERT INTO beginnings VALUES (2147483648, 1, NULL)"),
    ("refused: an id is out of range", "INSERT INTO devices VALUES (-1, '192.0.2.9:47808', 0, '', 1, '', 1, 1, 0, NULL, NULL)"),
    ("refused: a log of no device", "DELETE FROM devices"),
    ("refused: a log of no device", "UPDATE devices SET id = 2"),
    ("refused: a log of no device", "UPDATE logs SET device = 65537"),
    ("refused: a log of no device", "INSERT INTO logs VALUES (2, 0, 2, NULL, NULL, NULL, NULL, NULL, NULL, 1)"),
    ("refused: items lie over one another", f"INSERT INTO items VALUES ({(1 << 47) + 20}, NULL, '*', 1, 'real(3f800000)', '0000')"),
    ("refused: an item of no log or of no beginning", f"INSERT INTO items VALUES ({1 << 47 | 1 << 32 | 5}, NULL, '*', 1, '', '')"),
    ("refused: an item of no log or of no beginning", "DELETE FROM logs"),
    ("an archive", "CREATE TABLE notes (id INTEGER PRIMARY KEY, text TEXT)"),
    ("an archive", "CREATE INDEX by_stamp ON items (stamp)"),
    ("an archive", "CREATE VIEW mine AS SELECT * FROM records"),
    ("an archive", "UPDATE logs SET name = NULL"),
)


def wrong_files():
    """Files that sqlite3 made, each taken, or refused by its reason; each stays as it was."""
    for wanted, *more in WRONG:
        made("other.db", *more)
        stays("other.db", more[0], f"other.db: {wanted}; as it was\n")
    with contextlib.closing(sqlite3.connect(fresh("other.db"))) as base:
        base.execute("CREATE TABLE notes (id INTEGER PRIMARY KEY, text TEXT)")
    stays("other.db", "another database", f"other.db: {FOREIGN}; as it was\n")
    for dump in "site", "plant.1":
        with contextlib.closing(sqlite3.connect(fresh("old.db"))) as base, open(f"{HERE}/format2/{dump}.sql") as text:
            lines = text.read().splitlines()
            # As `keep` made them: a dump has its tables by their names.
            first = [line for table in ("archive", "logs", "items", "beginnings") for line in lines if line.startswith(f"CREATE TABLE {table} ")]
            base.executescript("\n".join(first + [line for line in lines if line not in first]))
        stays("old.db", f"format 2, {dump}", "old.db: refused: an earlier format; as it was\n")
        shutil.rmtree(f"{ROOM}/3", ignore_errors=True)
        subprocess.run([f"{HERE}/../use/convert.sh", f"{ROOM}/old.db", f"{ROOM}/3"], check=True, capture_output=True)
        os.rename(f"{ROOM}/3", fresh("new.db"))
        stays("new.db", f"{dump} converted", "new.db: an archive; as it was\n")
    whole = octets("all.db")
    for left in (2, 99, 512, 4096, 4097, len(whole) // 2, len(whole) - 4096, len(whole) - 1):
        with open(fresh("cut.db"), "wb") as file:
            file.write(whole[:left])
        stays("cut.db", f"the first {left} octets", "open cut.db: not opened\n")
    with open(fresh("text.db"), "w") as file:
        file.write("no database at all\n" * 40)
    stays("text.db", "a text", "open text.db: not opened\n")


def stays(name, what, wanted):
    """It is opened, this is told of it, and each octet of it is as it was. A log of a few octets may be left beside it."""
    before = octets(name)
    same(what, ran(f"open {name}\n"), (0, wanted))
    same(f"{what}: its octets", octets(name) == before, True)
    same(f"{what}: a log beside it", os.path.exists(f"{ROOM}/{name}-wal") and os.path.getsize(f"{ROOM}/{name}-wal") > 41, False)


if __name__ == "__main__":
    PROGRAM = os.path.realpath(sys.argv[1] if len(sys.argv) > 1 else f"{HERE}/../../crates/bac_archive_trial/out/bac_archive_trial")
    with tempfile.TemporaryDirectory() as ROOM:
        KILLS = f"{ROOM}/kills.so"
        subprocess.run(["cc", "-shared", "-fPIC", "-O1", "-o", KILLS, f"{HERE}/kills.c", "-ldl"], check=True)
        for case in (batches, makings, wrong_files):
            try:
                case()
            except Exception as error:  # what stops a judge is a failure
                is_right(case.__name__, False, f"{type(error).__name__}: {error}")
        for text in wrong[:20]:
            print(text)
    print(f"{passed} passed, {len(wrong)} failed")
    sys.exit(1 if wrong else 0)
