#!/usr/bin/env python3
"""convert.py: judges examples/use/convert.sh. Prints what is wrong, and `N passed, M failed`.

format2/ has archives that `bac keep` of release 0.1 made, as Python's sqlite3 dumps them: site.sql a file with epochs,
gaps, stopped logs and two devices behind a router, plant.1.sql to plant.3.sql the parts of a folder. Each is converted;
the tables are those of crates/bac_archive, all rows there under their ids, what the views show is the same. Then the
conversion is killed at random moments: OLD is as it was, octet for octet, and NEW whole or not there."""
import contextlib
import os
import random
import re
import resource
import shutil
import signal
import sqlite3
import subprocess
import sys
import tempfile
import time

HERE = os.path.dirname(os.path.abspath(__file__))
CONVERT = f"{HERE}/../use/convert.sh"
CREATION = f"{HERE}/../../crates/bac_archive/src/creation.rt"
KILLS = 12
# What both formats show, in the order of their views.
SHOWN = (
    "SELECT address, device, trend_log, name, epoch, number, stamp, value, datum, flags FROM records",
    "SELECT address, device, trend_log, name, epoch, first, last FROM gaps",
    "SELECT address, device, trend_log, name, epoch, beginning FROM epochs",
)
ROWS = "SELECT id, last, stamp, value, datum, flags FROM items", "SELECT id, number FROM beginnings"
# Each log with its place and what its device told.
LOGS_2 = "SELECT id, address, dnet, dadr, instance, name, device, restart, revision, stopped FROM logs"
LOGS_3 = """SELECT l.id, d.address, d.dnet, d.dadr, l.instance, l.name, d.instance, l.restart, l.revision, l.stopped
    FROM logs l JOIN devices d ON d.id = l.device"""

passed, wrong = 0, []


def is_right(name, right, why=""):
    global passed
    if right:
        passed += 1
    else:
        wrong.append(f"{name}: {why}"[:600])


def same(name, got, wanted):
    is_right(name, got == wanted, f"{wanted!r} is wanted, and it is {got!r}")


def made(dump, file):
    """An archive of format 2 in a file, and in the database's own log beside it, as a run that is killed leaves them."""
    with contextlib.closing(sqlite3.connect(f"{file}.x")) as base, open(f"{HERE}/format2/{dump}.sql") as text:
        base.execute("PRAGMA journal_mode = WAL")
        base.execute("PRAGMA wal_autocheckpoint = 0")
        base.executescript(text.read())
        for end in ("", "-wal"):
            shutil.copyfile(f"{file}.x{end}", f"{file}{end}")
    os.remove(f"{file}.x")
    return file


def asked(file, question):
    """All rows, in an order, by a copy of the file and of its log."""
    with tempfile.TemporaryDirectory() as room:
        for end in ("", "-wal"):
            if os.path.exists(file + end):
                shutil.copyfile(file + end, f"{room}/copy{end}")
        with contextlib.closing(sqlite3.connect(f"{room}/copy")) as base:
            return sorted(base.execute(question).fetchall(), key=repr)


def octets(place):
    """The files of a place, by their octets."""
    names = [place, f"{place}-wal"] if os.path.isfile(place) else [f"{place}/{name}" for name in sorted(os.listdir(place))]
    return {name: open(name, "rb").read() for name in names if os.path.exists(name)}


def converted(*words, **more):
    process = subprocess.run([CONVERT, *words], stdin=subprocess.DEVNULL, capture_output=True, text=True, timeout=60, **more)
    return process.returncode, process.stdout, process.stderr


def texts_of_crate():
    """The statements that make the tables and the views, as the crate has them."""
    with open(CREATION) as source:
        source = source.read()
    # Each constant or element of the list is one literal, whose lines end in a backslash.
    literals = re.findall(r'"((?:CREATE TABLE|CREATE VIEW)(?:[^"\\]|\\\n)*)"', source)
    return sorted(re.sub(r"\\\n\s*", "", text) for text in literals)


def is_of_format_3(name, file):
    texts = asked(file, "SELECT sql FROM sqlite_master WHERE sql IS NOT NULL")
    same(f"{name}: its texts are the crate's", sorted(text for text, in texts), texts_of_crate())
    same(f"{name}: its version", [version for version, _ in asked(file, "SELECT * FROM archive")], [3])
    same(f"{name}: it is sound", asked(file, "PRAGMA integrity_check"), [("ok",)])


def has_all(name, old, new):
    """All of an archive of format 2 is in one of format 3."""
    for question in ROWS + SHOWN:
        same(f"{name}: {question}", asked(new, question), asked(old, question))
    same(f"{name}: its logs", asked(new, LOGS_3), asked(old, LOGS_2))


def whys(file):
    return sorted(row for row in asked(file, "SELECT id, why FROM beginnings") if row[1])


def a_file(room):
    old, new = made("site", f"{room}/old 'site'.db"), f"{room}/new.db"
    os.chmod(old, 0o640)
    before = octets(old)
    same("a file", converted(old, new), (0, "", ""))
    same("a file: nothing stays beside it", sorted(os.listdir(room)), ["new.db", "old 'site'.db", "old 'site'.db-wal"])
    same("a file: the old one stays", octets(old), before)
    same("a file: its mode", os.stat(new).st_mode, os.stat(old).st_mode)
    is_of_format_3("a file", new)
    has_all("a file", old, new)
    # By hand: logs 1 and 4 have a second epoch behind a restart, and so has 3; the numbers of 2 came round.
    anew = "began anew, or dropped records"
    same("a file: why epochs began", whys(new), [(32769, anew), (65537, "numbers came round"), (98305, anew), (131073, anew)])
    # The plant's four logs, and two devices behind a router, of which the first one's only log is stopped.
    same("a file: its devices", [row[2:5] + row[8:9] for row in asked(new, "SELECT * FROM devices")], [(0, "", 1001, 0), (5, "07", 1002, 1), (5, "08", 1003, 0)])
    same("a file: the newest view", len(asked(new, "SELECT * FROM newest")), 4)
    same("it is there already", converted(old, new), (1, "", f"{new}: it is there already\n"))
    same("of format 3", converted(new, f"{room}/more.db"), (1, "", f"{new}: it is not of format 2\n"))
    with open(f"{room}/text", "w") as text:
        text.write("no database, but longer than the head of one, which has a hundred octets. " * 9)
    same("no database", converted(f"{room}/text", f"{room}/more.db")[:2], (1, ""))
    shutil.copyfile(new, f"{room}/open.db")
    with contextlib.closing(sqlite3.connect(f"{room}/open.db", isolation_level=None)) as base:
        base.execute("PRAGMA locking_mode = EXCLUSIVE")
        base.execute("BEGIN EXCLUSIVE")
        status, out, errors = converted(f"{room}/open.db", f"{room}/more.db")
        is_right("it is open", (status, out) == (1, "") and "locked" in errors, (status, out, errors))
    with contextlib.closing(sqlite3.connect(made("site", f"{room}/two.db"))) as base:
        base.execute("UPDATE logs SET device = 4194302 WHERE id = 1")
        base.commit()
    same("two devices at one place", converted(f"{room}/two.db", f"{room}/more.db"), (1, "", f"{room}/two.db: two devices are at one place\n"))
    full_disks(room, old, before)
    same("none of them is made", [name for name in os.listdir(room) if name.startswith("more")], [])


def full_disks(room, old, before):
    """No file may get longer than a limit: nothing is made, and it is told as sqlite3 tells it."""
    def at_most(size):
        # So that what is written beyond fails, and ends no program.
        signal.signal(signal.SIGXFSZ, signal.SIG_IGN)
        resource.setrlimit(resource.RLIMIT_FSIZE, (size, size))

    size, beside = os.path.getsize(f"{room}/new.db"), sorted(os.listdir(room))
    for most in (4096, 16384, size // 2, size - 4096):
        same(f"at most {most} octets", converted(old, f"{room}/more.db", preexec_fn=lambda: at_most(most)), (1, "", f"{old}: disk I/O error\n"))
        same(f"at most {most} octets: nothing is made", sorted(os.listdir(room)), beside)
        same(f"at most {most} octets: the old one", octets(old), before)


def a_folder(room):
    old, new = f"{room}/plant", f"{room}/new"
    os.mkdir(old)
    for part in (1, 2, 3):
        made(f"plant.{part}", f"{old}/00000{part}.db")
    # One that a run was to begin.
    open(f"{old}/000004.db", "w").close()
    before = octets(old)
    same("a folder", converted(old, new), (0, "", ""))
    same("a folder: the old one stays", octets(old), before)
    same("a folder: its parts", sorted(os.listdir(new)), ["000001.db", "000002.db", "000003.db"])
    for part in sorted(os.listdir(new)):
        is_of_format_3(part, f"{new}/{part}")
        has_all(part, f"{old}/{part}", f"{new}/{part}")
    same("a folder: it is of one moment", len({str(asked(f"{new}/{part}", "SELECT * FROM archive")) for part in os.listdir(new)}), 1)
    # That numbers came round stands in the first part alone; the others have that beginning, too.
    anew = "began anew, or dropped records"
    for part, wanted in (("000001.db", [(65537, "numbers came round")]), ("000003.db", [(65537, "numbers came round"), (65538, anew)])):
        same(f"a folder: why epochs began in {part}", whys(f"{new}/{part}"), wanted)


def killed(room, old, name):
    """Killed at random moments, NEW is whole or not there, and OLD as it was."""
    new, before = f"{room}/{name}", octets(old)
    began = time.monotonic()
    same(f"{name}: a whole run", converted(old, new)[0], 0)
    took, ends = time.monotonic() - began, set()
    want = {os.path.basename(file): [asked(file, question) for question in ROWS + SHOWN] for file in octets(new)}
    for at in range(KILLS):
        shutil.rmtree(new, ignore_errors=True) if os.path.isdir(new) else os.path.exists(new) and os.remove(new)
        process = subprocess.Popen([CONVERT, old, new], stdin=subprocess.DEVNULL, stdout=subprocess.DEVNULL, stderr=subprocess.DEVNULL, start_new_session=True)
        try:
            # The last of them are past the end of most runs.
            process.wait(random.uniform(0, 1.2 * took) if at < KILLS - 1 else 60)
        except subprocess.TimeoutExpired:
            os.killpg(process.pid, signal.SIGKILL)
            process.wait()
        there = os.path.exists(new)
        ends.add((process.returncode, there))
        if there:
            got = {os.path.basename(file): [asked(file, question) for question in ROWS + SHOWN] for file in octets(new)}
            is_right(f"{name}, kill {at}: it is whole", got == want)
        same(f"{name}, kill {at}: the old one", {file: text for file, text in octets(old).items() if file in before}, before)
    is_right(f"{name}: some are killed, and one ends", (-signal.SIGKILL, False) in ends and (0, True) in ends, ends)


def main():
    with tempfile.TemporaryDirectory() as room:
        judged(room)
    print(*wrong, f"{passed} passed, {len(wrong)} failed", sep="\n")
    sys.exit(1 if wrong else 0)


def judged(room):
    random.seed(1)
    for name, judge in (("file", a_file), ("folder", a_folder)):
        os.mkdir(f"{room}/{name}")
        judge(f"{room}/{name}")
    os.mkdir(f"{room}/killed")
    killed(f"{room}/killed", f"{room}/file/old 'site'.db", "one.db")
    killed(f"{room}/killed", f"{room}/folder/plant", "parts")


main()
