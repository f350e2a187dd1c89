"""Archives in parts, for kept.py: a folder of files, of which the newest is kept."""
import contextlib
import os
import shutil
import signal
import sqlite3

from kept_devices import Device, Log, serve
from kept_judge import in_use, no_use
from kept_rounds import said

# Of a part what the next one has: when the archive was made, its devices, its logs, of each log its last beginning, and the up
# to three newest rows of the epoch that began there.
MADE = "SELECT * FROM archive"
DEVICES = "SELECT * FROM devices ORDER BY id"
LOGS = "SELECT * FROM logs ORDER BY id"
BEGINNINGS = "SELECT * FROM beginnings ORDER BY id"
ITEMS = "SELECT * FROM items ORDER BY id"
LAST = "SELECT * FROM beginnings WHERE id IN (SELECT max(id) FROM beginnings GROUP BY id >> 15) ORDER BY id"
NEWEST = ("SELECT * FROM items i WHERE id >> 32 IN (SELECT max(id) FROM beginnings GROUP BY id >> 15) "
          "AND (SELECT count(*) FROM items n WHERE n.id >> 32 = i.id >> 32 AND n.id > i.id) < 3 ORDER BY id")
# Of what is read of a part, where it is the next one's beginning.
FOLLOWED = MADE, DEVICES, LOGS, LAST, NEWEST
FULL = ("--part=1",)


def read(file, *questions):
    with contextlib.closing(sqlite3.connect(f"file:{file}?mode=ro&immutable=1", uri=True)) as base:
        return [base.execute(question).fetchall() for question in questions]


def names(folder):
    return sorted(name for name in os.listdir(folder) if name.endswith(".db"))


def octets(file):
    with open(file, "rb") as opened:
        return opened.read()


def copied(file, copy):
    """A copy of a file and of the log beside it."""
    for end in ("", "-wal", "-shm"):
        if os.path.exists(copy + end):
            os.remove(copy + end)
        if end != "-shm" and os.path.exists(file + end):
            shutil.copyfile(file + end, copy + end)
    return copy


def is_begun(file):
    """Whether a part has the tables of an archive: one that a run was making when it ended has none, or sqlite3 may not
    read it until the next run has gone on."""
    with contextlib.closing(sqlite3.connect(copied(file, f"{file}.copy"))) as base:
        try:
            return bool(base.execute("SELECT 1 FROM sqlite_master WHERE name = 'gaps'").fetchall())
        except sqlite3.DatabaseError as error:
            if error.sqlite_errorname != "SQLITE_NOTADB":
                raise
            return False


def together(folder, merged):
    """One file with the rows of all parts, as ARCHIVE tells to make it: the newest first, since it has each beginning as it is now."""
    parts = [name for name in names(folder) if is_begun(f"{folder}/{name}")]
    copied(f"{folder}/{(parts or names(folder))[-1]}", merged)
    with contextlib.closing(sqlite3.connect(merged)) as base:
        for name in parts[-2::-1]:
            base.execute("ATTACH ? AS part", (copied(f"{folder}/{name}", f"{merged}.part"),))
            base.execute("INSERT OR IGNORE INTO beginnings SELECT * FROM part.beginnings")
            base.execute("INSERT OR IGNORE INTO items SELECT * FROM part.items")
            base.commit()
            base.execute("DETACH part")
    return merged


def fill(file):
    """A megabyte of free pages in a file: the next part is begun."""
    with contextlib.closing(sqlite3.connect(file)) as base:
        base.execute("CREATE TABLE full (octets BLOB)")
        base.execute("INSERT INTO full VALUES (zeroblob(?))", (2**20,))
        base.execute("DROP TABLE full")
        base.commit()
        base.execute("PRAGMA wal_checkpoint(TRUNCATE)")


def begun(judge, name, count=12):
    """A folder with one part, in which the logs of a device are kept."""
    device = Device([Log(1, 40000), Log(2, 50), Log(3, 50)], name)
    serve([device])
    folder = f"{judge.room}/{name}"
    os.mkdir(folder)
    for log in (1, 2):
        device.logs[log].log(count)
    return device, folder


def whole(judge, name, folder, devices):
    judge.judge(name, together(folder, f"{judge.room}/merged.db"), devices, True)


def unanswered(rows):
    """Rows of devices without when they answered."""
    return [row[:9] + row[10:] for row in rows]


def parts(judge, _runs):
    """The newest part is kept; where it is full the next one is begun, with its devices, its logs, and of each log its last
    beginning and its newest items."""
    device, folder = begun(judge, "plant")
    first, second = f"{folder}/000001.db", f"{folder}/000002.db"
    judge.same("of no folder no part is made", judge.ran(["keep", f"{judge.room}/none/", device.address])[0], 6)
    judge.same("of an empty folder without a device", judge.ran(["keep", folder]), no_use(first, "there is no such file"))
    judge.same("an empty folder", judge.ran(["keep", folder, device.address, "1"]), (0, said(device, 12, 0, "caught up, next 13"), ""))
    judge.same("has one part", names(folder), ["000001.db"])
    judge.ran(["keep", folder, device.address])
    device.logs[1].log(2900)
    device.logs[2].purge()
    device.logs[2].log(60)
    judge.same("it goes on", judge.ran(["keep", folder])[0], 0)
    device.logs[1].log(3)
    judge.same("at its usual size it is one part", (judge.ran(["keep", folder, *FULL])[0], names(folder)), (0, ["000001.db"]))
    whole(judge, "one part", folder, [device])
    device.logs[1].log(16000)
    judge.same("it is full behind this run", (judge.ran(["keep", folder, "--count=100", *FULL])[0], names(folder)), (0, ["000001.db"]))
    whole(judge, "a full part", folder, [device])
    before, old = octets(first), read(first, *FOLLOWED)
    status, out, errors = judge.ran(["keep", folder, *FULL])
    judge.same("the next one is begun", (status, errors, names(folder)), (0, "", ["000001.db", "000002.db"]))
    # Its device has answered since.
    followed = read(second, MADE, DEVICES, LOGS, BEGINNINGS, ITEMS)
    judge.same("with what it follows on", [followed[0], unanswered(followed[1]), *followed[2:]], [old[0], unanswered(old[1]), *old[2:]])
    judge.same("it has up to three rows of each log", [len(rows) for rows in followed[3:]], [3, 6])
    judge.same("its lines are those of any run", out.count(" 0 records 0 gaps caught up"), 3)
    device.logs[1].log(7)
    device.logs[3].log(2)
    judge.same("it goes on in the next one", judge.ran(["keep", folder])[0], 0)
    judge.same("the first is as it was", octets(first) == before, True)
    whole(judge, "two parts", folder, [device])
    # A file of before is the first part.
    moved = f"{judge.room}/moved"
    os.mkdir(moved)
    shutil.copyfile(first, f"{moved}/000001.db")
    judge.same("a file becomes a folder", judge.ran(["keep", moved])[0], 0)
    whole(judge, "a file that became a folder", moved, [device])


def parts_refused(judge, _runs):
    """A part that is no archive is refused by its name, and so is the one before where the next is to follow on it."""
    device, folder = begun(judge, "refused")
    judge.ran(["keep", folder, device.address])
    first, second, third = (f"{folder}/00000{n}.db" for n in (1, 2, 3))
    open(second, "wb").close()
    shutil.move(first, f"{first}.away")
    judge.same("the one before is gone", judge.ran(["keep", folder]), no_use(first, "there is no such file"))
    shutil.move(f"{first}.away", first)
    with contextlib.closing(sqlite3.connect(first, isolation_level=None)) as base:
        base.execute("BEGIN EXCLUSIVE")
        judge.same("the one before is in use", judge.ran(["keep", folder, "--wait=0"]), in_use(first))
    with contextlib.closing(sqlite3.connect(f"{folder}/other.db")) as base:
        base.execute("CREATE TABLE other (id INTEGER PRIMARY KEY)")
        base.commit()
    judge.same("it follows on where one was begun", (judge.ran(["keep", folder])[0], read(second, LOGS) == read(first, LOGS)), (0, True))
    shutil.move(f"{folder}/other.db", third)
    status, out, errors = judge.ran(["keep", folder])
    judge.is_right("the newest is another's", (status, out) == (6, "") and errors.startswith(f"file fault\n{third}: "), (status, out, errors))
    open(f"{folder}/000004.db", "wb").close()
    status, out, errors = judge.ran(["keep", folder])
    judge.is_right("so is the one before", (status, out) == (6, "") and errors.startswith(f"file fault\n{third}: "), (status, out, errors))
    judge.same("nothing is made of it", read(f"{folder}/000004.db", "SELECT name FROM sqlite_master"), [[]])
    os.remove(third)
    judge.same("nor where that is gone", judge.ran(["keep", folder]), no_use(third, "there is no such file"))
    judge.same("nothing is made of it then", read(f"{folder}/000004.db", "SELECT name FROM sqlite_master"), [[]])


def parts_ended(judge, _runs):
    """Ended before each call on files while a part is begun, or a call that fails: the next run goes on, and nothing is lost or twice."""
    device, first = begun(judge, "ended", 40)
    judge.ran(["keep", first, device.address])
    judge.is_right("the part is small", os.path.getsize(f"{first}/000001.db") < 2**20)
    fill(f"{first}/000001.db")
    judge.is_right("the part is full", os.path.getsize(f"{first}/000001.db") >= 2**20)
    for fails in (False, True):
        made = set()
        for call in range(1, 120):
            folder = f"{judge.room}/ended {fails}"
            shutil.rmtree(folder, ignore_errors=True)
            shutil.copytree(first, folder)
            device.logs[2].log(1)
            ended = {**judge.ending_at(call), **({"FAILS": "yes"} if fails else {})}
            status, _out, errors = judge.ran(["keep", folder, *FULL], env=ended)
            made.add(len(names(folder)))
            if status == 0:
                break
            judge.is_right(f"begun, call {call}: its end", status == (6 if fails else -signal.SIGKILL), (status, errors))
            judge.same(f"begun, behind call {call}", (judge.ran(["keep", folder, *FULL])[0], judge.ran(["keep", folder])[0]), (0, 0))
            whole(judge, f"begun, behind call {call}", folder, [device])
        judge.is_right("calls while a part is begun", call > 10, (call, made))
