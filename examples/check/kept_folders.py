"""`bac kept` of archives in parts, for kept.py: each item of all parts is printed once."""
import contextlib
import os
import shutil
import sqlite3

from checked import NOTHING
from kept_judge import in_use, no_use
from kept_parts import FULL, begun, copied, fill, names, octets, together


def rows_of(text):
    """The row of names, and the others."""
    lines = text.splitlines()
    return lines[:1], lines[1:]


def grown(judge, name):
    """A folder with three parts, of which a device's first log has rows in each, of two epochs."""
    device, folder = begun(judge, name, 30)
    judge.ran(["keep", folder, device.address])
    for part in (1, 2):
        fill(f"{folder}/00000{part}.db")
        device.logs[1].log(20)
        if part == 2:
            device.logs[3].log(4)
            device.logs[2].log(80)
        judge.same(f"{name}: part {part + 1} is begun", judge.ran(["keep", folder, *FULL])[0], 0)
        device.logs[1].log(5)
        judge.ran(["keep", folder])
    judge.same(f"{name}: its parts", names(folder), ["000001.db", "000002.db", "000003.db"])
    return device, folder, [f"{folder}/{part}" for part in names(folder)]


def strangers(judge, folder, out):
    """Six digits and .db are the name of a part, and nothing else is: kept looks for those up to the newest."""
    for name in ("+00012.db", "-00012.db", " 00012.db", "0000012.db", "00012.db", "000000.db", "000012.DB", "000012.db-wal"):
        open(f"{folder}/{name}", "wb").close()
        judge.same(f"{name} is no part", judge.ran(["kept", folder, "--csv"]), (0, out, ""))
        os.remove(f"{folder}/{name}")
    open(f"{folder}/000012.db", "wb").close()
    gone = [no_use(f"{folder}/{number:06}.db", "there is no such file")[2] for number in range(4, 12)]
    judge.same("000012.db is one", judge.ran(["kept", folder, "--csv"]), (6, out, "".join(gone)))
    os.remove(f"{folder}/000012.db")


def folders(judge, _runs):
    """The parts are printed in their order, each item once, and none of them is changed."""
    device, folder, files = grown(judge, "printed")
    merged = together(folder, f"{judge.room}/merged printed.db")
    before = [octets(file) for file in files]
    status, out, errors = judge.ran(["kept", folder, "--csv"])
    head, rows = rows_of(out)
    merged_head, merged_rows = rows_of(judge.ran(["kept", merged, "--csv"])[1])
    judge.same("the row of names stands first", (status, errors, head), (0, "", merged_head))
    judge.same("each item is written once", sorted(rows), sorted(merged_rows))
    judge.is_right("those of the first part come first", rows[:30] == rows_of(judge.ran(["kept", files[0], "--csv"])[1])[1][:30])
    for log in ("1", "2", "3"):
        words = [device.address, log]
        judge.same(f"log {log} in lines", judge.ran(["kept", folder, *words]), judge.ran(["kept", merged, *words]))
    lines = judge.ran(["kept", folder])[1].splitlines()
    heads = [f"{device.address} {log}" for log in (1, 2, 3)]
    judge.same("each part names its logs", [line for line in lines if line in heads], heads * 3)
    judge.same("and no line is lost", len(lines) - 9, len([row for row in judge.ran(["kept", merged])[1].splitlines() if row not in heads]))
    judge.same("one device", judge.ran(["kept", folder, device.address, "--csv"])[1], out)
    judge.same("no such log", judge.ran(["kept", folder, device.address, "7"]), no_use(folder, "it has no such trend log"))
    judge.same("nor as CSV", judge.ran(["kept", folder, device.address, "7", "--csv"]),
               (6, head[0] + "\n", no_use(folder, "it has no such trend log")[2]))
    judge.same("the parts are as they were", [octets(file) for file in files] == before, True)
    judge.same("a log is stopped in the newest part", judge.ran(["keep", folder, device.address, "2", "--stop"]),
               (0, f"{device.address} 2 stopped\n", ""))
    judge.same("there alone", [octets(file) for file in files[:2]] == before[:2], True)
    stopped = judge.ran(["kept", folder])[1].splitlines()
    judge.same("and so it is told", [line for line in stopped if line.startswith(f"{device.address} 2")],
               [f"{device.address} 2"] * 2 + [f"{device.address} 2 stopped"])
    judge.same("one that isn't there", judge.ran(["keep", folder, device.address, "7", "--stop"]),
               no_use(files[2], "it has no such trend log"))
    strangers(judge, folder, out)
    open(f"{folder}/000004.db", "wb").close()
    judge.same("the next one has nothing yet", judge.ran(["kept", folder, "--csv"]), (0, out, ""))
    judge.same("nothing is made of it", os.path.getsize(f"{folder}/000004.db"), 0)
    empty = f"{judge.room}/empty"
    os.mkdir(empty)
    judge.same("a folder without parts", judge.ran(["kept", empty]), no_use(empty, NOTHING))
    os.chmod(empty, 0)
    if not os.access(empty, os.R_OK):
        judge.same("one that isn't read", judge.ran(["kept", empty])[0], 6)
    os.chmod(empty, 0o700)


def folders_damaged(judge, _runs):
    """A part that is no use is told, and the others are printed."""
    device, folder, files = grown(judge, "damaged")
    first, second, third = files
    whole = rows_of(judge.ran(["kept", folder, "--csv"])[1])[1]

    def printed(name, wanted, status=6):
        got, out, errors = judge.ran(["kept", folder, "--csv", "--wait=0"])
        judge.same(f"{name}: what is told", (got, errors), (status, wanted))
        rows = rows_of(out)[1]
        judge.is_right(f"{name}: what is printed", len(rows) == len(set(rows)) and set(rows) < set(whole), len(rows))
        return rows

    fronts = rows_of(judge.ran(["kept", first, "--csv"])[1])[1]
    shutil.move(second, f"{folder}/away")
    rows = printed("the second is gone", no_use(second, "there is no such file")[2])
    judge.is_right("the first and the third are there", set(fronts) < set(rows) and rows[-1] == whole[-1])
    open(second, "wb").close()
    printed("the second is empty", no_use(second, NOTHING)[2])
    with contextlib.closing(sqlite3.connect(second)) as base:
        base.execute("CREATE TABLE other (id INTEGER PRIMARY KEY)")
        base.commit()
    printed("the second is another's", no_use(second, "it isn't a bac archive, or it has an added trigger, foreign key or UNIQUE index")[2])
    shutil.move(f"{folder}/away", second)
    with contextlib.closing(sqlite3.connect(second, isolation_level=None)) as base:
        base.execute("BEGIN EXCLUSIVE")
        printed("the second is in use", in_use(second)[2], 7)
    copied(third, f"{folder}/copy")
    with open(third, "r+b") as damaged:
        damaged.seek(4096)
        damaged.write(b"\xff" * 4096)
    status, out, errors = judge.ran(["kept", folder, "--csv"])
    judge.is_right("the third is damaged", status == 6 and errors.startswith(f"file fault\n{third}: "), (status, errors))
    shutil.move(f"{folder}/copy", third)
    judge.same("all are there again", rows_of(judge.ran(["kept", folder, "--csv"])[1])[1], whole)
