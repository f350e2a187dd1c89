"""`bac check` for kept.py: the rows of each epoch of an archive are counted, and the numbers that are in none are told."""
import contextlib
import datetime
import os
import sqlite3

from kept_devices import Device, Log, serve
from kept_judge import in_use, no_use
from kept_parts import BEGINNINGS, begun, copied, fill, names, read, together

# Of each log its id, its device's place, and its instance; of each item its id, its last number, and whether it may be none.
LOGS = ("SELECT l.id, d.address || CASE d.dnet WHEN 0 THEN '' ELSE '/' || d.dnet || '/' || d.dadr END, l.instance "
        "FROM logs l JOIN devices d ON d.id = l.device ORDER BY l.id")
ITEMS = "SELECT id, last, datum IS 'or began anew' FROM items ORDER BY id"
NOTHING = "there is nothing in it"
HOLES = "numbers are missing in it"
APART = "it doesn't begin where the part before it ends"
FOREIGN = "it isn't a bac archive, or it has an added trigger, foreign key or UNIQUE index"
# A part that has a row is full.
FULL = ("--part=1",)


def told(file, why):
    """What is told of a file."""
    return f"file fault\n{file}: {why}\n"


def counted(count, one, many):
    return f"{count} {one if count == 1 else many}"


def holes_of(start, rows):
    """The stretches of numbers from the beginning of an epoch up to its last row that are in none of its rows."""
    there = {number for first, last in rows for number in range(first, last + 1)}
    missing, holes = [number for number in range(start, max(there) + 1) if number not in there], []
    for number in missing:
        if holes and holes[-1][1] == number - 1:
            holes[-1][1] = number
        else:
            holes.append([number, number])
    return holes


def gaps_text(gaps, kind):
    """How many gaps there are, of how many numbers."""
    return counted(len(gaps), f"{kind}gap", f"{kind}gaps") + (f" of {counted(sum(gaps), 'number', 'numbers')}" if gaps else "")


def epoch_lines(name, epoch, start, rows, is_gone):
    """The lines of an epoch, by the numbers of its rows, of a gap its last one, and whether that may be none."""
    head = f"{name} epoch {epoch}: "
    if not rows:
        return [f"{head}{'gone' if is_gone else 'nothing'}"]
    spans = [(number, number if last is None else last) for number, last, _ in rows]
    gaps, doubtful = ([last - number + 1 for number, last, doubt in rows if last is not None and doubt == kind] for kind in (0, 1))
    text = gaps_text(gaps, "") + (f", {gaps_text(doubtful, 'doubtful ')}" if doubtful else "")
    records = counted(len(rows) - len(gaps) - len(doubtful), "record", "records")
    holes = [f"missing {first}-{last}" for first, last in holes_of(start, spans)]
    return [f"{head}{spans[0][0]} to {max(last for _, last in spans)}, {records}, {text}", *holes]


def log_lines(name, begun, by_epoch):
    """The lines of a log, by where its epochs begin, and why: of one that is gone, and of those before it that are, too. None is
    gone behind which no row is; nor is one that the log's count alone told."""
    said, before = [], None
    for key, start, why in begun:
        is_before = any(later in by_epoch for later, *_ in begun if later > key)
        lost = range(before + 1, key) if before is not None and (key in by_epoch or is_before) else ()
        if lost:
            epochs = [epoch & 32767 for epoch in (lost[0], lost[-1])]
            said.append(f"{name} {f'epoch {epochs[0]}' if len(lost) == 1 else f'epochs {epochs[0]} to {epochs[1]}'}: gone")
        said += epoch_lines(name, key & 32767, start, by_epoch.get(key, []), is_before and why != "counted")
        before = key
    return said


def lines(file):
    """What is to be printed of a file, by what sqlite3 reads of a copy of it."""
    logs, beginnings, items = read(copied(file, f"{file}.read"), LOGS, BEGINNINGS, ITEMS)
    by_epoch, said = {}, []
    for item, last, doubt in items:
        by_epoch.setdefault(item >> 32, []).append((item & 0xFFFFFFFF, last, doubt))
    for log_id, place, instance in logs:
        said += log_lines(f"{place} {instance}", [row for row in beginnings if row[0] >> 15 == log_id], by_epoch)
    return "".join(f"{line}\n" for line in said)


def change(file, *statements):
    """Another program changes a file."""
    with contextlib.closing(sqlite3.connect(file)) as base:
        for statement in statements:
            base.execute(statement)
        base.commit()
        base.execute("PRAGMA wal_checkpoint(TRUNCATE)")


def checks(judge, name, words, wanted, errors=""):
    """What `bac check` prints, and what it tells; where it tells nothing its status is 0."""
    judge.same(name, judge.ran(["check", *words]), (6 if errors else 0, wanted, errors))


def checked(judge, _runs):
    """One file: whole, with rows that another program deleted, another's, an absent one, and one that is in use."""
    device = Device([Log(1, 400), Log(2, 50), Log(3, 50), Log(4, 50), Log(5, 50)], "counted")
    serve([device])
    file, copy = f"{judge.room}/whole.db", f"{judge.room}/copy.db"
    device.logs[1].log(300)
    device.logs[2].log(20)
    device.logs[4].log(1)
    device.logs[5].log(3)
    judge.ran(["keep", file, device.address])
    # Gaps of 21 to 30 and of 36 to 38; and epochs that begin anew. The first one may be none: its device doesn't tell yet when it
    # was started.
    for numbers in (10, 3):
        device.logs[2].log(numbers)
        device.logs[2].purge()
        device.logs[2].log(5)
        device.logs[4].begin(0)
        device.logs[4].log(3)
        device.logs[5].log(1)
        judge.ran(["keep", file])
        device.restart = datetime.datetime(2024, 1, 1)
        judge.ran(["keep", file])
    before = read(copied(file, copy), LOGS, BEGINNINGS, ITEMS)
    text = lines(file)
    judge.is_right("what is wanted", all(f"{device.address} {line}\n" in text for line in (
        "1 epoch 0: 1 to 300, 300 records, 0 gaps", "2 epoch 0: 1 to 43, 30 records, 1 gap of 3 numbers, 1 doubtful gap of 10 numbers",
        "3 epoch 0: nothing", "4 epoch 0: 1 to 1, 1 record, 0 gaps", "4 epoch 1: 1 to 3, 3 records, 0 gaps", "4 epoch 2: 1 to 3, 3 records, 0 gaps",
        "5 epoch 0: 1 to 5, 5 records, 0 gaps")), text)
    checks(judge, "a whole file", [file], text)
    judge.same("it stays as it is", read(copied(file, copy), LOGS, BEGINNINGS, ITEMS), before)
    of_log = "id >> 47 = (SELECT id FROM logs WHERE instance = {})"
    epoch = f"{of_log.format(4)} AND (id >> 32) & 32767 = "
    beginning = "DELETE FROM beginnings WHERE id >> 15 = (SELECT id FROM logs WHERE instance = 4) AND id & 32767 = 1"
    holes = {
        "one in the middle": (f"{of_log.format(1)} AND id & 4294967295 = 100", "\nmissing 100-100\n"),
        "two stretches": (f"{of_log.format(1)} AND id & 4294967295 IN (7, 8, 9, 250)", "\nmissing 7-9\nmissing 250-250\n"),
        "the first": (f"{of_log.format(1)} AND id & 4294967295 = 1", "\nmissing 1-1\n"),
        "both gaps": (f"{of_log.format(2)} AND last IS NOT NULL", "2 epoch 0: 1 to 43, 30 records, 0 gaps\nmissing 21-30\nmissing 36-38\n"),
        "the first of another epoch": (f"{epoch}1 AND id & 4294967295 < 3", "\nmissing 1-2\n"),
        "an epoch": (f"{epoch}1", "4 epoch 1: gone\n"),
        "the first epoch": (f"{epoch}0", "4 epoch 0: gone\n"),
        "both before the last": (f"{epoch[:-2]}< 2", "4 epoch 0: gone\n"),
        "an epoch, and its beginning": (f"{epoch}1", "3 epoch 0: nothing\n", beginning),
    }
    for name, (which, part, *more) in holes.items():
        change(copied(file, copy), f"DELETE FROM items WHERE {which}", *more)
        wanted = lines(copy)
        judge.is_right(f"{name}: it is missing", part in wanted, wanted)
        checks(judge, f"{name} is deleted", [copy], wanted, told(copy, HOLES))
    judge.is_right("epochs without a beginning are gone", f"{device.address} 4 epoch 1: gone\n" in wanted, wanted)
    change(copied(file, copy), f"DELETE FROM items WHERE {epoch}2")
    checks(judge, "the last epoch may have no row", [copy], lines(copy))
    # Rows that lie over one another, and a gap that ends before it begins, are counted by no one.
    for name, last in (("over another", "last + 1"), ("back", "(id & 4294967295) - 1")):
        change(copied(file, copy), f"UPDATE items SET last = {last} WHERE last IS NOT NULL")
        judge.same(f"a gap that goes {name}", judge.ran(["check", copy]), no_use(copy, "some of its records overlap"))
    # That later numbers are gone can't be seen.
    change(copied(file, copy), f"DELETE FROM items WHERE {of_log.format(1)} AND id & 4294967295 > 290")
    checks(judge, "the last are deleted", [copy], lines(copy))
    foreign, absent, empty = (f"{judge.room}/{name}.db" for name in ("foreign", "absent", "empty"))
    change(foreign, "CREATE TABLE other (id INTEGER PRIMARY KEY)")
    judge.same("another's database", judge.ran(["check", foreign]), no_use(foreign, FOREIGN))
    judge.same("its tables stay", read(foreign, "SELECT name FROM sqlite_master"), [[("other",)]])
    judge.same("an absent file", judge.ran(["check", absent]), no_use(absent, "there is no such file"))
    judge.same("isn't made", os.path.exists(absent), False)
    open(empty, "wb").close()
    judge.same("an empty file", judge.ran(["check", empty]), no_use(empty, NOTHING))
    judge.same("stays empty", os.path.getsize(empty), 0)
    with contextlib.closing(sqlite3.connect(file, isolation_level=None)) as base:
        base.execute("BEGIN EXCLUSIVE")
        judge.same("a file in use", judge.ran(["check", file, "--wait=0"]), in_use(file))


def removed(file):
    """A file is gone, and the log beside it."""
    for end in ("", "-wal", "-shm"):
        if os.path.exists(file + end):
            os.remove(file + end)


def moved(file, to):
    copied(file, to)
    removed(file)


def three_parts(judge, name):
    """A folder with three parts; the device has three logs, the third without a record."""
    device, folder = begun(judge, name, 30)
    for more in (20, 10):
        judge.ran(["keep", folder, device.address])
        fill(f"{folder}/{names(folder)[-1]}")
        device.logs[1].log(more)
        device.logs[2].log(1)
        judge.ran(["keep", folder, *FULL])
    judge.same(f"{name}: its parts", names(folder), [f"00000{n}.db" for n in (1, 2, 3)])
    return device, folder


def checked_parts(judge, _runs):
    """A folder: whole, without a part, and with parts that don't join."""
    _device, folder = three_parts(judge, "joined")
    first, second, third = (f"{folder}/00000{n}.db" for n in (1, 2, 3))
    text = lines(together(folder, f"{judge.room}/merged.db"))
    judge.is_right("what is wanted of the parts", " 1 epoch 0: 1 to 60, 60 records, 0 gaps\n" in text and "missing" not in text, text)
    checks(judge, "three parts", [folder], text)
    checks(judge, "three parts behind a slash", [f"{folder}/"], text)
    checks(judge, "the first alone", [first], lines(first))
    # One that was begun, and has nothing yet.
    open(f"{folder}/000004.db", "wb").close()
    checks(judge, "a last one with nothing", [folder], text)
    removed(f"{folder}/000004.db")
    # The rows of a part that is gone are missing, and the next one goes on behind them.
    moved(second, f"{judge.room}/second.away")
    wanted = lines(together(folder, f"{judge.room}/merged.db"))
    # The third begins with three rows of the second.
    judge.is_right("they are missing", "\nmissing 31-47\n" in wanted, wanted)
    apart, missing = told(third, APART), told(folder, HOLES)
    checks(judge, "one in the middle is gone", [folder], wanted, told(second, "there is no such file") + apart + missing)
    open(second, "wb").close()
    checks(judge, "one in the middle has nothing", [folder], wanted, told(second, NOTHING) + apart + missing)
    removed(second)
    change(second, "CREATE TABLE other (id INTEGER PRIMARY KEY)")
    checks(judge, "one in the middle is another's", [folder], wanted, told(second, FOREIGN) + apart + missing)
    removed(second)
    moved(f"{judge.room}/second.away", second)
    # The oldest is moved away: what it had isn't there.
    moved(first, f"{judge.room}/first.away")
    wanted = lines(together(folder, f"{judge.room}/merged.db"))
    checks(judge, "the oldest is gone", [folder], wanted, missing)
    moved(f"{judge.room}/first.away", first)
    # The rows that a part took over are gone from it: no number is missing, but it doesn't go on.
    copied(third, f"{judge.room}/third.away")
    change(third, "DELETE FROM items WHERE id >> 47 = (SELECT id FROM logs WHERE instance = 1) AND id & 4294967295 <= 50")
    checks(judge, "a part without what it took over", [folder], text, told(third, APART))
    moved(f"{judge.room}/third.away", third)
    # A part stands twice: it has the newest rows of the part before it, and each of its rows is counted once.
    copied(third, f"{folder}/000004.db")
    checks(judge, "a part twice", [folder], text)
    removed(f"{folder}/000004.db")
    # One of before stands there: it doesn't have them.
    copied(first, f"{folder}/000004.db")
    checks(judge, "an old part", [folder], text, told(f"{folder}/000004.db", APART))
    removed(f"{folder}/000004.db")
    # A row in the middle of a part is gone.
    change(first, "DELETE FROM items WHERE id >> 47 = (SELECT id FROM logs WHERE instance = 1) AND id & 4294967295 = 5")
    wanted = lines(together(folder, f"{judge.room}/merged.db"))
    judge.is_right("it is missing in a part", "\nmissing 5-5\n" in wanted, wanted)
    checks(judge, "a part with a hole", [folder], wanted, missing)
    nothing = f"{judge.room}/nothing"
    os.mkdir(nothing)
    judge.same("an empty folder", judge.ran(["check", nothing]), no_use(nothing, NOTHING))
