"""What `bac kept` prints of dates, and of each log the newest record alone, for kept.py."""
import csv
import datetime
import io
import os
import shutil

from kept_apart import in_file
from kept_devices import Device, Log, serve
from kept_judge import no_use
from kept_parts import FULL, fill, names, together

LOGS = "SELECT l.id, d.address, l.instance, l.name, d.instance, l.stopped OR d.stopped, d.answered FROM logs l JOIN devices d ON d.id = l.device ORDER BY l.id"
ITEMS = "SELECT (id >> 32) & 32767, id & 4294967295, last, stamp, value, datum, flags FROM items WHERE id >> 47 = {} ORDER BY id"
WHYS = "SELECT id & 32767, why FROM beginnings WHERE id >> 15 = {}"
# The words, from which stamp on, and before which.
PERIODS = ((["--since=2026-11-30"], "2026-11-30", "~"), (["--until=2026-11-30"], "", "2026-11-30"), (["--since=2026-11-29", "--until=2026-12-01"], "2026-11-29", "2026-12-01"),
           (["--since=2026-11-30T08"], "2026-11-30T08", "~"), (["--since=2026-11-30T07:59:59.00", "--until=2026-11-30T08:00:01.00"], "2026-11-30T07:59:59.00", "2026-11-30T08:00:01.00"),
           (["--since=2026", "--until=2027"], "2026", "2027"), (["--since=2027"], "2027", "~"), (["--since=2026-12-01", "--until=2026-11-30"], "2026-12-01", "2026-11-30"))
COLUMNS = "address,device,trend_log,name,source,units,epoch,number,stamp,value,datum,flags"


def between(rows, since, before):
    """The records of these dates, and the gaps between two of them. One without a date is of none."""
    found, waiting = [], []
    for row in rows:
        if row[2] is not None:
            waiting.append(row)
        elif since <= row[3] < before and "*" not in row[3]:
            found += (waiting if found else []) + [row]
            waiting = []
    return found


def lines_of(file, since, before):
    """The lines of `kept` of a file, by what sqlite3 reads of it."""
    said = []
    for log, address, instance, _name, _device, stopped, _answered in in_file(file, LOGS):
        said.append(f"{address} {instance}{' stopped' * stopped}\n")
        whys, epoch = dict(in_file(file, WHYS.format(log))), None
        for at, number, last, stamp, _value, datum, flags in between(in_file(file, ITEMS.format(log)), since, before):
            said.append(f"{whys[at]}\n" if epoch not in (None, at) else "")
            said.append(f"gap {number} {last}{f' {datum}' if datum else ''}\n" if last else f"{number} {stamp} {datum} {flags}\n")
            epoch = at
    return "".join(said)


def grown(judge, words):
    """A device whose first log has records of several days, a gap and another epoch, whose second has none, and whose third has a
    record without a date, which are kept."""
    device = Device([Log(1, 500, datetime.datetime(2026, 11, 28, 23, 59, 57)), Log(2, 50), Log(3, 50, datetime.datetime(2026, 11, 29, 12))], "dates")
    serve([device])
    log, _, other = device.logs.values()
    log.log(4)
    judge.ran(["keep", *words, device.address])
    log.log(3)
    log.purge()
    log.clock = datetime.datetime(2026, 11, 30, 7, 59, 58)
    log.log(4)
    other.log(3)
    judge.ran(["keep", *words])
    log.begin(0)
    log.clock = datetime.datetime(2026, 12, 1)
    log.log(2)
    judge.ran(["keep", *words])
    return device


def dates(judge, _runs):
    """Records of dates, in lines and as CSV, and the gaps between them."""
    file = f"{judge.room}/a.db"
    device = grown(judge, [file])
    in_file(file, "UPDATE items SET stamp = '*-11-30T*:00:00.00' WHERE id >> 47 = 3 AND id & 4294967295 = 2")
    judge.is_right("there is a gap, and another epoch", "gap 5 7 or began anew\n" in lines_of(file, "", "~") and "\nbegan anew\n" in lines_of(file, "", "~"))
    for words, since, before in PERIODS:
        text = lines_of(file, since, before)
        judge.same(f"{words}", judge.ran(["kept", file, *words]), (0, text, ""))
        records = [line.split(" ")[:2] for line in text.splitlines() if line[:4] != "127." and line[:5] != "began"]
        table = list(csv.reader(io.StringIO(judge.ran(["kept", file, "--csv", *words])[1], newline="")))
        judge.same(f"{words}: the names of columns", ",".join(table[0]), COLUMNS)
        judge.same(f"{words}: CSV", [["gap", row[7]] if row[10].startswith("gap ") else [row[7], row[8]] for row in table[1:]], records)
    words = PERIODS[2][0]
    whole = judge.ran(["kept", file, *words])[1].splitlines()
    judge.same("of one log", judge.ran(["kept", file, device.address, "1", *words]),
               (0, "".join(f"{line}\n" for line in whole[1 : whole.index(f"{device.address} 2")]), ""))
    judge.same("of a log that isn't kept", judge.ran(["kept", file, device.address, "9", *words]), no_use(file, "it has no such trend log"))
    for wrong, word in ((["--since=26"], "--since"), (["--until=2026-1x"], "--until"), (["--since="], "--since")):
        status, out, errors = judge.ran(["kept", file, *wrong])
        judge.is_right(f"{wrong}", (status, out) == (1, "") and errors.startswith(f"bad value\n{word}: "), (status, out, errors))
    dates_in_parts(judge)


def dates_in_parts(judge):
    """Of a folder the parts are printed behind one another; a gap between two of them stands where its row is."""
    folder = f"{judge.room}/plant"
    os.mkdir(folder)
    device = grown(judge, [folder])
    fill(f"{folder}/000001.db")
    device.logs[1].log(5)
    judge.ran(["keep", folder, *FULL])
    device.logs[1].clock = datetime.datetime(2026, 12, 2)
    device.logs[1].log(3)
    judge.ran(["keep", folder])
    judge.same("two parts", names(folder), ["000001.db", "000002.db"])
    merged = together(folder, f"{judge.room}/merged.db")
    for words, *_ in PERIODS:
        for log in (1, 2, 3):
            named = [device.address, str(log)]
            judge.same(f"parts, {words}, log {log}", judge.ran(["kept", folder, *named, *words]), judge.ran(["kept", merged, *named, *words]))


def newest_of(file, last=None):
    """The lines of `kept --last`, and its rows, by what sqlite3 reads."""
    said, table = [], []
    for log, address, instance, name, device, stopped, answered in in_file(file, LOGS):
        if stopped:
            continue
        rows = [row for row in in_file(file, ITEMS.format(log)) if row[2] is None]
        silence = "" if last is None else "never answered" if answered is None else answered if answered < last else ""
        text = f"{rows[-1][1]} {rows[-1][3]} {rows[-1][5]}" if rows else "no record"
        said.append(f"{address} {instance} {text}{f' silent since {silence}' if silence and answered else f' {silence}' if silence else ''}\n")
        cells = [str(cell) for cell in (rows[-1][0], rows[-1][1], rows[-1][3])] if rows else [""] * 3
        table.append([address, str(device or ""), str(instance), name or "", *cells, rows[-1][5] if rows else "", silence])
    return "".join(said), table


def last_records(judge, _runs):
    """The newest record of each log that isn't stopped, in lines and as CSV, of a file and of parts; and which devices are silent."""
    file = f"{judge.room}/a.db"
    device = grown(judge, [file])

    def is_told(name, last=None):
        text, table = newest_of(file, last)
        judge.same(name, judge.ran(["kept", file, "--last"]), (0, text, ""))
        rows = list(csv.reader(io.StringIO(judge.ran(["kept", file, "--last", "--csv"])[1], newline="")))
        judge.same(f"{name}: the names of columns", ",".join(rows[0]), f"{COLUMNS},silent_since")
        judge.same(f"{name}: CSV", [[*row[:4], *row[6:9], row[10], row[12]] for row in rows[1:]], table)

    is_told("three logs, one without a record")
    judge.same("one log", judge.ran(["kept", file, device.address, "1", "--last"]), (0, newest_of(file)[0].splitlines(True)[0], ""))
    judge.same("one that isn't kept", judge.ran(["kept", file, device.address, "9", "--last"]), no_use(file, "it has no such trend log"))
    status, out, errors = judge.ran(["kept", file, "--last", "--since=2026"])
    judge.is_right("beside dates", (status, out) == (1, "") and errors.startswith("bad value\n--last: "), (status, out, errors))
    # A device that never answered, and one whose last answer lies in an hour before.
    dead, old = Device([Log(1, 50)], "dead"), Device([Log(1, 50)], "old")
    serve([dead, old])
    old.logs[1].log(1)
    dead.answers = 0
    judge.ran(["keep", file, old.address, "1", dead.address, "1", "--timeout=1000", "--retries=0"])
    for last, then, silent in (("2026-11-30T10:20:00.00", "2026-11-30T10:00:00.00", False), ("2026-11-30T10:20:00.00", "2026-11-30T09:00:00.00", False),
                               ("2026-11-30T10:20:00.00", "2026-11-30T08:59:59.00", True), ("2026-11-30T00:20:00.00", "2026-11-29T23:10:00.00", False),
                               ("2026-11-30T00:20:00.00", "2026-11-29T22:59:00.00", True), ("2026-11-30T00:20:00.00", "2026-11-24T23:10:00.00", True)):
        in_file(file, f"UPDATE devices SET answered = '{last}' WHERE answered IS NOT NULL", f"UPDATE devices SET answered = '{then}' WHERE address = '{old.address}'")
        is_told(f"answered at {then}, and another at {last}", last if silent else then if then < last else last)
    judge.ran(["keep", file, "--stop", device.address, "3"])
    is_told("one is stopped", last)
    # Of parts, also where the newest one has nothing of a log but what it follows on, or not even that.
    folder = f"{judge.room}/plant"
    os.mkdir(folder)
    shutil.copyfile(file, f"{folder}/000001.db")
    fill(f"{folder}/000001.db")
    device.logs[2].log(1)
    judge.ran(["keep", folder, *FULL, "--timeout=1000", "--retries=0"])
    judge.same("two parts", names(folder), ["000001.db", "000002.db"])
    file = together(folder, f"{judge.room}/merged.db")
    judge.same("of parts", judge.ran(["kept", folder, "--last"]), judge.ran(["kept", file, "--last"]))
