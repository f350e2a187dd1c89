"""Numbers that come round, behind 4294967295, for kept.py; and a device with one log, for all cases."""
import datetime
import os
import signal
import sqlite3

from kept_devices import LAST, Device, Log, chance, serve


def one(room_for=50, way=None, count=0):
    """A device with one log, and the log."""
    device = Device([Log(1, room_for)], "one", way)
    device.logs[1].log(count)
    serve([device])
    return device, device.logs[1]


def said(device, records, gaps, end, way=""):
    shown = "1 record" if records == 1 else f"{records} records"
    return f"{device.address}{way} 1 {shown} {gaps} {'gap' if gaps == 1 else 'gaps'} {end}\n"


def why(device, instance, text, way=""):
    """A line of a log, on standard error: what is told while it is polled, or why that failed."""
    return f"{device.address}{way} {instance}: {text}\n"


def anew(device, instance=1, way=""):
    """That it began anew."""
    return why(device, instance, "began anew", way)


def dropped(device, first, last, instance=1, way=""):
    """That it dropped these records, or began anew: of a device that doesn't tell when it was started nobody knows."""
    return why(device, instance, f"dropped {first} to {last}, or began anew", way)


def alone(device, way=""):
    """The line of a device that tells neither its instance nor its name."""
    return f"{device.address}{way}: the device is known by its address alone\n"


def known_now(device):
    """That of one that was known by its name, and tells its instance."""
    return f"{device.address}: the device is known by its instance now\n"


def silent(device, instances=(1,), way=""):
    """The lines of a device that gave no answer, and had these logs on record."""
    left = "".join(f"{device.address}{way} {instance} not asked\n" for instance in instances)
    return f"{left}{device.address}{way}: no answer\n"


def whys_of(file):
    """Of each epoch where it begins, and why."""
    base = sqlite3.connect(file)
    rows = base.execute("SELECT epoch, beginning, why FROM epochs ORDER BY 1").fetchall()
    base.close()
    return rows


def epochs_of(file):
    """Of each epoch the first and the last number, and how many rows it has."""
    base = sqlite3.connect(file)
    rows = base.execute("SELECT (id >> 32) & 32767, min(id & 4294967295), max(ifnull(last, id & 4294967295)), count(*) FROM items GROUP BY 1 ORDER BY 1")
    found = rows.fetchall()
    base.close()
    return found


def rounds(judge, _runs):
    """Numbers come round: behind 4294967295 the next epoch begins at 1, and a gap over it is two rows."""
    device, log = one()
    file = f"{judge.room}/a.db"
    log.begin(LAST - 5)
    log.log(3)
    judge.same("before the round", judge.ran(["keep", file, device.address, "1"]), (0, said(device, 3, 0, f"caught up, next {LAST - 1}"), ""))
    log.log(4)
    judge.same("over the round", judge.ran(["keep", file]), (0, said(device, 4, 0, "caught up, next 3"), ""))
    judge.judge("over the round", file, [device], True)
    judge.same("two epochs", epochs_of(file), [(0, LAST - 4, LAST, 5), (1, 1, 2, 2)])
    judge.same("nothing new behind it", judge.ran(["keep", file]), (0, said(device, 0, 0, "caught up, next 3"), ""))
    log.begin(0)
    log.log(1)
    judge.same("it begins anew", judge.ran(["keep", file]), (0, said(device, 1, 0, "caught up, next 2"), anew(device)))
    judge.judge("it begins anew", file, [device], True)
    judge.same("a third epoch", epochs_of(file)[2], (2, 1, 1, 1))
    judge.same("why they began", whys_of(file), [(0, LAST - 4, None), (1, 1, "numbers came round"), (2, 1, "began anew")])
    # A run that ends at the last number, and one that goes on behind it.
    file = f"{judge.room}/b.db"
    log.begin(LAST - 5)
    log.log(5)
    judge.same("up to the last number", judge.ran(["keep", file, device.address, "1"])[:2], (0, said(device, 5, 0, "caught up, next 1")))
    judge.same("and again", judge.ran(["keep", file])[:2], (0, said(device, 0, 0, "caught up, next 1")))
    judge.judge("up to the last number", file, [device], True)
    log.log(6)
    judge.same("behind the last number", judge.ran(["keep", file]), (0, said(device, 6, 0, "caught up, next 7"), ""))
    judge.judge("behind the last number", file, [device], True)
    judge.same("it began at 1", epochs_of(file), [(0, LAST - 4, LAST, 5), (1, 1, 6, 6)])
    log.room_for = 4
    gaps = "SELECT epoch, first, last, doubtful FROM gaps ORDER BY epoch"
    # Only of a device that tells when it was started it is sure that the log didn't begin anew meanwhile.
    for device.restart in (None, datetime.datetime(2024, 1, 1)):
        for name, more, last, wanted in (("a gap over the round", 10, 4, [(0, LAST - 1, LAST), (1, 1, 4)]), ("a gap up to the round", 6, LAST, [(0, LAST - 1, LAST)]),
                                         ("a gap behind the round", 17, 11, [(0, LAST - 1, LAST), (1, 1, 11)])):
            name, file = f"{name}, {device.restart}", f"{judge.room}/{more} {device.restart}.db"
            log.begin(LAST - 5)
            log.log(3)
            judge.ran(["keep", file, device.address, "1"])
            log.log(more)
            told = "" if device.restart else dropped(device, LAST - 1, last)
            judge.same(name, judge.ran(["keep", file]), (0, said(device, 4, 1, f"caught up, next {log.total + 1}"), told))
            judge.judge(name, file, [device], True)
            base = sqlite3.connect(file)
            judge.same(f"{name}, its rows", base.execute(gaps).fetchall(), [(*row, not device.restart) for row in wanted])
            base.close()
            judge.same(f"{name}, why epochs began", whys_of(file), [(0, LAST - 4, None), (1, 1, "numbers came round")])
    # Ended before each call on files, a run over the round has kept all of a batch or nothing.
    log.room_for = 50
    for call in range(1, 100):
        file = f"{judge.room}/call.db"
        for end in ("", "-wal"):
            if os.path.exists(file + end):
                os.remove(file + end)
        log.begin(LAST - 5)
        log.log(3)
        judge.ran(["keep", file, device.address, "1"])
        log.log(chance.choice((4, 60)))
        status = judge.ended_at(call, ["keep", file])[0]
        judge.judge(f"over the round, ended at call {call}", file, [device])
        judge.same("and the next run", judge.ran(["keep", file])[0], 0)
        judge.judge("and the next run", file, [device], True)
        if status != -signal.SIGKILL:
            break
    judge.is_right("calls over the round", status == 0 and call > 5, f"status {status} at call {call}")
