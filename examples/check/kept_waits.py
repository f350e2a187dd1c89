"""Cases of files that another program has open, for kept.py: they are waited for, as long as `--wait` says."""
import contextlib
import os
import sqlite3
import threading
import time

from kept_devices import Device, Log, serve
from kept_judge import in_use
from kept_rounds import one, said

# How long another program has a file, in seconds.
HELD = 1.5


@contextlib.contextmanager
def held(file, statement, seconds=None):
    """Another program has a file open: to write it, or amid what it reads. It closes it behind so many seconds."""
    base = sqlite3.connect(file, isolation_level=None, check_same_thread=False)
    rows = base.execute(statement)
    if statement.startswith("SELECT"):
        rows.fetchone()

    def close():
        # What isn't read to its end holds its lock, also behind the close of the connection.
        rows.close()
        base.close()

    closing = threading.Timer(seconds, close) if seconds else None
    if closing:
        closing.start()
    try:
        yield
    finally:
        (closing.join if closing else close)()


WRITES, READS = "BEGIN EXCLUSIVE", "SELECT * FROM items"


def timed(judge, words):
    """What a run told, and how long it took."""
    start = time.monotonic()
    told = judge.ran(words)
    return told, time.monotonic() - start


def waits(judge, name, words, wanted):
    """A run waits until the other program has closed the file, and no longer, and then does its work."""
    told, took = timed(judge, words)
    judge.same(name, told, wanted)
    judge.is_right(f"{name}: waits", HELD - 0.2 <= took < HELD + 8, took)


def gives_up(judge, name, words, wanted, least, most):
    """A run waits so long, and then ends."""
    told, took = timed(judge, words)
    judge.same(name, told, wanted)
    judge.is_right(f"{name}: how long", least <= took < most, took)


def waited(judge, _runs):
    """Each tool that opens a file waits for it: `keep`, also with a device, with --stop and with --quiet; `kept`; `check`."""
    device, log = one(count=3)
    file = f"{judge.room}/a.db"
    judge.ran(["keep", file, device.address, "1"])
    for name, statement in (("another that writes", WRITES), ("another that reads", READS)):
        log.log(2)
        with held(file, statement, HELD):
            waits(judge, f"keep beside {name}", ["keep", file], (0, said(device, 2, 0, f"caught up, next {log.total + 1}"), ""))
        with held(file, statement, HELD):
            waits(judge, f"keep of a device beside {name}", ["keep", file, device.address, "1", "--wait=20"],
                  (0, said(device, 0, 0, f"caught up, next {log.total + 1}"), ""))
        printed, found = judge.ran(["kept", file]), judge.ran(["check", file])
        with held(file, statement, HELD):
            waits(judge, f"kept beside {name}", ["kept", file], printed)
        with held(file, statement, HELD):
            waits(judge, f"check beside {name}", ["check", file], found)
        judge.judge(f"beside {name}", file, [device], True)
    with held(file, WRITES, HELD):
        waits(judge, "nothing is printed", ["keep", file, "-q"], (0, "", ""))
    with held(file, WRITES, HELD):
        waits(judge, "a log is stopped", ["keep", file, "--stop", device.address, "1"], (0, f"{device.address} 1 stopped\n", ""))


def waited_in_vain(judge, _runs):
    """A file that stays in use ends the run with 7: at once, or behind the wait. Nothing is printed, sent or written."""
    device, log = one(count=3)
    file = f"{judge.room}/a.db"
    judge.ran(["keep", file, device.address, "1"])
    log.log(2)
    before, beside, asked = open(file, "rb").read(), os.path.getsize(f"{file}-wal"), device.asked
    for statement in (WRITES, READS):
        with held(file, statement):
            for words in (["keep", file], ["keep", file, device.address], ["keep", file, "--stop", device.address], ["kept", file], ["check", file]):
                name = " ".join([words[0], *words[2:]])
                gives_up(judge, f"{name} at once", [*words, "--wait=0"], in_use(file), 0, 3)
                gives_up(judge, f"{name} behind a second", [*words, "--wait=1"], in_use(file), 0.9, 8)
    gives_up(judge, "one that is free isn't waited for", ["check", file, "--wait=3600"], judge.ran(["check", file, "--wait=0"]), 0, 8)
    judge.same("the file is as it was", open(file, "rb").read() == before, True)
    judge.same("the device wasn't asked", device.asked, asked)
    # (the other program may have taken it away, or begun one)
    judge.is_right("the log beside it hasn't grown", not os.path.exists(f"{file}-wal") or os.path.getsize(f"{file}-wal") <= beside, beside)


def waited_for_parts(judge, _runs):
    """So it is with the parts of a folder: the newest one, and the one before a part that is begun."""
    device = Device([Log(1, 50)], "waited")
    serve([device])
    folder = f"{judge.room}/plant"
    os.mkdir(folder)
    log = device.logs[1]
    log.log(3)
    judge.ran(["keep", folder, device.address, "1"])
    first, second = f"{folder}/000001.db", f"{folder}/000002.db"
    log.log(2)
    with held(first, WRITES, HELD):
        waits(judge, "the newest part", ["keep", folder], (0, said(device, 2, 0, "caught up, next 6"), ""))
    open(second, "wb").close()
    log.log(2)
    with held(first, WRITES):
        gives_up(judge, "the one before stays in use", ["keep", folder, "--wait=1"], in_use(first), 0.9, 8)
    with held(first, WRITES, HELD):
        waits(judge, "the one before", ["keep", folder], (0, said(device, 2, 0, "caught up, next 8"), ""))
    printed = judge.ran(["kept", folder])
    with held(first, WRITES, HELD):
        waits(judge, "kept of a folder", ["kept", folder], printed)
