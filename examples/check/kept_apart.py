"""One log of a run never stops another, for kept.py: of a log whose epochs are used up, and of devices that don't answer."""
import sqlite3
import time

from kept_devices import LAST, Device, Log, serve
from kept_rounds import anew, silent, why

# A run that waits once where nobody answers, as long as a busy machine may need where somebody does.
QUICK = ("--timeout=1000", "--retries=0")
USED_UP = "began anew once too often"


def line(device, instance, records, end, way=""):
    return f"{device.address}{way} {instance} {records} record{'s' * (records != 1)} 0 gaps {end}\n"


def left(device, *instances, way=""):
    """The lines of logs that weren't asked."""
    return "".join(f"{device.address}{way} {instance} not asked\n" for instance in instances)


def new_logs(*devices):
    """The lines of logs that came with the Object_Lists of devices."""
    return "".join(f"{device.place()} {instance} is new\n" for device in devices for instance in device.logs)


def timed(devices, run, *words):
    """What a run told; how long it took; and how long these devices were asked, from their first question to their last: how a busy
    machine begins and ends a run is none of that."""
    start = time.monotonic()
    told = run(*words)
    took = time.monotonic() - start
    moments = [moment for device in devices for moment in device.moments if moment > start]
    return told, took, max(moments) - min(moments)


def in_file(file, *statements):
    """The rows of the last of these statements."""
    base = sqlite3.connect(file)
    rows = [base.execute(statement).fetchall() for statement in statements][-1]
    base.commit()
    base.close()
    return rows


def in_last_epoch(file, log):
    """What is kept of a log's epoch 0 is moved to the last epoch that there is."""
    in_file(file, f"UPDATE items SET id = id + (32767 << 32) WHERE id >> 47 = {log}",
            f"UPDATE beginnings SET id = id + 32767 WHERE id >> 15 = {log}")


def items_of(file, log):
    return in_file(file, f"SELECT id, datum FROM items WHERE id >> 47 = {log} ORDER BY id")


def last_epoch(judge, _runs):
    """A log that has no further epoch ends with its own line, and the logs behind it are kept."""
    device = Device([Log(1, 400), Log(2, 50)], "two")
    first, second = device.logs.values()
    first.log(12)
    serve([device])
    file = f"{judge.room}/a.db"
    judge.ran(["keep", file, device.address, "1", "2"])
    in_last_epoch(file, 1)
    before = items_of(file, 1)
    for new in (3, 0):
        first.begin(0)
        first.log(5)
        second.log(new)
        judge.tells("it began anew", judge.ran(["keep", file]), 6,
                    anew(device), line(device, 1, 0, f"{USED_UP}, next 13"), line(device, 2, new, f"caught up, next {second.total + 1}"))
        judge.same("its rows stay", items_of(file, 1), before)
    # It goes on, and its numbers come round: what came before is kept.
    file = f"{judge.room}/b.db"
    first.begin(LAST - 150)
    first.log(10)
    judge.ran(["keep", file, device.address, "1", "2"])
    in_last_epoch(file, 1)
    first.log(200)
    second.log(2)
    status, out, errors = judge.ran(["keep", file])
    rows = items_of(file, 1)
    kept, last = len(rows) - 10, rows[-1][0] & LAST
    judge.is_right("some of it is kept", 10 <= kept < 140 and last == LAST - 140 + kept, (kept, last))
    judge.tells("its numbers came round", (status, out, errors), 6,
                line(device, 1, kept, f"{USED_UP}, next {last + 1}"), line(device, 2, 2, f"caught up, next {second.total + 1}"))
    # Its newest record has the last number that there is.
    file = f"{judge.room}/c.db"
    first.begin(LAST - 5)
    first.log(5)
    judge.ran(["keep", file, device.address, "1", "2"])
    in_file(file, "UPDATE items SET id = id + (32767 << 32) WHERE id >> 47 = 1",
            "DELETE FROM beginnings WHERE id = (1 << 15) + 1", "UPDATE beginnings SET id = id + 32767 WHERE id >> 15 = 1")
    before = items_of(file, 1)
    for new in (0, 3):
        first.log(new)
        second.log(new)
        judge.tells(f"at the last number, {new} new", judge.ran(["keep", file]), 6 if new else 0,
                    line(device, 1, 0, f"{USED_UP if new else 'caught up'}, next 1"), line(device, 2, new, f"caught up, next {second.total + 1}"))
        judge.same(f"at the last number, {new} new: its rows stay", items_of(file, 1), before)


def dead_devices(judge, _runs):
    """A device that doesn't answer is waited for once in a run; the logs of all others are kept."""
    dead, other = Device([Log(number, 400) for number in (1, 2, 3)], "dead"), Device([Log(1, 50)], "other")
    for number, log in dead.logs.items():
        log.log(number)
    serve([dead, other])
    file = f"{judge.room}/a.db"
    judge.ran(["keep", file, dead.address, "1", "2"])
    judge.ran(["keep", file, other.address, "1"])
    judge.ran(["keep", file, dead.address, "3"])
    rows = [items_of(file, log) for log in (1, 2, 4)]
    other.logs[1].log(2)
    dead.answers = 0
    before = dead.asked
    judge.tells("a dead device", judge.ran(["keep", file, "--timeout=1000", "--retries=2"]), 2,
                silent(dead, (1, 2, 3)), line(other, 1, 2, "caught up, next 3"))
    judge.same("is asked once", dead.asked - before, 3)
    judge.same("its rows stay", [items_of(file, log) for log in (1, 2, 4)], rows)
    judge.judge("a dead device", file, [dead, other])
    # The others are asked if the first one's fault is another: its log isn't there any more.
    dead.answers = None
    log = dead.logs.pop(1)
    judge.tells("a refusal is of one log", judge.ran(["keep", file]), 3,
                line(dead, 1, 0, "refused: error 2 32, next 2"), why(dead, 1, "unknown property"), line(dead, 2, 0, "caught up, next 3"),
                line(dead, 3, 0, "caught up, next 4"), line(other, 1, 0, "caught up, next 3"))
    dead.logs = {1: log, **dead.logs}
    # It answers once more: what came is kept; the next log is asked once, and then it isn't asked any more.
    for log in dead.logs.values():
        log.log(150)
    # Each of its replies shows the record that is known, too.
    dead.answers, dead.fits = 6, (45,)
    judge.tells("lost on the way", judge.ran(["keep", file, *QUICK]), 2, line(dead, 1, 132, "lost, next 134"), line(dead, 2, 0, "lost, next 3"),
                left(dead, 3), line(other, 1, 0, "caught up, next 3"))
    judge.judge("lost on the way", file, [dead, other])
    dead.answers = None
    judge.same("and the next run", judge.ran(["keep", file])[0], 0)
    judge.judge("and the next run", file, [dead, other], True)
    # A log that is never answered stops no other one of its device.
    file = f"{judge.room}/mute.db"
    judge.ran(["keep", file, dead.address])
    dead.unheard = {2}
    judge.tells("a log that isn't answered", judge.ran(["keep", file, *QUICK]), 2, line(dead, 1, 0, "caught up, next 152"),
                line(dead, 2, 0, "lost, next 153"), line(dead, 3, 0, "caught up, next 154"))
    dead.unheard = set()
    # The device and the logs that are named are on record at once, so each later run polls them, too.
    file = f"{judge.room}/b.db"
    dead.answers = 0
    for name, words in (("a first run", [dead.address, "3", "1", "2"]), ("a later one", [])):
        judge.tells(name, judge.ran(["keep", file, *words, *QUICK]), 2, silent(dead, (1, 2, 3)))
        judge.same(f"{name}: its device is on record", in_file(file, "SELECT address, instance, answered FROM devices"), [(dead.address, None, None)])
        judge.same(f"{name}: and each log", in_file(file, "SELECT instance FROM logs ORDER BY id"), [(3,), (1,), (2,)])
    dead.answers = None
    judge.same("it answers", judge.ran(["keep", file])[0], 0)
    judge.judge("it answers", file, [dead], True)
    dead.answers = 7
    judge.tells("dead in the midst of its list", judge.ran(["keep", f"{judge.room}/c.db", dead.address, *QUICK]), 2,
                f"{dead.address} didn't tell its Object_List: lost\n")
    # Two devices behind one router have one address.
    behind = Device([Log(1, 50)], "behind", (5, b"\x07"))
    behind.logs[1].log(4)
    serve([behind])
    file = f"{judge.room}/d.db"
    judge.ran(["keep", file, behind.address, "1", "--dnet=5", "--dadr=07"])
    in_file(file, "INSERT INTO devices (id, address, dnet, dadr, whole, stopped) SELECT 2, address, 5, '08', 0, 0 FROM devices",
            "INSERT INTO logs (id, device, instance, stopped) VALUES (2, 2, 1, 0)", "INSERT INTO logs (id, device, instance, stopped) VALUES (3, 2, 2, 0)")
    behind.logs[1].log(1)
    judge.tells("behind one router", judge.ran(["keep", file, *QUICK]), 2,
                silent(behind, (1, 2), "/5/08"), line(behind, 1, 1, "caught up, next 6", "/5/07"))


def dead_at_once(judge, _runs):
    """Devices that give no answer are waited for beside one another, each asked once."""
    dead, alive = [Device([Log(1, 50)], f"dead{n}") for n in range(5)], [Device([Log(1, 50), Log(2, 50)], f"alive{n}") for n in range(2)]
    all_of_them = [dead[0], alive[0], *dead[1:], alive[1]]
    serve(all_of_them)
    file = f"{judge.room}/a.db"
    for device in all_of_them:
        for log in device.logs.values():
            log.log(2)
    judge.ran(["keep", file, *[device.address for device in all_of_them]])
    for device in dead:
        device.answers = 0
    for device in alive:
        device.logs[2].log(3)
    asked = [device.asked for device in dead]
    ran, took, asking = timed(dead, judge.ran, ["keep", file, "--timeout=2000", "--retries=2"])
    told = [line(device, number, new, f"caught up, next {device.logs[number].total + 1}") for device in alive for number, new in ((1, 0), (2, 3))]
    judge.tells("they are silent, and the others kept", ran, 2, *told, *map(silent, dead))
    judge.same("each is asked as often as once", [device.asked - before for device, before in zip(dead, asked)], [3] * 5)
    # Each is asked at 0, 2 and 4 seconds; those of a second wait would be asked up to 10.
    judge.is_right("in one wait", took > 5.9 and asking < 9.5, (took, asking))
    judge.judge("beside dead devices", file, all_of_them)
    # One that is back is kept in the next run.
    dead[3].answers = None
    dead[3].logs[1].log(4)
    status, out, _ = judge.ran(["keep", file, *QUICK])
    judge.is_right("one is back", status == 2 and line(dead[3], 1, 4, "caught up, next 7") in out, (status, out))
    for device in dead:
        device.answers = None
    judge.same("all are back", judge.ran(["keep", file])[0], 0)
    judge.judge("all are back", file, all_of_them, True)
