"""Clocks that are set back, logs that hold nothing any more, and which questions a run asks, for kept.py."""
import datetime
import sqlite3

from kept_devices import LAST, context
from kept_rounds import anew, dropped, one, said, why, whys_of

HOUR = datetime.timedelta(hours=1)
EITHER = "began anew, or dropped records"


def either_line(device, instance=1):
    """That it began anew, or went on and dropped what isn't held: both are kept."""
    return why(device, instance, EITHER)


def gaps_of(file):
    base = sqlite3.connect(file)
    rows = base.execute("SELECT epoch, first, last FROM gaps ORDER BY epoch, first").fetchall()
    base.close()
    return rows


def doubts_of(file):
    """Those of the gaps that may be none."""
    base = sqlite3.connect(file)
    rows = base.execute("SELECT epoch, first, last FROM gaps WHERE doubtful ORDER BY epoch, first").fetchall()
    base.close()
    return rows


def back(judge, name, begin, more, records, end, wanted):
    """A log whose clock is set back, and that logs so many more, is kept as one that went on and as one that began anew."""
    device, log = one()
    file = f"{judge.room}/{begin}.{more}.db"
    log.begin(begin)
    log.log(40)
    judge.ran(["keep", file, device.address, "1"])
    log.clock -= HOUR
    log.log(more)
    # One over the last number is two rows.
    gaps = len(wanted) - any(row[2] == LAST for row in wanted)
    judge.tells(name, judge.ran(["keep", file]), 0, either_line(device), said(device, records, gaps, end))
    judge.judge(name, file, [device], True)
    judge.same(f"{name}: its gaps", gaps_of(file), wanted)
    judge.same(f"{name}: none of them may be none", doubts_of(file), [])
    judge.same(f"{name}: why the last epoch began", whys_of(file)[-1], (wanted[-1][0], 1, EITHER))
    judge.same(f"{name}, again", judge.ran(["keep", file]), (0, said(device, 0, 0, end), ""))
    log.log(2)
    judge.same(f"{name}, and more", judge.ran(["keep", file])[::2], (0, ""))
    judge.judge(f"{name}, and more", file, [device], True)


def other_flags(judge):
    """The last record is held with other status flags: it is another one."""
    device, log = one(count=9)
    file = f"{judge.room}/flags.db"
    judge.ran(["keep", file, device.address, "1"])
    octets, (stamp, value, text, shown) = log.held[9], log.lives[-1][9]
    front = octets if shown == "-" else octets[:-3]
    log.begin(8)
    log.total, log.held = 9, {9: front + context(2, b"\x04\x20")}
    log.lives[-1][9] = (stamp, value, text, "0010")
    judge.tells("other flags", judge.ran(["keep", file]), 0, anew(device), said(device, 1, 1, "caught up, next 10"))
    judge.judge("other flags", file, [device], True)


def purged(judge):
    """A log that holds nothing goes on, unless it counts fewer than were kept; then it begins anew, without records, and what its
    count tells is a gap. One that refuses its count shows no record."""
    for name, count, uncounted, is_anew in (("as many", None, False, False), ("no count", 5, True, False), ("fewer", 5, False, True)):
        device, log = one(count=20)
        file = f"{judge.room}/{name}.db"
        judge.ran(["keep", file, device.address, "1"])
        if count is not None:
            log.begin(0)
            log.log(count)
        log.purge()
        device.uncounted = {1} if uncounted else set()
        status, end = (3, "shows no record, and refuses its count") if uncounted else (0, "caught up")
        after = f"{end}, next {6 if is_anew else 21}"
        judge.tells(f"nothing is held: {name}", judge.ran(["keep", file]), status, anew(device) if is_anew else "", said(device, 0, int(is_anew), after))
        judge.tells(f"and again: {name}", judge.ran(["keep", file]), status, said(device, 0, 0, after))
    judge.same("what was purged is a gap", gaps_of(file), [(1, 1, 5)])
    log.log(3)
    # No record is known that it could show, and when it was started its device doesn't tell.
    judge.tells("behind a beginning without records", judge.ran(["keep", file]), 0, why(device, 1, "goes on at 6, or began anew"), said(device, 3, 0, "caught up, next 9"))
    judge.judge("behind a beginning without records", file, [device], True)
    judge.same("and it stays one", gaps_of(file), [(1, 1, 5)])


def clocks(judge, _runs):
    """A clock that goes back, as each October; other flags; and logs that hold nothing any more."""
    back(judge, "an hour back, and the last record is gone", 0, 70, 50, "caught up, next 111", [(0, 41, 60), (1, 1, 60)])
    back(judge, "half of the numbers ahead", 3000000000, 70, 50, "caught up, next 3000000111", [(0, 3000000041, 3000000060), (1, 1, 3000000060)])
    back(judge, "over the round", LAST - 60, 100, 50, "caught up, next 81", [(0, LAST - 19, LAST), (1, 1, 30), (2, 1, 30)])
    # It is still held: nothing is in doubt.
    device, log = one(count=30)
    file = f"{judge.room}/held.db"
    judge.ran(["keep", file, device.address, "1"])
    log.clock -= HOUR
    log.log(20)
    judge.same("an hour back, and the last record is held", judge.ran(["keep", file]), (0, said(device, 20, 0, "caught up, next 51"), ""))
    # Of dates that go on nobody knows whether it began anew meanwhile: its device doesn't tell when it was started.
    log.log(70)
    judge.tells("dates that go on", judge.ran(["keep", file]), 0, dropped(device, 51, 70), said(device, 50, 1, "caught up, next 121"))
    judge.judge("dates that go on", file, [device], True)
    judge.same("dates that go on: the gap may be none", doubts_of(file), [(0, 51, 70)])
    other_flags(judge)
    purged(judge)


def questions(judge, _runs):
    """What lies behind the last record is asked for from the first known one on, so each reply shows that; a reply that ends with the
    last one tells that there is no more. Nothing is asked for twice. Nothing new is one question, and what fits one reply two."""
    device, log = one(room_for=400, count=20)
    device.fits = (45,)
    file = f"{judge.room}/a.db"
    judge.ran(["keep", file, device.address, "1"])
    # Three records are known, and the first of them is asked for.
    for name, more, wanted in (("nothing new", 0, [18]), ("one record", 1, [18, 21]), ("and nothing", 0, [19])):
        log.log(more)
        device.questions.clear()
        before = device.asked
        judge.same(f"{name} is kept", judge.ran(["keep", file]), (0, said(device, more, 0, f"caught up, next {log.total + 1}"), ""))
        # Three questions more are for what the device says of itself.
        judge.same(f"{name}: what is asked", (device.questions, device.asked - before), (wanted, len(wanted) + 3))
    # An answer that doesn't come leaves what was kept before it.
    log.log(60)
    for answers in range(5):
        device.answers = answers
        status, out, errors = judge.ran(["keep", file, "--timeout=1000", "--retries=0"])
        judge.is_right(f"lost behind {answers}", (status, out) == (2, "") and " next " in errors if answers > 3 else (status, out) == (2, ""), (status, out, errors))
        judge.judge(f"lost behind {answers}", file, [device])
    device.answers = None
    judge.same("and all of it", judge.ran(["keep", file])[::2], (0, ""))
    judge.judge("and all of it", file, [device], True)
