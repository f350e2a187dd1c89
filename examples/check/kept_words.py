"""What a device says of itself, for kept.py: its instance, when it was started, and how often its objects changed."""
import collections
import datetime
import signal

from kept_apart import in_file, line, new_logs
from kept_clocks import HOUR, doubts_of, either_line, gaps_of
from kept_devices import Device, Log, serve
from kept_rounds import alone, anew, dropped, one, said, silent, why

MORNING = datetime.datetime(2024, 5, 6, 7, 8, 9)
LONG = b"\x65\xc8" + bytes(range(200))
# What a device is asked of itself in a run; in its first one of a day also for its clock, which it refuses.
ONCE = {75: 1, 203: 1, 155: 1}
FIRST = {**ONCE, 56: 1}
BEGINNINGS = "SELECT number, why FROM beginnings ORDER BY id"
ROWS = "SELECT d.instance, l.restart, l.revision FROM logs l JOIN devices d ON d.id = l.device ORDER BY l.id"


def told(device, restart, revision):
    """Its start and its revision are these from now on."""
    device.restart, device.revision = restart, revision


def asked_once(judge, name, words, device, end, row, questions=None):
    """A run ends so, asks the device what it says of itself so often, and leaves this in each row of its logs."""
    device.said.clear()
    judge.tells(name, judge.ran(words), 0, end)
    judge.same(f"{name}: what it is asked", device.said, collections.Counter(questions or ONCE))
    judge.same(f"{name}: what is on record", set(in_file(words[1], ROWS)), {row})


def own_words(judge, _runs):
    """Each device is asked once in a run, and what it says stands in the rows of its logs. What it doesn't tell any more stays."""
    device = Device([Log(number, 50) for number in (1, 2, 3)], "talks")
    for number, log in device.logs.items():
        log.log(number)
    serve([device])
    file, number = f"{judge.room}/a.db", device.number
    told(device, MORNING, 7)
    texts = [line(device, at, at, f"caught up, next {at + 1}") for at in (1, 2, 3)]
    stamp, later = "2ea47c050601b4070809002f", "2ea47c050601b4080809002f"
    asked_once(judge, "a new device", ["keep", file, device.address], device, new_logs(device) + "".join(texts), (number, stamp, 7), FIRST)
    nothing = "".join(line(device, at, 0, f"caught up, next {at + 1}") for at in (1, 2, 3))
    asked_once(judge, "nothing new", ["keep", file], device, nothing, (number, stamp, 7))
    for name, restart, revision, row in (
        ("a later start", MORNING + HOUR, 7, (later, 7)), ("a time alone", b"\x0c\x07\x08\x09\x0a", 8, ("0c0708090a", 8)),
        # One of which a part isn't specified, and a revision that is no number, are none.
        ("a start with an open part", b"\x19\xff", 0, ("0c0708090a", 0)), ("no start", None, 4294967295, ("0c0708090a", 4294967295)),
        ("no revision", b"\x19\x01", None, ("1901", 4294967295)), ("a revision that is no number", b"\x19\x01", b"\x44\x3f\x80\x00\x00", ("1901", 4294967295)),
        ("a long start", LONG, 1, (LONG.hex(), 1)), ("a start that can't be read", b"\x2e\x01", 1, (LONG.hex(), 1)),
        ("neither", None, None, (LONG.hex(), 1)), ("both again", MORNING, 9, (stamp, 9))):
        told(device, restart, revision)
        for log in device.logs.values():
            log.log(1)
        new = "".join(line(device, at, 1, f"caught up, next {log.total + 1}") for at, log in device.logs.items())
        asked_once(judge, name, ["keep", file], device, new, (number, *row))
    # So does the word by which a log was found at its place, with nothing new.
    told(device, MORNING + HOUR, 10)
    nothing = "".join(line(device, at, 0, f"caught up, next {log.total + 1}") for at, log in device.logs.items())
    asked_once(judge, "another start, and nothing new", ["keep", file], device, nothing, (number, later, 10))
    judge.judge("what it says of itself", file, [device], True)
    unnamed(judge, device)


def unnamed(judge, device):
    """One that doesn't tell its instance, since it refuses or since the wildcard is no instance, is asked who it is by a Who-Is,
    and then for its name; one that tells neither is known by its address. It is asked for the rest all the same."""
    number, word = device.number, device.word()
    texts = "".join(line(device, at, log.total, f"caught up, next {log.total + 1}") for at, log in device.logs.items() if at < 3)
    nothing = "".join(line(device, at, 0, f"caught up, next {device.logs[at].total + 1}") for at in (1, 2))
    whose = "SELECT instance, name FROM devices"
    for name, told_number, device.i_am, device.title, row, asked in (
            ("refuses", None, None, None, (None, None), {8: 2, 77: 1}), ("wildcard", 4194303, None, None, (None, None), {8: 2, 77: 1}),
            ("an I-Am", None, number, None, (number, None), {8: 1}), ("a name", None, None, b"\x00plant", (None, "plant"), {8: 2, 77: 1})):
        device.number, file = told_number, f"{judge.room}/{name}.db"
        quick = ("--timeout=1000", "--retries=1")
        by_address = alone(device) if row == (None, None) else ""
        asked_once(judge, name, ["keep", file, device.address, "1", "2", *quick], device, by_address + texts, (row[0], *word), {**FIRST, **asked})
        judge.same(f"{name}: how it is known", in_file(file, whose), [row])
        asked_once(judge, f"{name}, again", ["keep", file, *quick], device, by_address + nothing, (row[0], *word), {**ONCE, **asked})
    device.number, device.i_am, device.title = number, None, None


# When what is dropped is dated: an hour before the last kept record, right behind it, or behind the start that is told.
BACK, ON, LATER = range(3)
# What it comes to: a gap; one that may be none; both, what went on and what began anew.
GAP, DOUBT, BOTH = range(3)
# What is on record of start and revision, what is told then, when what is dropped is dated, and what it comes to.
RULE = (((1, 1), (1, 1), BACK, BOTH), ((1, 1), (1, 1), ON, GAP), ((1, 1), (1, 1), LATER, GAP), ((1, 1), (2, 1), ON, DOUBT), ((1, 1), (2, 1), LATER, BOTH),
        ((1, 1), (1, 2), ON, DOUBT), ((1, 1), (1, 2), LATER, BOTH), ((1, 1), (2, 2), BACK, BOTH), ((1, 0), (1, 0), BACK, BOTH), ((1, 0), (1, 0), ON, GAP),
        ((1, 0), (2, 0), ON, DOUBT), ((1, 0), (2, 0), LATER, BOTH), ((0, 1), (0, 2), ON, BOTH), ((0, 1), (0, 1), BACK, BOTH), ((0, 1), (0, 1), ON, DOUBT),
        ((1, 1), (0, 1), BACK, BOTH), ((1, 1), (0, 1), ON, BOTH), ((1, 1), (0, 2), ON, BOTH), ((0, 1), (1, 1), BACK, BOTH), ((0, 1), (1, 1), ON, DOUBT),
        ((0, 0), (1, 1), ON, DOUBT), ((0, 0), (1, 1), LATER, DOUBT), ((0, 0), (1, 1), BACK, BOTH), ((0, 0), (0, 0), ON, DOUBT), ((1, 1), (0, 0), ON, BOTH))


def as_told(pair):
    return MORNING + pair[0] * HOUR if pair[0] else None, pair[1] or None


def own_rule(judge, _runs):
    """Where the last kept record isn't held and later ones are, the device's own word and the dates decide."""
    for at, (kept, now, when, outcome) in enumerate(RULE):
        device, log = one(count=40)
        name, file = f"{kept} and then {now}, {('an hour back', 'on', 'later')[when]}", f"{judge.room}/{at}.db"
        told(device, *as_told(kept))
        judge.same(f"{name}: kept", judge.ran(["keep", file, device.address, "1"]), (0, said(device, 40, 0, "caught up, next 41"), ""))
        told(device, *as_told(now))
        log.clock = {BACK: log.clock - HOUR, ON: log.clock, LATER: MORNING + 5 * HOUR}[when]
        log.log(70)
        lines = {GAP: "", DOUBT: dropped(device, 41, 60), BOTH: either_line(device)}[outcome]
        judge.tells(name, judge.ran(["keep", file]), 0, said(device, 50, 2 if outcome == BOTH else 1, "caught up, next 111"), lines)
        judge.judge(name, file, [device], True)
        judge.same(f"{name}: its gaps", gaps_of(file), [(0, 41, 60), (1, 1, 60)] if outcome == BOTH else [(0, 41, 60)])
        judge.same(f"{name}: what may be none", doubts_of(file), [(0, 41, 60)] if outcome == DOUBT else [])
        judge.same(f"{name}: on record", in_file(file, ROWS), [(device.number, *device.word())])
    # With a word on record, too, dates that go back are of either.
    told(device, *as_told((1, 1)))
    log.log(1)
    judge.same("both are told", judge.ran(["keep", file])[::2], (0, ""))
    log.clock -= HOUR
    log.log(70)
    judge.tells("and then an hour back", judge.ran(["keep", file]), 0, said(device, 50, 2, "caught up, next 182"), either_line(device))
    judge.judge("and then an hour back", file, [device], True)


def own_lives(judge, _runs):
    """A log that began anew, counted past the last kept number and dropped it, with later dates, is seen by that word."""
    for name, before, more, wanted in (("a life that is dropped", 40, 110, [(0, 41, 60), (1, 1, 60)]), ("no gap between", 60, 110, [(1, 1, 60)]),
                                       ("the last record is another", 61, 110, [(1, 1, 60)])):
        device, log = one(count=before)
        file = f"{judge.room}/{before}.db"
        told(device, MORNING, 1)
        judge.ran(["keep", file, device.address, "1"])
        told(device, MORNING + HOUR, 1)
        log.begin(0)
        # What it logs since comes behind that start.
        log.clock = MORNING + HOUR
        log.log(more)
        either = either_line(device) if before <= 60 else anew(device)
        judge.tells(name, judge.ran(["keep", file]), 0, said(device, 50, len(wanted), "caught up, next 111"), either)
        judge.judge(name, file, [device], True)
        judge.same(f"{name}: its gaps", gaps_of(file), wanted)
        judge.same(f"{name}, again", judge.ran(["keep", file]), (0, said(device, 0, 0, "caught up, next 111"), ""))
    # A device that was started and whose log holds the last record goes on.
    told(device, MORNING, 1)
    log.log(20)
    judge.same("started, and still held", judge.ran(["keep", file]), (0, said(device, 20, 0, "caught up, next 131"), ""))
    judge.judge("started, and still held", file, [device], True)


def first_answers(judge, _runs):
    """The row of a log that is named comes with the first run, and what its device tells with its answers."""
    device, log = one(count=9)
    told(device, MORNING, 1)
    file = f"{judge.room}/none.db"
    refused = line(device, 99, 0, "refused: error 2 32, next 1") + why(device, 99, "unknown property")
    for name in ("a log that isn't there", "and again"):
        judge.tells(name, judge.ran(["keep", file, device.address, "99"]), 3, refused)
        judge.same(f"{name}: its row", in_file(file, ROWS), [(device.number, *device.word())])
        # Nor does it tell how many records it logged.
        judge.same(f"{name}: no record, and where it begins", (in_file(file, "SELECT id FROM items"), in_file(file, BEGINNINGS)), ([], [(1, "counted")]))
    judge.tells("beside one that is", judge.ran(["keep", file, device.address, "99", "1"]), 3, line(device, 1, 9, "caught up, next 10"), refused)
    judge.same("which has a row", in_file(file, "SELECT instance, name FROM logs ORDER BY id"), [(99, None), (1, None)])
    judge.tells("and both from then on", judge.ran(["keep", file]), 3, line(device, 1, 0, "caught up, next 10"), refused)
    # It is stopped, and the other one goes on alone.
    judge.ran(["keep", file, "--stop", device.address, "99"])
    judge.tells("and alone from then on", judge.ran(["keep", file]), 0, line(device, 1, 0, "caught up, next 10"))
    # It dies behind each of its answers: what it says of itself, how many records were logged, and then the log's own.
    before, seen = 0, []
    for answers in range(20):
        device.answers, file = answers, f"{judge.room}/{answers}.db"
        ran = judge.ran(["keep", file, device.address, "1", "--timeout=1000", "--retries=0"])
        seen.append((in_file(file, ROWS), in_file(file, BEGINNINGS), bool(in_file(file, "SELECT id FROM items"))))
        if ran[0] == 0:
            break
        # Its instance, its start, its revision and its clock come before the first question for its log, and so do its log's name,
        # description, source and units. Behind one that isn't answered the next one is asked once: behind the last of these that is
        # one for its log, and behind its source, since the units and the description are of that.
        is_silent = answers < 7 and answers != 5
        lost = silent(device) if is_silent else f"{device.address} 1 "
        judge.is_right(f"dead behind {answers} answers, its line", ran[:2] == (2, "") and (ran[2] == lost if is_silent else
                       ran[2].startswith(lost) and " lost, next " in ran[2]), ran)
        before += 1
    device.answers = None
    row, untold = (device.number, *device.word()), (device.number, None, None)
    # Its number of records is the first answer of its log, and the next one has records.
    judge.same("dead behind each answer: what is on record", seen[:10],
               [([(None, None, None)], [], False)] + [([untold], [], False)] * 8 + [([row], [(10, "counted")], False)])
    judge.is_right("dead behind each answer: all the others have records", len(seen) > 11 and all(at == ([row], [(1, None)], True) for at in seen[10:]), seen[10:])


def renewed(judge, _runs):
    """What a device says is written with the first rows that a run kept behind it, or behind them."""
    device, log = one(count=40)
    told(device, MORNING, 1)
    file, seen, before = f"{judge.room}/a.db", set(), 40
    judge.ran(["keep", file, device.address, "1"])
    for call in range(1, 100):
        had = device.word()
        if call % 4 == 1:
            before = log.total
            told(device, MORNING + call * HOUR, device.revision + 1)
            log.log(70)
        status = judge.ended_at(call, ["keep", file])[0]
        judge.judge(f"a new word, ended at call {call}", file, [device])
        (_, restart, revision), = in_file(f"{file}.copy", ROWS)
        new, = in_file(f"{file}.copy", "SELECT id & 4294967295 FROM items ORDER BY id DESC LIMIT 1")
        seen.add(new[0] == log.total)
        judge.is_right(f"a word behind its rows, ended at call {call}", (restart, revision) != device.word() or new[0] > before, (restart, revision, new, had))
        if status != -signal.SIGKILL:
            break
    judge.is_right("calls of a new word", status == 0 and call > 8 and len(seen) == 2, (status, call, seen))
    judge.same("and the next run", judge.ran(["keep", file])[0], 0)
    judge.judge("and the next run", file, [device], True)
