"""Devices that take their time are asked beside one another, for kept.py."""
import re
import threading
import time

from kept_apart import in_file, line, new_logs, timed
from kept_devices import Device, Log, chance, serve
from kept_more import UNTOLD, Unlisting, fed, untold
from kept_rounds import silent

# Where it is timed how long a run takes each answer waits longer, so that a busy machine adds little to that.
WAIT, LONG = 0.1, 0.3


class Slow(Device):
    """Each answer goes out some time, `wait`, after its question came."""

    wait = WAIT

    def answer(self, port, request, asker):
        threading.Timer(self.wait, super().answer, (port, request, asker)).start()


class Echo:
    """What goes out at a port goes out once more, as a network that repeats a datagram does it."""

    def __init__(self, port, after):
        self.port, self.after = port, after

    def sendto(self, octets, asker):
        self.port.sendto(octets, asker)
        threading.Timer(self.after, self.port.sendto, (octets, asker)).start()


class Echoing(Device):
    """Each answer goes out 20 ms after its question came, and once more 30 ms later: so that it comes while a later question
    is open, which is the same one for the next log."""

    def answer(self, port, request, asker):
        threading.Timer(0.02, super().answer, (Echo(port, 0.03), request, asker)).start()


def lines_of(site, new):
    """The lines of all logs, where so many records are new."""
    return "".join(line(device, number, new, f"caught up, next {log.total + 1}") for device in site for number, log in device.logs.items())


def own_address(judge, _runs):
    """Several devices are asked from an address of our own, which one socket has at a time; then one of them is silent."""
    site = [Device([Log(1, 50), Log(2, 50)], f"own{n}") for n in range(4)]
    serve(site)
    for device in site:
        for log in device.logs.values():
            log.log(5)
    file, ours = f"{judge.room}/own.db", f"127.77.6.1:{20000 + chance.randrange(9000)}"
    words = [word for device in site for word in (device.address, "1", "2")]
    judge.tells("a first run from an own address", judge.ran(["keep", file, f"--local={ours}", *words]), 0, lines_of(site, 5))
    for device in site:
        for log in device.logs.values():
            log.log(3)
    judge.tells("from it again", judge.ran(["keep", file, f"--local={ours}"]), 0, lines_of(site, 3))
    judge.same("from no other", {device.asker for device in site}, {ours})
    site[2].answers = 0
    judge.tells("and one is silent", judge.ran(["keep", file, f"--local={ours}", "--timeout=1000", "--retries=1"]), 2,
                lines_of(site[:2] + site[3:], 0), silent(site[2], (1, 2)))
    judge.judge("from an own address", file, site, True)


def own_address_echoes(judge, _runs):
    """From an address of our own, an answer that comes once more is none to a question for the next log."""
    site = [Echoing([Log(number, 50) for number in range(1, 13)], f"echo{n}") for n in range(2)]
    serve(site)
    file, ours = f"{judge.room}/echo.db", f"127.77.6.2:{20000 + chance.randrange(9000)}"
    words = [word for device in site for word in (device.address, *map(str, device.logs))]
    for new in (5, 0, 3):
        for device in site:
            for log in device.logs.values():
                log.log(new)
        judge.tells(f"{new} new where each answer comes twice", judge.ran(["keep", file, f"--local={ours}", *words]), 0, lines_of(site, new))
        words = []
    judge.judge("where each answer comes twice", file, site, True)


class Counted(Device):
    """Notes the invoke ID of each question."""

    def __init__(self, logs, name):
        super().__init__(logs, name)
        self.ids = []

    def ack(self, apdu):
        self.ids.append(apdu[2])
        return super().ack(apdu)


class Repeating(Counted, Echoing):
    """Each answer goes out once more."""


class Patient(Counted, Slow):
    """Each answer goes out some time after its question came."""


class Holding(Counted):
    """One answer goes out some time after its question came: that to so many questions."""

    def __init__(self, logs, name, at, after):
        super().__init__(logs, name)
        self.at, self.after = at, after

    def answer(self, port, request, asker):
        if len(self.ids) + 1 == self.at:
            threading.Timer(self.after, super().answer, (port, request, asker)).start()
        else:
            super().answer(port, request, asker)


def wrong_ids(device):
    """The IDs of what a device was asked where they don't go on from 1, or where they come in another turn than that."""
    return [one for at, one in enumerate(device.ids, 1) if one != at % 256]


def new_records(site, news):
    """Each log of the first device has so many new records, and those of the others one or none; the lines that tell it."""
    told = []
    for place, device in enumerate(site):
        device.ids = []
        for (number, log), new in zip(device.logs.items(), news):
            new = new if place == 0 else new % 2
            log.log(new)
            told.append(line(device, number, new, f"caught up, next {log.total + 1}"))
    return "".join(told)


def ids_go_on(judge, _runs):
    """The invoke IDs of what a device is asked go on over a run: over what it says of itself, its list, its names and each
    of its logs, however many questions a log takes, and beside however many others. So an answer that comes once more is none
    to a later question."""
    for many in (1, 3):
        site = [Repeating([Log(1, 4000), Log(2, 50), Log(3, 4000)], f"ids {many} {n}") for n in range(many)]
        serve(site)
        name = "1 device" if many == 1 else f"{many} devices"
        file, ours = f"{judge.room}/{many}.db", f"127.77.6.{3 + many}:{20000 + chance.randrange(9000)}"
        words = [device.address for device in site]
        for news in ((2500, 5, 1900), (0, 1, 0), (3, 0, 2000), (1, 1, 1)):
            site[0].fits = (45,)
            lines = new_records(site, news)
            judge.tells(f"{name}, {news} new", judge.ran(["keep", file, f"--local={ours}", *words]), 0, new_logs(*site) if words else "", lines)
            for device in site:
                judge.same(f"{name}, {news} new: its IDs", wrong_ids(device), [])
            words = []
        judge.judge(name, file, site, True)
    # Beside one whose list is longer.
    for many in (20, 140):
        site = [Counted([Log(number, 50) for number in range(1, many + 1)], f"long {many}"), Patient([Log(1, 50), Log(2, 50)], f"short {many}")]
        serve(site)
        name, file, words = f"beside a list of {many}", f"{judge.room}/beside{many}.db", [device.address for device in site]
        for news in ([3] * many, [0] * many):
            lines = new_records(site, news)
            judge.tells(name, judge.ran(["keep", file, f"--local=127.77.6.9:{20000 + chance.randrange(9000)}", *words]), 0,
                        new_logs(*site) if words else "", lines)
            judge.same(f"{name}: its IDs", [wrong_ids(device) for device in site], [[], []])
            words = []
        judge.judge(name, file, site, True)


def ids_go_on_behind_the_longest(judge, _runs):
    """Three lists are asked for over one port. While one is asked for to its end, the others wait for an answer each, and go on
    behind that. The IDs of what each device is asked go on all the same."""
    site = [Holding([Log(number, 50) for number in range(1, many + 1)], f"list {many}", at, after)
            for many, at, after in ((100, 0, 0), (30, 59, 1), (75, 120, 1.4))]
    serve(site)
    file, words = f"{judge.room}/three.db", [device.address for device in site]
    for news in ([3] * 100, [0] * 100):
        lines = new_records(site, news)
        ours = f"--local=127.77.6.10:{20000 + chance.randrange(9000)}"
        judge.tells("three lists", judge.ran(["keep", file, ours, *words]), 0, new_logs(*site) if words else "", lines)
        judge.same("three lists: IDs", [wrong_ids(device) for device in site], [[], [], []])
        words = []
    judge.judge("three lists", file, site, True)


def each_option(judge, _runs):
    """Each option goes for all devices and logs of a run."""
    ours = f"--local=127.77.6.3:{20000 + chance.randrange(9000)}"
    for options, status in ((["--at-once=1"], 0), (["--count=7"], 0), (["--retries=0"], 0), (["--timeout=900"], 0), (["--trace"], 0),
                            ([ours, "--trace"], 0), (["--steps=1"], 8), ([ours, "--steps=1", "--at-once=3"], 8)):
        site = [Device([Log(number, 500) for number in (1, 2, 3)], f"option{n}") for n in range(4)]
        serve(site)
        name = " ".join(options)
        file = f"{judge.room}/{name.replace(' ', '').replace(':', '_')}.db"
        words = [word for device in site for word in (device.address, "1", "2", "3")]
        for _run in range(2):
            for device in site:
                for log in device.logs.values():
                    log.log(101)
            told, out, errors = judge.ran(["keep", file, *options, *words])
            # A reply has 45 records at most, and a step is one batch.
            ended = {0: "101 records 0 gaps caught up", 8: "step limit"}[status]
            ends = [line for line in (out if status == 0 else errors).splitlines() if re.match(r"\S+ \d+ \d+ records? ", line)]
            judge.same(name, (told, [ended in one for one in ends]), (status, [True] * 12))
            judge.same(f"{name}: what is traced", any(line.startswith(("tx ", "rx ")) for line in errors.splitlines()), "--trace" in options)
            words = []
        judge.same(f"{name}: without it", judge.ran(["keep", file])[0], 0)
        judge.judge(name, file, site, True)


def at_once(judge, _runs):
    """Devices are asked beside one another what they say of themselves, and then for their logs; each as often as alone."""
    site = [Slow([Log(1, 50), Log(2, 500)], f"slow{n}") for n in range(12)]
    serve(site)
    for device in site:
        device.fits, device.wait = (45,), LONG
        for log in device.logs.values():
            log.log(40)
    site[3].logs[2].log(400)
    file = f"{judge.room}/a.db"
    words = [word for device in site for word in (device.address, "1", "2")]
    status, out, errors = judge.ran(["keep", file, *words])
    judge.same("a first run", (status, len(out.splitlines()), errors), (0, 24, ""))
    judge.judge("a first run of slow devices", file, site, True)
    for new in (0, 4):
        for device in site:
            for log in device.logs.values():
                log.log(new)
        asked = [device.asked for device in site]
        told, _, asking = timed(site, judge.ran, ["keep", file])
        judge.tells(f"{new} new", told, 0, lines_of(site, new))
        # One after the other they take 18 seconds.
        judge.is_right(f"{new} new: beside one another", asking < 9, asking)
        if not new:
            # For their instance, their start and their revision, and for each log once.
            judge.same("each is asked as often as alone", [device.asked - before for device, before in zip(site, asked)], [5] * 12)
    judge.judge("slow devices", file, site, True)
    # One falls silent once it told what it is: the others' logs are kept. Its next log is asked for once, and then none any more.
    site[5].answers = 3
    asked = [device.asked for device in site]
    told, _, asking = timed(site, judge.ran, ["keep", file, "--timeout=2000", "--retries=1"])
    lost = [line(site[5], number, 0, "lost, next 45") for number in (1, 2)]
    judge.tells("one falls silent", told, 2, lines_of(site[:5] + site[6:], 0), *lost)
    judge.same("who was asked", [device.asked - before for device, before in zip(site, asked)], [5] * 5 + [3 + 2 + 1] + [5] * 6)
    # It is asked up to 5 seconds; one after the other the others take 16 seconds more.
    judge.is_right("in two waits", asking < 13, asking)
    site[5].answers = None
    judge.tells("it is back", judge.ran(["keep", file]), 0, lines_of(site, 0))


class Noting(Device):
    """`lists` has when it was asked for its Object_List, or for a place of it."""

    def __init__(self, logs, name):
        super().__init__(logs, name)
        self.lists = []

    def ack(self, apdu):
        ack = super().ack(apdu)
        if self.told == 76:
            self.lists.append(time.monotonic())
        return ack


class Listed(Noting, Slow):
    """Each answer goes out some time after its question came."""


def rows_by(file):
    """What an archive has of logs and of their records, but when it was written, and under which ids."""
    devices = "JOIN devices d ON d.id = l.device"
    return (in_file(file, f"SELECT d.address, l.instance, l.name FROM logs l {devices} ORDER BY 1, 2"),
            in_file(file, f"SELECT d.address, l.instance, i.id & 4294967295 FROM items i JOIN logs l ON l.id = i.id >> 47 {devices} ORDER BY 1, 2, 3"))


def lists_at_once(judge, _runs):
    """Devices are asked beside one another for their Object_Lists, each place once; what is told and kept is as where they are asked alone."""
    site = [Listed([Log(1, 50), Log(2, 50)], f"listed{n}") for n in range(8)]
    for device in site[:4]:
        device.is_whole = True
    serve(site)
    for device in site:
        for log in device.logs.values():
            log.log(4)
    alone, asked = f"{judge.room}/alone.db", 0
    for at, device in enumerate(site):
        # A run polls all that is on record.
        judge.tells("alone", judge.ran(["keep", alone, device.address]), 0, new_logs(device), lines_of([device], 4), lines_of(site[:at], 0))
        # What it is asked in its first run.
        asked += device.asked
    # How long all that takes one after the other.
    in_turn = asked * LONG
    for device in site:
        device.wait = LONG
    words = [device.address for device in site]
    listed = "".join(f"{address}\n" for address in words)
    for name, run in (("words", lambda file: judge.ran(["keep", file, *words])), ("a list", lambda file: fed(judge, ["keep", file, "-"], listed))):
        for device in site:
            device.lists = []
        file = f"{judge.room}/{name}.db"
        told, _, asking = timed(site, run, file)
        judge.tells(f"{name}: what is told", told, 0, new_logs(*site), lines_of(site, 4))
        # Of the whole list, or then how long it is, and each place.
        judge.same(f"{name}: the list is asked for once, or each place", [len(device.lists) for device in site], [1] * 4 + [6] * 4)
        # Each was asked for its list before one has told its last place.
        first, last = max(device.lists[0] for device in site), min(device.lists[-1] for device in site[4:])
        judge.is_right(f"{name}: beside one another", first < last, (first, last))
        judge.is_right(f"{name}: in the time of few", asking < in_turn / 2, (asking, in_turn))
        judge.judge(name, file, site, True)
        judge.same(f"{name}: as alone", rows_by(file), rows_by(alone))
    # One that gives no answer, or none any more, is waited for beside the others, and not once more.
    for answers in (0, 3):
        site[5].answers, asked = answers, site[5].asked
        told, _, asking = timed(site, judge.ran, ["keep", f"{judge.room}/silent {answers}.db", *words, "--timeout=2000", "--retries=1"])
        others = site[:5] + site[6:]
        judge.tells(f"silent behind {answers}", told, 2, silent(site[5], ()), new_logs(*others), lines_of(others, 4))
        # Behind a question that isn't answered one that is sent once shows whether it answers any.
        judge.same(f"silent behind {answers}: how often it is asked", site[5].asked - asked, answers + 2 + (answers > 0))
        judge.is_right(f"silent behind {answers}: in the time of few", asking < in_turn / 2, (asking, in_turn))
    site[5].answers = None


class Whole(Noting):
    """It tells its list whole, and `another` makes another answer of that; None is no answer."""

    def __init__(self, logs, name, another):
        super().__init__(logs, name)
        self.is_whole, self.another = True, another

    def whole_ack(self, head):
        return self.another(super().whole_ack(head))


# What comes in place of the whole list, which has five octets for each object: how many of its logs are kept then, or how its
# line ends, and the status.
REPLIES = (
    ("whole", lambda ack: ack, 8, 0),
    ("an object is left out", lambda ack: ack[:-6] + ack[-1:], 7, 0),
    ("an object stands twice", lambda ack: ack[:-1] + ack[-6:], 8, 0),
    ("no object", lambda ack: ack[: ack.index(b"\x3e") + 1] + ack[-1:], 0, 0),
    ("a number among the objects", lambda ack: ack[:-6] + b"\x24" + ack[-5:], UNTOLD[1], 4),
    ("another service", lambda ack: ack[:2] + bytes([26]) + ack[3:], UNTOLD[1], 4),
    ("an Error", lambda ack: bytes([0x50, ack[1], ack[2], 0x91, 2, 0x91, 27]), UNTOLD[0], 3),
    ("a Reject", lambda ack: bytes([0x60, ack[1], 4]), ("a Reject", None, 3, "refused: reject 4", "invalid tag"), 3),
    # As where it doesn't fit an answer.
    ("nothing", lambda ack: None, 8, 0),
)
# Aborts that tell that a list doesn't fit an answer: buffer-overflow, segmentation-not-supported, and apdu-too-long.
TOO_LONG = 1, 4, 11


def whole_lists(judge, _runs):
    """A list takes one question. What it tells is kept; where it doesn't fit an answer it is asked for place by place, behind how long
    it is; and what else comes in its place is told."""
    quick = ("--timeout=2000", "--retries=0")
    for name, another, kept, status in REPLIES:
        site = [Whole([Log(number, 50) for number in range(1, 9)], f"{name} {n}", another) for n in range(2)]
        serve(site)
        for device in site:
            for log in device.logs.values():
                log.log(3)
        told = [untold(device, *kept[3:]) if isinstance(kept, tuple) else first_logs(device, kept) for device in site]
        times = 1 if name != "nothing" else 2 + 10
        judge.tells(f"{name}: alone", judge.ran(["keep", f"{judge.room}/{name} alone.db", site[0].address, *quick]), status, told[0])
        judge.same(f"{name}: how often its list is asked for", len(site[0].lists), times)
        site[0].lists = []
        file = f"{judge.room}/{name}.db"
        judge.tells(f"{name}: beside another", judge.ran(["keep", file, *[device.address for device in site], *quick]), status, *told)
        judge.same(f"{name}: how often both are", [len(device.lists) for device in site], [times] * 2)
        judge.judge(name, file, site, kept == 8)
    for reason in TOO_LONG:
        device = Whole([Log(number, 50) for number in range(1, 9)], f"too long, {reason}", lambda ack: bytes([0x71, ack[1], reason]))
        serve([device])
        file = f"{judge.room}/{reason}.db"
        judge.tells(f"an Abort {reason}", judge.ran(["keep", file, device.address]), 0, new_logs(device), lines_of([device], 0))
        judge.same(f"an Abort {reason}: how often its list is asked for", len(device.lists), 2 + 10)
        judge.judge(f"an Abort {reason}", file, [device], True)


def first_logs(device, count):
    """The lines of its first logs, which come with its list."""
    numbers = list(device.logs)[:count]
    return "".join([f"{device.address} {number} is new\n" for number in numbers] + [line(device, number, 3, "caught up, next 4") for number in numbers])


def another_answer(ack):
    """The answer to another question: its invoke ID is another."""
    return ack[:1] + bytes([ack[1] ^ 1]) + ack[2:]


def silent_lists(judge, _runs):
    """Devices that give no answer when they are asked what they are cost one wait together, beside those that do."""
    dead = [Device([Log(1, 50)], f"dead{n}") for n in range(3)]
    alive = [Unlisting([Log(1, 50), Log(2, 50)], f"alive{n}") for n in range(2)]
    site = [dead[0], alive[0], *dead[1:], alive[1]]
    serve(site)
    for device in site:
        for log in device.logs.values():
            log.log(4)
    for device in dead:
        device.answers = 0
    words = [device.address for device in site]
    once = [silent(device, ()) for device in dead]
    file = f"{judge.room}/a.db"
    # Each is asked at 0 and 3 seconds, and waited for as long; those of a second wait would be asked up to 9.
    told, took, asking = timed(dead, judge.ran, ["keep", file, *words, "--timeout=3000", "--retries=1"])
    judge.tells("they are lost, and the others kept", told, 2, *once, new_logs(*alive), lines_of(alive, 4))
    judge.same("each is asked as often as once", [device.asked for device in dead], [2] * 3)
    judge.is_right("in one wait", took > 5.9 and asking < 8.5, (took, asking))
    judge.judge("beside silent devices", file, alive, True)
    # One that is named twice has one line, and isn't asked more often for that.
    quick = ("--timeout=1000", "--retries=1")
    told = judge.ran(["keep", file, *words, words[0], *quick])
    judge.tells("named twice", told, 2, *once, lines_of(alive, 0))
    judge.same("named twice: how often each is asked", [device.asked for device in dead], [4] * 3)
    # From one another answer came in the place of its list.
    asked, alive[0].list_ack = alive[0].asked, another_answer
    told = judge.ran(["keep", f"{judge.room}/b.db", *words, *quick])
    lost = f"{alive[0].address} didn't tell its Object_List: lost\n"
    judge.tells("another answer came", told, 2, *once, lost, new_logs(alive[1]), lines_of(alive[1:], 4))
    # Of itself, twice for its list, and once for how long that is.
    judge.same("another answer came: how often each is asked", [alive[0].asked - asked, *(device.asked for device in dead)], [4 + 2 + 1, 6, 6, 6])
    # One has told its list whose last log's name has no answer.
    alive[0].list_ack, alive[0].mute = lambda ack: ack, {2}
    told = judge.ran(["keep", f"{judge.room}/c.db", *words, *quick])
    judge.tells("the last name has no answer", told, 2, *once, new_logs(*alive), lines_of(alive, 4))
    judge.same("the last name has no answer: which logs have none", in_file(f"{judge.room}/c.db",
               "SELECT d.address, l.instance FROM logs l JOIN devices d ON d.id = l.device WHERE l.name IS NULL"), [(words[1], 2)])
    # They are back.
    alive[0].mute = set()
    for device in dead:
        device.answers = None
    judge.tells("they are back", judge.ran(["keep", file, *words]), 0, new_logs(*dead), lines_of(dead, 4), lines_of(alive, 0))
    judge.judge("they are back", file, site, True)
