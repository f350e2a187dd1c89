"""Devices that say that more records are there than they have, and several devices in one run, for kept.py."""
import os
import subprocess

from kept_apart import in_file, line, new_logs
from kept_devices import LAST, Device, Log, serve
from kept_rounds import one, said, silent

MORE = "shows no more, though it says that more is there"

# Each run: what its replies with records say of more items (None: what is so), how many records are new, and its status.
RUNS = (
    ("more is said, and none comes", True, 3, 4),
    ("nothing new, and no more is said", False, 0, 0),
    ("records, and no more is said", False, 2, 0),
    ("nothing new, and the last record says more", True, 0, 4),
    ("one record, and it says more", True, 1, 4),
    ("what is said is so", None, 300, 0),
    ("and nothing new", None, 0, 0),
)


def said_more(judge, _runs):
    """Where more is said to be there behind a reply and none comes there, that is told, and what came is kept."""
    for begin in (0, LAST - 3):
        device, log = one(room_for=400)
        log.begin(begin)
        for name, says_more, count, status in RUNS:
            name = f"{name}, from {begin}"
            device.says_more = says_more
            log.log(count)
            file = f"{judge.room}/{begin}.db"
            end = f"{MORE if status else 'caught up'}, next {log.total % LAST + 1}"
            judge.tells(name, judge.ran(["keep", file, device.address, "1"]), status, said(device, count, 0, end))
            judge.judge(name, file, [device], True)
    device, log = one()
    device.says_more = True
    judge.same("an empty log that says more", judge.ran(["keep", f"{judge.room}/empty.db", device.address, "1"]),
               (0, said(device, 0, 0, "caught up, next 1"), ""))
    device, log = one(count=1)
    device.says_more, device.by_number = True, False
    judge.tells("by number there is never one", judge.ran(["keep", f"{judge.room}/by_time.db", device.address, "1"]), 4,
                said(device, 1, 0, "shows no record by number, and by time perhaps not all that it holds, next 2"))


def several(judge, _runs):
    """The words of several devices are one run: of each the logs that are named behind it, or those of its list."""
    devices = [Device([Log(number, 50) for number in (1, 2)], f"device {place}") for place in range(3)]
    for device in devices:
        for number, log in device.logs.items():
            log.log(number)
    serve(devices)
    first, second, third = devices
    file = f"{judge.room}/a.db"

    def lines(*logs):
        return "".join(line(device, number, count, f"caught up, next {number + 1}") for device, number, count in logs)

    words = ["keep", file, first.address, "2", second.address, third.address, "1", "02", "1"]
    logs = ((first, 2, 2), (second, 1, 1), (second, 2, 2), (third, 1, 1), (third, 2, 2))
    judge.tells("three devices", judge.ran(words), 0, new_logs(second), lines(*logs))
    # A run polls all that is on record, and what is new behind it.
    words = ["keep", file, second.address, "2", first.address, first.address, "2", second.address, "--count=20"]
    logs = ((first, 2, 0), (first, 1, 1), (second, 1, 0), (second, 2, 0), (third, 1, 0), (third, 2, 0))
    judge.tells("each log once", judge.ran(words), 0, f"{first.address} 1 is new\n", lines(*logs))
    judge.judge("several devices", file, devices, True)
    asked = sum(device.asked for device in devices)
    for name, words, fault in (
        ("a word that is no address", [first.address, "1", "x"], "ADDRESS"),
        ("the second device's instance", [first.address, second.address, "4194304"], "INSTANCE")):
        status, printed, told = judge.ran(["keep", f"{judge.room}/none.db", *words])
        judge.is_right(name, (status, printed) == (1, "") and told.startswith(f"bad value\n{fault}: "), told)
    judge.same("of bad words nobody is asked", sum(device.asked for device in devices), asked)
    judge.is_right("and no file is made", not os.path.exists(f"{judge.room}/none.db"), "there is one")


class Unlisting(Device):
    """`list_ack` makes another of each ACK that tells of its Object_List; None is no answer."""

    def __init__(self, logs, name, way=None):
        super().__init__(logs, name, way)
        self.list_ack = lambda ack: ack

    def ack(self, apdu):
        ack = super().ack(apdu)
        return self.list_ack(ack) if ack and self.told == 76 else ack


def access_denied(ack):
    """An Error, property, read-access-denied (2 27)."""
    return bytes([0x50, ack[1], ack[2], 0x91, 2, 0x91, 27])


def other_service(ack):
    """The ACK of another service; an Abort stays."""
    return ack[:2] + bytes([26]) + ack[3:] if ack[0] == 0x30 else ack


def no_number(ack):
    """An ACK whose value is a NULL; an Abort stays."""
    return ack[: ack.rindex(b"\x3e") + 1] + b"\x00\x3f" if ack[0] == 0x30 else ack


# What a device answers in place of its Object_List, the status, how its line ends, and what is told beside it.
UNTOLD = (
    ("refused", access_denied, 3, "refused: error 2 27", "read access denied"),
    ("another ACK", other_service, 4, "bad reply", "the reply doesn't acknowledge this request, is segmented, or can't be read"),
    ("no number", no_number, 4, "bad reply", "the reply doesn't acknowledge this request, is segmented, or can't be read"),
)


def untold(device, end, why):
    """The lines of a device that doesn't tell its Object_List."""
    return f"{device.place()} didn't tell its Object_List: {end}\n{device.place()}: {why}\n"


def unlisted(judge, _runs):
    """A device that doesn't tell its Object_List has a line, its logs on record are polled, and the run goes on with the others."""
    mute, second = Unlisting([Log(1, 50)], "mute"), Unlisting([Log(1, 50)], "second")
    others = [Device([Log(number, 50) for number in (1, 2)], f"other {place}") for place in range(2)]
    for device in (mute, second, *others):
        for number, log in device.logs.items():
            log.log(number)
    serve([mute, second, *others])
    quick = ("--timeout=1000", "--retries=1")

    def kept(new):
        lines = "".join(line(device, number, number * new, f"caught up, next {number + 1}") for device in others for number in (1, 2))
        return new_logs(*others) * new + lines

    for name, mute.list_ack, status, *texts in UNTOLD:
        file, lines, asked = f"{judge.room}/{name}.db", untold(mute, *texts), mute.asked
        judge.tells(name, judge.ran(["keep", file, others[0].address, mute.address, others[1].address, *quick]), status, lines, kept(1))
        # What it says of itself, its clock, and its list; or behind an Abort how long that is.
        judge.same(f"{name}: its list isn't asked for once more", mute.asked - asked, 5 + (status == 4))
        judge.judge(name, file, others, True)
        judge.same(f"{name}, and it has no log", in_file(file, f"SELECT d.whole, count(l.id) FROM devices d LEFT JOIN logs l ON l.device = d.id "
                   f"WHERE d.address = '{mute.address}' GROUP BY d.id"), [(1, 0)])
        # It is asked again in each run.
        judge.tells(f"{name}, again", judge.ran(["keep", file, *quick]), status, lines, kept(0))
        judge.tells(f"{name}, alone", judge.ran(["keep", f"{judge.room}/{name} alone.db", mute.address, *quick]), status, lines)
        judge.tells(f"{name}, named", judge.ran(["keep", file, mute.address, mute.address, "1", *quick]), status,
                    lines, line(mute, 1, 1, "caught up, next 2"), kept(0))
        mute.list_ack = lambda ack: ack
        judge.tells(f"{name}, and told then", judge.ran(["keep", file, *quick]), 0, line(mute, 1, 0, "caught up, next 2"), kept(0))
    # One that answers neither that question nor how long it is: its logs on record are polled.
    mute.list_ack, file = lambda ack: None, f"{judge.room}/lost.db"
    lost = f"{mute.address} didn't tell its Object_List: lost\n"
    judge.tells("lost", judge.ran(["keep", file, others[0].address, mute.address, others[1].address, *quick]), 2, lost, kept(1))
    judge.tells("lost, named", judge.ran(["keep", file, mute.address, "1", *quick]), 2, lost, line(mute, 1, 1, "caught up, next 2"), kept(0))
    # One that answers how long it is, and then not all of it.
    mute.list_ack = lambda ack: ack if b"\x29\x00" in ack else None
    judge.tells("lost in its midst", judge.ran(["keep", file, *quick]), 2, lost, line(mute, 1, 0, "caught up, next 2"), kept(0))
    # Two of them, and the greatest status counts; a log's own, too.
    mute.list_ack, second.list_ack = no_number, access_denied
    file = f"{judge.room}/two.db"
    lines = untold(mute, *UNTOLD[2][3:]) + untold(second, *UNTOLD[0][3:])
    judge.tells("two of them", judge.ran(["keep", file, mute.address, second.address, others[0].address, others[1].address, *quick]), 4, lines, kept(1))
    status, _, errors = judge.ran(["keep", f"{judge.room}/steps.db", second.address, others[0].address, "--count=1", "--steps=1", *quick])
    judge.is_right("a log's status is greater", status == 8 and untold(second, *UNTOLD[0][3:]) in errors, (status, errors))
    # One behind a router is told by its whole place.
    behind = Unlisting([Log(1, 50)], "behind", (5, b"\x07"))
    behind.list_ack = access_denied
    serve([behind])
    judge.tells("behind a router", judge.ran(["keep", f"{judge.room}/behind.db", behind.address, "--dnet=5", "--dadr=07", *quick]), 3,
                untold(behind, *UNTOLD[0][3:]))


def fed(judge, words, text):
    """The status of a run that has this text on standard input, and what it printed and told."""
    ran = subprocess.run([judge.program, *words], input=text.encode(), capture_output=True, timeout=120)
    return ran.returncode, ran.stdout.decode(), ran.stderr.decode()


def listed(judge, _runs):
    """The devices of standard input: addresses, and lines of `bac wi`, which have the way behind a router."""
    first, second = (Device([Log(number, 50) for number in (1, 2)], f"device {place}") for place in range(2))
    behind = Device([Log(1, 50)], "behind", (5, b"\x07"))
    devices = (first, second, behind)
    for device in devices:
        for number, log in device.logs.items():
            log.log(number)
    serve(devices)
    facts = "max-apdu 1476 segmentation 3 vendor 0"
    text = f"# a site\r\n{second.address}\n\nI-Am 7 {first.address} {facts}\r\nI-Am 8 {behind.address} net 5 mac 07 {facts}\n"
    file = f"{judge.room}/a.db"

    def lines(new):
        shown = "".join(line(device, number, number * new, f"caught up, next {number + 1}") for device in (second, first) for number in (1, 2))
        return shown + line(behind, 1, new, "caught up, next 2", "/5/07")

    judge.tells("three devices", fed(judge, ["keep", file, "-", "--timeout=1000"], text), 0, new_logs(*devices), lines(1))
    judge.tells("and again", fed(judge, ["keep", file, "-"], text), 0, lines(0))
    judge.tells("the file has the way", judge.ran(["keep", file]), 0, lines(0))
    judge.judge("three devices", file, devices, True)
    asked = sum(device.asked for device in devices)
    none = f"{judge.room}/none.db"
    for name, text, number in (
        ("a word", f"{first.address}\nx\n", 2),
        ("a network", "127.0.0.1/24\n", 1),
        ("an instance behind it", f"# one\n{first.address} 1\n", 2),
        ("a cut place", f"{first.address}\n\nI-Am 8 {behind.address} net 5 mac 0", 3),
        ("a cut address", f"I-Am 8 {behind.address[:-1]}", 1),
        ("a network that is none", f"I-Am 8 {behind.address} net 65535 mac 07 {facts}\n", 1),
        ("an address there that is none", f"I-Am 8 {behind.address} net 5 mac 7 {facts}\n", 1)):
        status, printed, told = fed(judge, ["keep", none, "-"], text)
        judge.is_right(f"a bad line: {name}", (status, printed) == (1, "") and told.startswith(f"line {number}: bad line\na line is "), (status, printed, told))
    for name, text, told in (("an empty list", "", "bad value\nno address\n"), ("a list of remarks", "# none\n", "bad value\nno address\n"),
                             ("a long list", "#" * 1048577, "bad value\na list has at most 1048576 octets\n"),
                             ("a list of too many", "127.0.0.1\n" * 4097, "line 4097: bad line\na list has at most 4096 addresses\n")):
        judge.same(name, fed(judge, ["keep", none, "-"], text), (1, "", told))
    for name, words, word in (("- and another", ["-", first.address], "ADDRESS"), ("- and an instance", ["-", "1"], "ADDRESS"),
                              ("another and -", [first.address, "-"], "ADDRESS"), ("--stop -", ["-", "--stop"], "ADDRESS")):
        status, printed, told = fed(judge, ["keep", none, *words], f"{first.address}\n")
        judge.is_right(name, (status, printed) == (1, "") and told.startswith(f"bad value\n{word}: "), (status, printed, told))
    judge.same("of these nobody is asked", sum(device.asked for device in devices), asked)
    judge.is_right("and no file is made", not os.path.exists(none), "there is one")


class Repeating(Device):
    """Its Object_List has each of its logs twice."""

    def objects(self):
        objects = super().objects()
        return objects + objects[2:]


def listed_twice(judge, _runs):
    """A log that a device lists twice is one log: it is kept once, and the run goes on with the next device."""
    repeating, other = Repeating([Log(number, 50) for number in (1, 2)], "repeating"), Device([Log(1, 50)], "other")
    site = [repeating, other]
    for device in site:
        for log in device.logs.values():
            log.log(3)
    serve(site)

    def lines(devices):
        return "".join(line(device, number, 3, "caught up, next 4") for device in devices for number in device.logs)

    for name, repeating.is_whole in (("whole", True), ("place by place", False)):
        file = f"{judge.room}/{name}.db"
        judge.tells(f"listed twice, {name}, beside another", judge.ran(["keep", file, repeating.address, other.address]), 0, new_logs(*site), lines(site))
        judge.judge(f"listed twice, {name}", file, site, True)
        judge.tells(f"listed twice, {name}, alone", judge.ran(["keep", f"{judge.room}/{name} alone.db", repeating.address]), 0,
                    new_logs(repeating), lines([repeating]))
