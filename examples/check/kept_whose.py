"""A device is known by its instance, for kept.py: another one answers at its address, or it doesn't tell its instance; and when it
is asked for that."""
from kept_apart import in_file, left, line
from kept_devices import Device, Log, answering, serve
from kept_moved import SOON
from kept_rounds import alone, known_now, silent
from kept_words import HOUR, MORNING, ONCE, told


class Router:
    """Devices behind one router, which has one socket: each answers what is for its own way, and has one log."""

    def __init__(self, *ways):
        self.devices, port = [], None
        for at, way in enumerate(ways, 1):
            device = Device([Log(at, 50)], f"behind {at}", way, port)
            port = device.socket
            self.devices.append(device)
        answering[port] = self

    def answer(self, port, request, asker):
        for device in self.devices:
            device.answer(port, request, asker)


def strange(device, text, *instances):
    """The lines where another device answers, or one that doesn't tell who it is: none of these logs is asked for."""
    return f"{device.address}: {text}\n" + left(device, *instances)


def other_devices(judge, _runs):
    """The logs of a device aren't fetched where another one answers, and nothing changes."""
    device = Device([Log(1, 50), Log(2, 50), Log(3, 50)], "known")
    for number, log in device.logs.items():
        log.log(number)
    serve([device])
    file, number = f"{judge.room}/a.db", device.number
    words = ["keep", file, device.address, "1", "2"]
    both = line(device, 1, 1, "caught up, next 2") + line(device, 2, 2, "caught up, next 3")
    judge.same("its logs", judge.ran(words), (0, both, ""))
    judge.same("it is on record with its instance", in_file(file, "SELECT instance FROM devices"), [(number,)])
    for view in ("records", "epochs"):
        judge.same(f"and so it is in {view}", in_file(file, f"SELECT DISTINCT device FROM {view}"), [(number,)])
    every = "SELECT * FROM devices", "SELECT * FROM logs", "SELECT * FROM items ORDER BY id", "SELECT * FROM beginnings"
    before = [in_file(file, statement) for statement in every]
    for other, text, asks in ((number + 1, f"another device answers: {number + 1}, not {number}", 1), (None, f"the device doesn't tell that it is {number}", 3)):
        device.number, asked, questions = other, device.asked, len(device.questions)
        device.logs[1].log(1)
        judge.tells(f"{other} answers", judge.ran(["keep", file, *SOON]), 3, strange(device, text, 1, 2))
        # For its instance and for no more of itself; or by a Who-Is, too, and then for its name.
        judge.same(f"{other} is asked once", (device.asked - asked, len(device.questions)), (asks, questions))
        judge.same(f"{other} leaves all as it was", [in_file(file, statement) for statement in every], before)
    questions = len(device.questions)
    judge.tells("a log that is new isn't fetched either", judge.ran(["keep", file, device.address, "3", *SOON]), 3, strange(device, text, 1, 2, 3))
    judge.same("a log that is new: of it there is a row alone", (in_file(file, "SELECT instance, restart FROM logs WHERE id > 2"), in_file(file, every[2]), in_file(file, every[3])),
               ([(3, None)], *before[2:]))
    judge.same("it isn't asked for a log", len(device.questions), questions)
    device.number = number
    judge.tells("it answers again", judge.ran(["keep", file]), 0, line(device, 1, 2, "caught up, next 4"), line(device, 2, 0, "caught up, next 3"),
                line(device, 3, 3, "caught up, next 4"))
    judge.judge("it answers again", file, [device], True)
    told_otherwise(judge)
    # One that never told its instance is known by its address alone.
    device.number = None
    file = f"{judge.room}/b.db"
    judge.tells("a device that doesn't tell", judge.ran(["keep", file, device.address, "1", *SOON]), 0, alone(device), line(device, 1, 3, "caught up, next 4"))
    judge.same("has none on record", in_file(file, "SELECT instance, name FROM devices"), [(None, None)])
    device.number = number
    device.logs[1].log(1)
    judge.same("and tells it later", judge.ran(["keep", file]), (0, line(device, 1, 1, "caught up, next 5"), ""))
    judge.judge("a device that doesn't tell", file, [device])
    # Another one beside it, whose logs are kept.
    other = Device([Log(1, 50)], "other")
    other.logs[1].log(2)
    serve([other])
    judge.ran(["keep", file, other.address, "1"])
    other.number += 1
    device.logs[1].log(1)
    judge.tells("one of two", judge.ran(["keep", file]), 3, line(device, 1, 1, "caught up, next 6"),
                strange(other, f"another device answers: {other.number}, not {other.number - 1}", 1))


def told_otherwise(judge):
    """A device that refuses its instance is known by its name, if it tells that, and then by the instance of an I-Am, if it sends one."""
    device = Device([Log(1, 50)], "by its name")
    serve([device])
    device.logs[1].log(1)
    number, device.number, device.title = device.number, None, b"\x00plant"
    file, rows = f"{judge.room}/name.db", "SELECT instance, name FROM devices"
    for name, device.i_am, row in (("its name", None, (None, "plant")), ("its name again", None, (None, "plant")), ("an I-Am", number, (number, "plant"))):
        new, now = int(name == "its name"), known_now(device) if name == "an I-Am" else ""
        judge.same(f"by {name}", judge.ran(["keep", file, *([device.address, "1"] if new else []), *SOON]), (0, now + line(device, 1, new, "caught up, next 2"), ""))
        judge.same(f"by {name}: on record", in_file(file, rows), [row])
    device.i_am = None
    judge.tells("it has another name alone", judge.ran(["keep", file, *SOON]), 3, strange(device, f"the device doesn't tell that it is {number}", 1))
    file = f"{judge.room}/another name.db"
    judge.ran(["keep", file, device.address, "1", *SOON])
    for device.title, text in ((b"\x00other", "another device answers: other"), (None, "the device doesn't tell its name")):
        judge.tells(text, judge.ran(["keep", file, *SOON]), 3, strange(device, text, 1))
        judge.same(f"{text}: on record", in_file(file, rows), [(None, "plant")])


def asked_at_once(judge, _runs):
    """Each device of a run is asked once what it says of itself, before its first log, also behind a router; one there that gives
    no answer, while another one does, isn't asked once more."""
    near = [Device([Log(number, 50) for number in (1, 2, 3)], f"near {at}") for at in range(2)]
    behind = Router((5, b"\x07"), (5, b"\x08")).devices
    devices, ways = near + behind, ("", "", "/5/07", "/5/08")
    serve(near + behind[:1])
    file = f"{judge.room}/a.db"
    for device, way in zip(devices, ways):
        told(device, MORNING, 1)
        device.fits = (45,)
        for log in device.logs.values():
            log.log(2)
        judge.ran(["keep", file, device.address, *([f"--dnet={way[1]}", f"--dadr={way[3:]}"] if way else [])])

    def lines(new, lost=None):
        return "".join(line(device, number, new, f"caught up, next {3 + new}", way)
                       for device, way in zip(devices, ways) for number in device.logs if device is not lost)

    for name, hours, lost in (("all", 0, None), ("all, started since", 1, None), ("one behind the router is silent", 1, behind[1])):
        walked = []
        for device in devices:
            told(device, MORNING + hours * HOUR, 1)
            device.said.clear()
            device.questions.clear()
            # What its logs were asked when it had told the last of it.
            device.then[155] = lambda device=device: walked.extend(device.questions)
        if lost:
            lost.answers = 0
        asked = behind[0].asked
        judge.tells(name, judge.ran(["keep", file, *SOON]), 2 if lost else 0, lines(0, lost), silent(lost, (2,), "/5/08") if lost else "")
        judge.same(f"{name}: each is asked once", [dict(device.said) for device in devices], [{} if device is lost else ONCE for device in devices])
        judge.same(f"{name}: before its first log", (walked, [bool(device.questions) for device in devices]), ([], [device is not lost for device in devices]))
        # Of each what it says of itself, and a question for its log; of the silent one its first question.
        judge.same(f"{name}: what the router is asked", behind[0].asked - asked, 5 if lost else 8)
    behind[1].answers = None
    for device in devices:
        for log in device.logs.values():
            log.log(1)
    judge.tells("and what is new", judge.ran(["keep", file]), 0, lines(1))
    judge.judge("asked at once", file, devices, True)
