"""Devices that have moved to another address, and two that have one number, for kept.py."""
import os
import shutil
import signal

from kept_apart import in_file, left, line, new_logs
from kept_devices import Device, Log, answering, chance, lock, serve
from kept_rounds import alone, silent
from kept_words import MORNING, ROWS, told

# A run that waits once where nobody answers, as long as a busy machine may need where somebody does.
SOON = ("--timeout=1000", "--retries=0")
# The sockets at which devices were, by their addresses.
PORTS = {}
TABLES = "SELECT * FROM logs", "SELECT * FROM items ORDER BY id", "SELECT * FROM beginnings"
STANDS = "SELECT l.id, d.address, l.instance FROM logs l JOIN devices d ON d.id = l.device ORDER BY l.id"


def tables(file):
    return [in_file(file, statement) for statement in TABLES]


def known(judge, name, count=2, way=None):
    """A device with logs, which are kept in a file at its first address; the file, and what one of its runs waits."""
    device = Device([Log(number, 50) for number in range(1, count + 1)], name, way)
    told(device, MORNING, 1)
    for number, log in device.logs.items():
        log.log(number)
    serve([device])
    file = f"{judge.room}/{name}.db"
    words = [f"--dnet={way[0]}", f"--dadr={way[1].hex()}"] if way else []
    judge.same(f"{name} is kept", judge.ran(["keep", file, device.address, "1", "2", *words])[::2], (0, ""))
    return device, file


def moves(device, taken=True):
    """It answers at another address from now on, and a stranger where it was, or nobody; the socket there, and both addresses."""
    old = device.address
    with lock:
        port = PORTS[old] = device.move()
        if taken:
            Device([], "stranger", port=port)
    serve([device])
    return port, old, device.address


def gone(device, old, *instances):
    """The lines of the place where a device was: of what answers there now, if there is anything."""
    there, not_asked = answering.get(PORTS.get(old)), "".join(f"{old} {instance} not asked\n" for instance in instances)
    if there is None:
        return f"{not_asked}{old}: no answer\n"
    if there.number is None:
        return f"{old}: the device doesn't tell that it is {device.number}\n{not_asked}"
    return f"{old}: another device answers: {there.number}, not {device.number}\n{not_asked}"


def moved(judge, _runs):
    """Nobody answers where it was, or another instance, or one that doesn't tell: its logs stand there as they were, and are kept
    at its new address, where it is named, as those of a device that wasn't kept before."""
    for name, status in (("nobody", 2), ("another", 3), ("one that refuses", 3)):
        device, file = known(judge, name, 3)
        port, old, new = moves(device, name != "nobody")
        if name == "one that refuses":
            answering[port].number = None
        device.logs[1].log(1)
        before = tables(file)
        judge.tells(f"{name} where it was", judge.ran(["keep", file, *SOON]), status, gone(device, old, 1, 2))
        judge.same(f"{name} where it was: nothing changes", tables(file), before)
        device.said.clear()
        ran = judge.ran(["keep", file, new, "1", "3", *SOON])
        judge.tells(f"moved, {name}", ran, status, line(device, 1, 2, "caught up, next 3"), line(device, 3, 3, "caught up, next 4"), gone(device, old, 1, 2))
        judge.lacks("moved", f"moved, {name}: it is told", f"{old} to {new}" in ran[2])
        judge.lacks("moved", f"moved, {name}: its logs go on there", in_file(file, STANDS)[:2] == [(1, new, 1), (2, new, 2)])
        judge.same(f"moved, {name}: it is asked once", dict(device.said), {75: 1, 203: 1, 155: 1, 56: 1})
        now = tables(file)
        judge.is_right(f"moved, {name}: what came before stays", all(set(rows) <= set(more) for rows, more in zip(before, now)), (before, now))
        judge.same(f"moved, {name}: its logs", in_file(file, STANDS), [(1, old, 1), (2, old, 2), (3, new, 1), (4, new, 3)])
        # Where it was it isn't asked any more.
        judge.same(f"moved, {name}: stopped where it was", judge.ran(["keep", file, "--stop", old])[::2], (0, ""))
        judge.tells(f"moved, {name}, again", judge.ran(["keep", file, new]), 0, f"{new} 2 is new\n", line(device, 1, 0, "caught up, next 3"),
                    line(device, 3, 0, "caught up, next 4"), line(device, 2, 2, "caught up, next 3"))
        judge.judge(f"moved, {name}", file, [device])
    # All logs of its list, and a log that it doesn't have.
    device, file = known(judge, "list", 3)
    _port, old, new = moves(device)
    out = [line(device, at, at, f"caught up, next {at + 1}") for at in (1, 2, 3)]
    judge.tells("moved, and all its logs", judge.ran(["keep", file, new]), 3, new_logs(device), *out, gone(device, old, 1, 2))
    judge.judge("moved, and all its logs", file, [device])
    # Back where it was all of it goes on there.
    with lock:
        device.move(PORTS[old])
    for log in device.logs.values():
        log.log(1)
    judge.tells("moved back", judge.ran(["keep", file, *SOON]), 2, *(line(device, at, 1, f"caught up, next {at + 2}") for at in (1, 2)), gone(device, new, 1, 2, 3))
    judge.judge("moved back", file, [device])


def moved_ways(judge, _runs):
    """Behind a router the place is the router's address, the network and the address there."""
    device, file = known(judge, "behind", way=(5, b"\x07"))
    old = f"{device.address}/5/07"
    device.way = b"\x00\x06\x02\x08\x09"
    device.places.append(device.place())
    out = line(device, 1, 1, "caught up, next 2", "/6/0809")
    judge.tells("behind another router", judge.ran(["keep", file, device.address, "1", "--dnet=6", "--dadr=0809", *SOON]), 2, out, gone(device, old, 1, 2))
    judge.same("both places", in_file(file, "SELECT address, dnet, dadr, instance FROM devices ORDER BY id"),
               [(device.address, 5, "07", device.number), (device.address, 6, "0809", device.number)])
    device.way = b""
    device.places.append(device.place())
    # Two of the three give no answer, and may be slow: there are fewer requests at a time at their host.
    slow = "".join(f"{device.host}: slow, {at} at a time\n" for at in ("2 requests", "1 request"))
    judge.tells("and no more", judge.ran(["keep", file, device.address, "1", *SOON]), 2, slow, line(device, 1, 1, "caught up, next 2"),
                gone(device, old, 1, 2), gone(device, f"{device.address}/6/0809", 1))
    judge.same("all places", in_file(file, "SELECT DISTINCT address, dnet, dadr FROM devices ORDER BY id"),
               [(device.address, 5, "07"), (device.address, 6, "0809"), (device.address, 0, "")])
    judge.judge("all places", file, [device])


def two_of_one(judge, _runs):
    """Two devices tell one number: each is kept at its own address, and what stands of the other doesn't change."""
    device, file = known(judge, "first")
    other = Device([Log(number, 50) for number in (1, 2)], "second")
    other.number = device.number
    serve([other])
    before = tables(file)
    device.said.clear()
    other.said.clear()
    nothing = [line(each, at, 0, f"caught up, next {each.logs[at].total + 1}") for each in (device, other) for at in (1, 2)]
    ran = judge.ran(["keep", file, other.address, "1", "2"])
    judge.tells("two have one number", ran, 0, *nothing)
    judge.lacks("two", "two have one number: it is told", ran[0] == 3 or str(device.number) in ran[1] + ran[2])
    judge.same("both are asked once", (dict(device.said), dict(other.said)), ({75: 1, 203: 1, 155: 1}, {75: 1, 203: 1, 155: 1, 56: 1}))
    judge.is_right("what stood there stays", all(set(rows) <= set(more) for rows, more in zip(before[1:], tables(file)[1:])), tables(file))
    device.logs[1].log(1)
    other.logs[2].log(2)
    judge.tells("each goes on", judge.ran(["keep", file]), 0, line(device, 1, 1, "caught up, next 3"), line(device, 2, 0, "caught up, next 3"),
                line(other, 1, 0, "caught up, next 1"), line(other, 2, 2, "caught up, next 3"))
    # The first one dies.
    device.answers = 0
    judge.tells("the first one is dead", judge.ran(["keep", file, *SOON]), 2, silent(device, (1, 2)),
                line(other, 1, 0, "caught up, next 1"), line(other, 2, 0, "caught up, next 3"))


def told_later(judge, _runs):
    """A device that refused its instance, and tells it later, is on record with it from then on, and is no other one."""
    device = Device([Log(1, 50), Log(2, 50)], "later")
    number, device.number = device.number, None
    told(device, MORNING, 1)
    serve([device])
    file = f"{judge.room}/a.db"
    words = ["keep", file, device.address, "1", "2", *SOON]
    both = [line(device, at, 0, "caught up, next 1") for at in (1, 2)]
    judge.same("it refuses", (judge.ran(words), in_file(file, ROWS)), ((0, "".join(both), alone(device)), [(None, *device.word())] * 2))
    device.number = number
    device.logs[1].log(1)
    judge.same("and tells it", judge.ran(["keep", file]), (0, line(device, 1, 1, "caught up, next 2") + both[1], ""))
    judge.same("and tells it: on record", in_file(file, ROWS), [(number, *device.word())] * 2)
    judge.judge("and tells it", file, [device], True)
    device.number = None
    judge.tells("and refuses again", judge.ran(["keep", file, *SOON]), 3, f"{device.address}: the device doesn't tell that it is {number}\n", left(device, 1, 2))
    judge.same("and refuses again: on record", in_file(file, ROWS), [(number, *device.word())] * 2)
    # Another one that refused tells the same number.
    other = Device([Log(1, 50), Log(2, 50)], "untold")
    other.number, device.number = None, number
    serve([other])
    judge.ran(["keep", file, other.address, "1", "2", *SOON])
    other.number = number
    other.logs[1].log(3)
    ran = judge.ran(["keep", file])
    judge.tells("the number of another", ran, 0, line(device, 1, 0, "caught up, next 2"), line(device, 2, 0, "caught up, next 1"),
                line(other, 1, 3, "caught up, next 4"), line(other, 2, 0, "caught up, next 1"))
    judge.lacks("two", "the number of another: it is told", ran[0] == 3 or str(number) in ran[1] + ran[2])
    # Ended before each call on files: on record with its rows, or not.
    other.number, file, seen = None, f"{judge.room}/b.db", set()
    judge.ran(["keep", file, other.address, "1", *SOON])
    shutil.copyfile(file, f"{file}.first")
    other.number = Device.number
    for call in range(1, 100):
        shutil.copyfile(f"{file}.first", file)
        if os.path.exists(f"{file}-wal"):
            os.remove(f"{file}-wal")
        other.logs[1].log(2)
        status = judge.ended_at(call, ["keep", file])[0]
        judge.judge(f"told later, ended at call {call}", file, [other])
        row, = in_file(f"{file}.copy", "SELECT instance FROM devices")
        seen.add(row)
        newest = in_file(f"{file}.copy", "SELECT max(id & 4294967295) FROM items")
        judge.is_right(f"told later, ended at call {call}: not behind its rows", row == (other.number,) or newest != [(other.logs[1].total,)], (row, newest))
        if status != -signal.SIGKILL:
            break
    judge.is_right("calls of one that tells it later", status == 0 and len(seen) == 2, (status, call, seen))


def moved_at_each_call(judge, _runs):
    """Ended before each call on files, or a call that fails: where it was all stays, and where it is a run goes on."""
    for fails in (False, True):
        device, file = known(judge, f"ended{fails}")
        shutil.copyfile(file, f"{file}.first")
        before = tables(file)
        _port, old, new = moves(device)
        seen = set()
        for call in range(1, 100):
            shutil.copyfile(f"{file}.first", file)
            if os.path.exists(f"{file}-wal"):
                os.remove(f"{file}-wal")
            device.logs[1].log(3)
            ended = {**judge.ending_at(call), **({"FAILS": "yes"} if fails else {})}
            status, _out, errors = judge.ran(["keep", file, new, "1"], env=ended)
            judge.judge(f"moved, call {call}", file, [device])
            now = tables(f"{file}.copy")
            at = {address for _, address, _ in in_file(f"{file}.copy", STANDS)}
            seen |= at
            judge.is_right(f"moved, call {call}: all of before stays", all(set(rows) <= set(more) for rows, more in zip(before, now)), now)
            if status == 3:
                break
            judge.is_right(f"moved, call {call}: its end", status == (6 if fails else -signal.SIGKILL), (status, errors))
            if call % 4 == 0:
                status, out, errors = judge.ran(["keep", file, new, "1"])
                judge.is_right(f"moved, behind call {call}", status == 3 and out.endswith(f" caught up, next {device.logs[1].total + 1}\n")
                               and errors == gone(device, old, 1, 2), (status, out, errors))
                judge.judge(f"moved, behind call {call}", file, [device])
        judge.is_right("calls of a device that moves", seen == {old, new} and call > 5, (seen, call))


def next_end(device, judge, file):
    """What a run does now: over all logs, or over those of a device where it is, and how it is ended."""
    words = ["keep", file, "--timeout=20", "--retries=0"]
    if chance.random() < 0.7:
        words[2:2] = [device.address, *(["1"] if chance.random() < 0.5 else [])]
    if chance.random() < 0.5:
        return judge.ended_at(chance.randrange(1, 30), words)
    return judge.ran(words)


def moved_at_random(judge, _runs, rounds=40):
    """Devices move at random, to free places and to those of others; runs are ended at any of their calls."""
    devices = [Device([Log(number, 60) for number in (1, 2, 3)], f"mover {at}") for at in range(3)]
    free, file = [], f"{judge.room}/site.db"
    for device in devices:
        told(device, MORNING, 1)
    serve(devices)
    for device in devices:
        judge.same("a device that will move", judge.ran(["keep", file, device.address])[0], 0)
    for at in range(rounds):
        device = chance.choice(devices)
        with lock:
            for log in device.logs.values():
                log.log(chance.choice((0, 1, 5, 90)))
        if chance.random() < 0.6:
            if free and chance.random() < 0.4:
                with lock:
                    free.append(device.move(free.pop(chance.randrange(len(free)))))
            else:
                free.append(moves(device, chance.random() < 0.5)[0])
        status, _out, errors = next_end(device, judge, file)
        judge.is_right(f"move {at}", status in (-signal.SIGKILL, 0, 2, 3), (status, errors))
        judge.judge(f"move {at}", file, devices)
    places = in_file(file, "SELECT count(*) FROM devices WHERE instance IS NOT NULL")[0][0]
    judge.is_right("devices have moved", places > len(devices), places)
    # Each to a place of its own at last; all others are stopped.
    for device in devices:
        moves(device)
        judge.is_right("where it is at last", judge.ran(["keep", file, device.address])[0] in (2, 3))
    here = {device.address for device in devices}
    for address, in in_file(file, "SELECT address FROM devices"):
        if address not in here:
            judge.same("where none is", judge.ran(["keep", file, "--stop", address])[0], 0)
    judge.tells("all of them", judge.ran(["keep", file]), 0,
                *(line(device, number, 0, f"caught up, next {log.total + 1}") for device in devices for number, log in device.logs.items()))
    judge.judge("all of them", file, devices)
    return f"{rounds} runs, devices at {places} places"
