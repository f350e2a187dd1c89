"""What is kept of many replies goes to the disk together, for kept.py: how often a run waits for it, and what is left and was
told of a run that is killed."""
import os
import shutil
import signal

from kept_apart import in_file, line
from kept_devices import Device, Log, lock, serve

DEVICES, LOGS, NEW = 8, 9, 3


def rows_by_log(file):
    """How many items each log has in the file, by address and instance."""
    return {(address, instance): count for address, instance, count in in_file(
        file, "SELECT d.address, l.instance, count(i.id) FROM logs l JOIN devices d ON d.id = l.device "
        "LEFT JOIN items i ON i.id >> 47 = l.id GROUP BY l.id")}


def synced(judge, words):
    """The status of a run, and how often it waited for the disk."""
    told, to = os.pipe()
    status, *_ = judge.ran(words, env={**judge.ending_at(0), "TOLD": str(to)}, pass_fds=[to])
    os.close(to)
    with os.fdopen(told) as counts:
        return status, int(counts.read())


def new_records(devices):
    with lock:
        for device in devices:
            for log in device.logs.values():
                log.log(NEW)


def groups(judge, _runs):
    """Replies of 72 logs: a few waits for the disk, what came of a reply is in the file whole or not at all, and what a line tells is
    in it behind any end."""
    devices = [Device([Log(number, 400) for number in range(1, LOGS + 1)], f"grouped{n}") for n in range(DEVICES)]
    for device in devices:
        device.fits = (45,)
    serve(devices)
    new_records(devices)
    file = f"{judge.room}/a.db"
    words = [word for device in devices for word in (device.address, *map(str, device.logs))]
    judge.same("a first run", judge.ran(["keep", file, *words])[0], 0)
    status, none = synced(judge, ["keep", file])
    judge.same("nothing new", status, 0)
    new_records(devices)
    status, some = synced(judge, ["keep", file])
    # One of each log would be 72 more.
    judge.is_right(f"waits for the disk: {some}, and {none} with nothing new", status == 0 and some - none <= 8)
    judge.judge("all of it", file, devices, True)
    ends, seen = 0, set()
    for call in range(1, 400, 3):
        new_records(devices)
        before = rows_by_log(file)
        status, out, _ = judge.ended_at(call, ["keep", file])
        copy = f"{judge.room}/copy.db"
        for end in ("", "-wal"):
            if os.path.exists(copy + end):
                os.remove(copy + end)
            if os.path.exists(file + end):
                shutil.copyfile(file + end, copy + end)
        after = rows_by_log(copy)
        told = out.splitlines(True)
        kept = [key for key in before if after[key] > before[key]]
        judge.judge(f"ended at call {call}", file, devices)
        # All that is new of a log fits one reply.
        came = {after[key] - before[key] for key in kept}
        judge.is_right(f"ended at call {call}: whole replies", came <= {NEW}, came)
        seen.add(len(kept))
        of = {device.address: device for device in devices}
        judge.same(f"ended at call {call}: what is told is kept", [row for row in told if tuple_of(row) not in kept], [])
        ends += status == -signal.SIGKILL
        if status != -signal.SIGKILL:
            break
        judge.ran(["keep", file])
    judge.is_right("calls are counted", ends > 4 and 0 in seen and DEVICES * LOGS in seen, f"{ends} ends, {seen}")
    judge.tells("the whole run's lines", (status, out, ""), 0, *(line(of[address], instance, NEW, f"caught up, next {of[address].logs[instance].total + 1}")
                                                               for address, instance in before))
    return f"{some} waits for the disk, {none} with nothing new; ended at {ends} calls"


def tuple_of(row):
    """The log that a line is of."""
    address, instance, *_ = row.split()
    return address, int(instance)
