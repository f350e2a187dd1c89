"""Devices that begin anew while a run asks them, for kept.py: behind each answer of a run in turn, and in runs that are killed."""
import datetime
import os
import subprocess
import threading

from kept_devices import Device, Log, chance, lock, serve
from kept_judge import rows_of
from kept_lines import Rows

# One that waits as long as a busy machine may need, and one that doesn't wait long for what was lost.
LONG, SHORT = ("--timeout=5000",), ("--timeout=60", "--retries=2")
LOGS, RUNS, ANSWERS = 4, 60, 12
# The device whose replies have a record each.
SHORT_REPLIES = 4


class Twice(Device):
    """It gives each answer again, now and then."""

    def answer(self, port, request, asker):
        super().answer(port, request, asker)
        if self.chance.random() < 0.3:
            super().answer(port, request, asker)


class Late(Device):
    """Some of its answers come late: while its next question is open, say."""

    def answer(self, port, request, asker):
        if self.chance.random() < 0.1:
            threading.Timer(0.09, super().answer, (port, request, asker)).start()
        else:
            super().answer(port, request, asker)


def site():
    """Eight devices of four logs each, of which some tell when they were started."""
    devices = [kind([Log(number, 30 if at == SHORT_REPLIES else chance.choice((30, 100, 400))) for number in range(1, LOGS + 1)], f"plant {at}")
               for at, kind in enumerate([Device, Device, Twice, Late] * 2)]
    devices[1].uncounted = {1, 2}
    devices[SHORT_REPLIES].fits = (1,)
    for at, device in enumerate(devices):
        device.restart = None if at % 3 else datetime.datetime(2024, 1, 1)
        for log in device.logs.values():
            log.log(5)
    serve(devices)
    return devices


def named(devices, file, *options):
    """The words of a run over all their logs."""
    return ["keep", file, *options, *[word for device in devices for number in device.logs for word in (device.address, str(number))]]


def starts(device):
    """It is started, and tells that if it tells it at all; each log begins anew, dated behind that."""
    when = max(log.clock for log in device.logs.values()) + datetime.timedelta(minutes=1)
    device.restart = when if device.restart else None
    for log in device.logs.values():
        log.clock = when
        log.begin(0)


def starts_behind(device, answers):
    """It is started behind so many more answers with records, and its logs log again."""
    def act():
        if answers:
            device.then[131] = lambda: starts_behind(device, answers - 1)
            return
        starts(device)
        for log in device.logs.values():
            log.log(chance.choice((3, 25, 90)))
    with lock:
        device.then[131] = act


def ended(judge, words, how, file):
    """Whether a run was killed: after some time, or before a call on files; or not. What it told last may be lost then: that a log
    goes on, or began anew, stands in no row, so it may be so of each log where it went on."""
    before = Rows(rows_of(file)) if os.path.exists(file) else None
    process = judge.started(words, env=judge.ending_at(chance.randrange(1, 90)) if how == "call" else None)
    try:
        errors = process.communicate(timeout=chance.uniform(0.05, 0.6) if how == "after" else 120)[1]
    except subprocess.TimeoutExpired:
        process.kill()
        errors = process.communicate()[1]
    judge.hears(errors.decode())
    if process.returncode < 0 and before:
        judge.doubts.update((name, before.next_of(name)) for name in before.of)
    return process.returncode, errors.decode()


def settles(judge, name, file, devices):
    """A whole run over devices that answer, which has to catch up with all."""
    with lock:
        for device in devices:
            device.loses = 0.0
            device.then.clear()
    status, errors = ended(judge, named(devices, file, *LONG), "itself", file)
    # Of an empty log that refuses its count nothing is known.
    unknown = any(not log.held and number in device.uncounted for device in devices for number, log in device.logs.items())
    judge.is_right(f"{name}: it ends well", status == (3 if unknown else 0), (status, errors[-300:]))
    judge.judge(f"{name}: its rows", file, devices, True)


def started_meanwhile(judge, _runs):
    """Devices are started behind each answer of a run in turn; of each three runs two are killed."""
    devices, file = site(), f"{judge.room}/meanwhile.db"
    settles(judge, "before", file, devices)
    for answers in range(ANSWERS):
        for how in ("itself", "after", "call"):
            with lock:
                for device in devices:
                    for log in device.logs.values():
                        log.log(chance.choice((3, 60, 500)))
                    starts_behind(device, answers)
            name = f"started behind answer {answers}, {how}"
            ended(judge, named(devices, file, *LONG), how, file)
            judge.judge(name, file, devices)
            settles(judge, f"{name}, and again", file, devices)
    return f"{3 * ANSWERS} runs"


def started_and_killed(judge, _runs):
    """Runs that are ended anywhere, most of them, between which devices go on, fall silent, are started or purge their logs."""
    devices, file, killed = site(), f"{judge.room}/killed.db", 0
    for at in range(RUNS):
        with lock:
            for device in devices:
                device.loses = chance.choice((0.0, 0.0, 0.1, 1.0 if chance.random() < 0.2 else 0.0))
                if chance.random() < 0.1:
                    starts(device)
                for log in device.logs.values():
                    log.log(chance.choice((0, 1, 5, 40, 150)))
                    if chance.random() < 0.06:
                        log.begin(0)
                        log.log(chance.choice((0, 1, 20)))
                    if chance.random() < 0.04:
                        log.purge()
        how = chance.choice(("after", "call", "itself"))
        killed += ended(judge, named(devices, file, *SHORT), how, file)[0] < 0
        if os.path.exists(file):
            judge.judge(f"run {at}, {how}", file, devices)
        if at % 10 == 9:
            settles(judge, f"behind run {at}", file, devices)
    judge.is_right("runs are killed", killed > RUNS / 6, killed)
    return f"{RUNS} runs, {killed} of them killed"
