#!/usr/bin/env python3
"""kept.py PROGRAM ROOM RUNS SEED KILLS: judges `PROGRAM keep` from outside, for kept.sh.

RUNS runs keep the logs of four sites, two in a file of their own each and two in a folder of small parts, while the
devices of kept_devices.py log records, lose datagrams, purge and overwrite their logs, set their clocks back, are started
and begin anew; most of the runs are ended by SIGKILL at any moment. So are those over two sites of 50 devices, some of
which are dead, slow or late, or answer again (kept_fifty.py). Others are ended before each of their calls on files in
turn, by KILLS, the library of kills.c, or have that call fail. After each run the file is compared with what the devices
logged (kept_judge.py). The cases of kept_cases.py follow. As many of all that as there are cores go on at once. Prints
what is wrong, with the seed, and `N passed, M failed` at the end."""
import collections
import datetime
import multiprocessing
import os
import signal
import subprocess
import sys
import time

import kept_cases
from kept_apart import in_file
from kept_archives import OneFile, Parts
from kept_changes import changed, started
from kept_devices import LAST, Device, Log, chance, lock, serve
from kept_fifty import fifty_in_a_file, fifty_in_parts
from kept_fifty_judged import fifty_judged
from kept_judge import LOGS, Judge
from kept_known import KNOWN
from kept_limits import at_most, is_full
from kept_lines import in_doubt

SITES = 4


# A run that waits as long as a busy machine may need, and one that doesn't wait long for what was lost.
LONG, SHORT = ("--timeout=5000",), ("--timeout=20", "--retries=1")


def whole(words):
    """A run over a file that waits long."""
    return ["keep", *words, *LONG]


def doubted(judge, name, devices, archive, errors):
    """Nothing is in doubt that can't be, by the file that was judged last. How many logs are."""
    logs = in_file(f"{archive.judged}.copy", LOGS)
    doubts, wrong = in_doubt(logs, [device for device in devices if not device.loses], errors)
    judge.is_right(f"{name}: what is in doubt", not wrong, wrong)
    return len(doubts)


def settle(judge, name, devices, archive):
    """A whole run, which has to catch up with all."""
    with lock:
        for device in devices:
            device.loses = 0.0
    status, out, errors = judge.ran(archive.keep(*LONG))
    doubted(judge, name, devices, archive, errors)
    judge.is_right(f"{name}: a whole run", status == 0, f"status {status}: {out} {errors}")
    archive.judge(judge, f"{name}: all of it", devices, True)
    for device in devices:
        for log in device.logs.values():
            log.fresh = False
    return errors.count(": began anew\n")


def a_run(judge, archive, seconds):
    """A run that is killed after so many seconds, if it hasn't ended; its status and what it told."""
    process = judge.started(archive.keep(*SHORT))
    try:
        errors = process.communicate(timeout=seconds)[1]
    except subprocess.TimeoutExpired:
        process.kill()
        errors = process.communicate()[1]
    judge.hears(errors.decode())
    return process.returncode, errors.decode()


def site():
    """64 logs of 8 devices. Some tell both when they were started and their revision, some one of them, and some neither."""
    devices = [Device([Log(number, chance.choice((40, 100, 400))) for number in range(1, 9)], f"plant {at}")
               for at in range(8)]
    for at, device in enumerate(devices):
        device.restart = datetime.datetime(2024, 1, 1) if at % 4 < 2 else None
        device.revision = at if at % 3 < 2 else None
        for log in device.logs.values():
            # The numbers of some come round in these runs.
            if chance.random() < 0.25:
                log.begin(LAST - chance.randrange(1000))
                log.fresh = False
            log.log(chance.randrange(200))
    serve(devices)
    return devices


def in_one_file(judge, runs):
    """Runs over a site that is kept in a file."""
    return at_random(judge, runs, OneFile(f"{judge.room}/site.db"))


def in_parts(judge, runs):
    """Runs over a site that is kept in parts."""
    return at_random(judge, runs, Parts(f"{judge.room}/site"))


def at_random(judge, runs, archive):
    """Runs over a site, most of which are killed at a random moment."""
    devices = site()
    # Four devices are named log by log, the others by their Object_List.
    for at, device in enumerate(devices):
        named = [str(instance) for instance in device.logs] if at < 4 else []
        status, out, errors = judge.ran(archive.keep(device.address, *named, *LONG))
        # A run polls all that is on record.
        judge.is_right("a device is added", status == 0 and out.count("caught up") == 8 * (at + 1), f"{status}: {out} {errors}")
    archive.judge(judge, "all logs are added", devices, True)
    began = time.monotonic()
    settle(judge, "the first run", devices, archive)
    took = time.monotonic() - began
    ends, anew, doubts = collections.Counter(), 0, 0
    for at in range(runs):
        with lock:
            for device in devices:
                device.loses = chance.choice((0, 0, 0, 0.05, 0.3))
                if chance.random() < 0.1:
                    started(device)
                for log in device.logs.values():
                    if chance.random() < 0.3:
                        changed(device, log)
        archive.goes_on()
        status, errors = a_run(judge, archive, chance.uniform(0, 1.5 * took) if chance.random() < 0.75 else 120)
        ends[status] += 1
        anew += errors.count(": began anew\n")
        doubts += doubted(judge, f"run {at}", devices, archive, errors)
        judge.is_right(f"run {at}", status in (-signal.SIGKILL, 0, 2), f"status {status}: {errors}")
        archive.judge(judge, f"run {at}", devices)
        if at % 10 == 9 or at == runs - 1:
            anew += settle(judge, f"behind run {at}", devices, archive)
    # Were there none of them, the runs above would show nothing.
    if runs >= 20:
        judge.is_right("runs are killed", ends[-signal.SIGKILL] >= runs // 5, dict(ends))
        judge.is_right("devices begin anew", anew > 0 and doubts > 0, (anew, doubts))
        archive.is_over(judge)
    return f"{runs} runs, {ends[-signal.SIGKILL]} of them killed, {ends[2]} lost a log; {anew} times a log began anew, {doubts} times it may have"


def few():
    devices = [Device([Log(1, 50), Log(2, 200)], "few")]
    devices[0].logs[1].log(3)
    serve(devices)
    return devices


def at_each_call(judge, _runs):
    """A run is ended before each of its calls on files in turn, twice over."""
    devices, file, count = few(), f"{judge.room}/few.db", 0
    judge.ran(whole([file, devices[0].address, "1", "2"]))
    for _turn in range(2):
        for call in range(1, 400):
            with lock:
                for log in devices[0].logs.values():
                    log.log(chance.randrange(1, 4))
            status, out, errors = judge.ended_at(call, whole([file]))
            count += 1
            judge.judge(f"ended at call {call}", file, devices)
            if status != -signal.SIGKILL:
                break
        judge.is_right("calls are counted", status == 0 and call > 5, f"status {status} at call {call}: {errors}")
        settle(judge, f"behind {call} calls", devices, OneFile(file))
    return f"{count} runs were ended at a call on files"


def a_first_run_at_each_call(judge, _runs):
    """The run that makes a file is ended before each of its calls in turn, and another follows."""
    devices, file = few(), f"{judge.room}/first.db"
    words = whole([file, devices[0].address, "1", "2"])
    for call in range(1, 400):
        for end in ("", "-wal"):
            if os.path.exists(file + end):
                os.remove(file + end)
        ended = judge.ended_at(call, words)[0]
        status, out, errors = judge.ran(words)
        judge.is_right(f"behind a first run, ended at call {call}", status == 0, f"status {status}: {out} {errors}")
        judge.judge(f"behind a first run, ended at call {call}", file, devices, True)
        if ended != -signal.SIGKILL:
            break
    judge.is_right("calls of a first run are counted", ended == 0 and call > 5, f"status {ended} at call {call}")
    return f"{call} first runs were ended at a call on files"


def faults_at_each_call(judge, _runs):
    """Each of a run's calls on files fails in turn, as on a bad disk: it is told, and nothing that was kept is lost."""
    devices, file = few(), f"{judge.room}/faults.db"
    judge.ran(whole([file, devices[0].address, "1", "2"]))
    in_the_close = 0
    for call in range(1, 400):
        with lock:
            for log in devices[0].logs.values():
                log.log(chance.randrange(1, 4))
        status, out, errors = judge.ran(whole([file]), env={**judge.ending_at(call), "FAILS": "yes"})
        judge.judge(f"call {call} failed", file, devices)
        if status == 0:
            break
        # Behind what was told of logs.
        is_told = errors.splitlines()[-2:-1] == ["file fault"]
        judge.is_right(f"call {call} failed", status == 6 and is_told, f"status {status}: {out} {errors}")
        in_the_close += out.count("caught up") == 2
    judge.is_right("calls that fail are counted", status == 0 and call > 5, f"status {status} at call {call}: {errors}")
    # All lines were printed, so what failed is the close.
    judge.is_right("a close that fails is told", in_the_close > 0)
    settle(judge, f"behind {call} faults", devices, OneFile(file))
    return f"{call} calls on files failed"


def full_disk(judge, _runs):
    """No file may grow beyond a limit."""
    devices, file, ends = few(), f"{judge.room}/full.db", collections.Counter()
    words = whole([file, devices[0].address, "1", "2"])
    for limit in (0, 512, 4096, 8192, 12000, 16384, 20000, 24576, 30000, 40000, 80000, 150000, 600000):
        with lock:
            for log in devices[0].logs.values():
                log.log(60)
        status, out, errors = judge.ran(words, preexec_fn=at_most(limit))
        ends[status] += 1
        right = status == 0 or (status, errors) == is_full(file)
        judge.is_right(f"at most {limit} octets", right, f"status {status}: {out} {errors}")
        # A new file that is cut within its first page keeps nothing, and the next run makes it whole.
        if os.path.getsize(file) >= 4096:
            judge.judge(f"at most {limit} octets", file, devices)
    judge.is_right("disks are full", ends[6] >= 4 and ends[0] >= 1, dict(ends))
    judge.ran(words)
    judge.judge("after the disk was full", file, devices, True)
    return f"{sum(ends.values())} runs on a disk that fills up"


def run_job(job):
    """What a job counted: its line, how many passed and failed, and what is wrong."""
    task, name, runs, (program, room, seed, kills) = job
    chance.seed(f"{seed} {name}")
    judge = Judge(program, kills, f"{room}/{name}")
    os.mkdir(judge.room)
    began = time.monotonic()
    try:
        line = task(judge, runs)
    except Exception as error:  # what stops a judge is a failure
        line = ""
        judge.is_right(name, False, f"{type(error).__name__}: {error}")
    seeded = f" (seed {seed})" if judge.failed else ""
    return f"{name}, {time.monotonic() - began:.0f} s{seeded}: {line or ''}", judge.passed, judge.failed, judge.told, judge.known


def main(program, room, runs, seed, kills):
    common = (program, room, seed, kills)
    tasks = [fifty_in_a_file, fifty_in_parts, fifty_judged, at_each_call, a_first_run_at_each_call, faults_at_each_call,
             full_disk, *kept_cases.CASES]
    share = -(-int(runs) // SITES)
    jobs = [((in_one_file, in_parts)[at % 2], f"at_random_{at}", share, common) for at in range(SITES)]
    jobs += [(task, task.__name__, 0, common) for task in tasks]
    passed = failed = 0
    known = collections.Counter()
    with multiprocessing.get_context("fork").Pool(min(SITES, os.cpu_count()), maxtasksperchild=1) as pool:
        for line, well, badly, told, lacking in pool.imap_unordered(run_job, jobs):
            passed, failed = passed + well, failed + badly
            known += lacking
            print(line, *told[:10], sep="\n", flush=True)
    for what, rows in known.items():
        print(f"known to lack, {rows} {'row' if rows == 1 else 'rows'}: {KNOWN[what]}")
    print(f"{passed} passed, {failed} failed")
    return failed == 0


if __name__ == "__main__":
    sys.exit(0 if main(*sys.argv[1:]) else 1)
