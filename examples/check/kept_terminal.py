"""The count of records on a terminal while `bac keep` runs, for kept.py."""
import os
import pty
import re
import signal
import sqlite3
import subprocess
import threading
import time

from kept_devices import Device, Log, chance, serve
from kept_rounds import one, said

SHOWN = re.compile(r"\r([\d.:]+) 1 (?P<records>\d+) records")
SITE = re.compile(r"\r(\d+) of 3 devices, (?P<records>\d+) records, (\d+) s")


class Terminal:
    """A terminal, and what was written to it."""

    def __init__(self):
        self.ours, self.theirs = pty.openpty()
        self.octets = b""
        self.reader = threading.Thread(target=self.read, daemon=True)
        self.reader.start()

    def read(self):
        while True:
            try:
                some = os.read(self.ours, 4096)
            except OSError:
                return
            if not some:
                return
            self.octets += some

    def text(self):
        """All that was written, once no program has it open any more."""
        os.close(self.theirs)
        self.reader.join(30)
        return self.octets.decode().replace("\r\n", "\n")


def items(file):
    """How many rows of items a file has."""
    base = sqlite3.connect(file)
    count = base.execute("SELECT count(*) FROM items").fetchone()[0]
    base.close()
    return count


def kept(judge, words, out, errors, surroundings=None):
    """A run with these streams: its status, and what they have if they are pipes."""
    process = subprocess.Popen([judge.program, "keep", *words], stdin=subprocess.DEVNULL, stdout=out, stderr=errors,
                               env=surroundings)
    texts = process.communicate(timeout=120)
    return (process.returncode, *(text and text.decode() for text in texts))


def ended_at_calls(judge, words, devices, shown, counts_of_logs, step):
    """Runs that are ended before a call on files, so many further each time: what was counted is in the file. Each log logs so
    many before."""
    counted = 0
    for call in range(1, 400, step):
        for log in [log for device in devices for log in device.logs.values()]:
            log.log(chance.choice(counts_of_logs))
        had, screen = items(words[0]), Terminal()
        status = kept(judge, [*words, "--timeout=5000"], screen.theirs, screen.theirs, judge.ending_at(call))[0]
        counts = [int(each["records"]) for each in shown.finditer(screen.text())]
        counted += len(counts)
        now = items(words[0]) - had
        judge.is_right(f"counted before call {call}", not counts or counts[-1] <= now, f"{counts}, and {now} rows")
        judge.judge(f"counted before call {call}", words[0], devices)
        if status != -signal.SIGKILL:
            break
    judge.is_right("calls", status == 0 and call > 20, (status, call))
    judge.lacks("count", f"counted before each of {call} calls", counted > 0)
    return f"{counted} counts in runs that were ended at {call} calls"


def waits_late(device, answers, seconds):
    """A device that waits so long behind so many answers with records, once."""
    def answered():
        nonlocal answers
        answers -= 1
        if answers:
            device.then[131] = answered
        else:
            time.sleep(seconds)
    device.then[131] = answered


def of_three(judge):
    """Over three devices those that are done are counted, the records and the seconds, and nothing of it stays: that lacks."""
    devices = [Device([Log(number, 5000) for number in (1, 2, 3)], f"plant {at}") for at in range(3)]
    logged = (200, 300, 3000)
    for device, count in zip(devices, logged):
        for log in device.logs.values():
            log.log(count)
    serve(devices)
    # More than are asked for at once, before the first log, and fewer than its logs have.
    waits_late(devices[2], 150, 1.2)
    words, screen = [f"{judge.room}/three.db"], Terminal()
    for device in devices:
        words += [device.address, "1", "2", "3"]
    begun = time.monotonic()
    judge.same("of three devices", kept(judge, words, screen.theirs, screen.theirs)[0], 0)
    lasted, text = time.monotonic() - begun, screen.text()
    counts = [tuple(int(number) for number in count) for count in SITE.findall(text)]
    done, records, seconds = ([count[at] for count in counts] for at in range(3))
    for name, numbers in (("devices", done), ("records", records), ("seconds", seconds)):
        judge.is_right(f"{name} never fall", numbers == sorted(numbers), numbers)
    judge.lacks("count", "none is done as the first log is waited for", counts[:1] == [(0, 0, 0)])
    judge.lacks("count", "how many are done", sorted(set(done)) == [0, 1, 2])
    judge.lacks("count", "all records at last", records[-1:] == [10500])
    judge.lacks("count", "the seconds", bool(seconds) and 1 <= seconds[-1] <= lasted)
    lines = "".join(f"{device.address} {number} {count} records 0 gaps caught up, next {count + 1}\n"
                    for device, count in zip(devices, logged) for number in (1, 2, 3))
    judge.tells("the lines that stay", (0, re.sub(rf"(?:{SITE.pattern})+\r\x1b\[K", "", text), ""), 0, lines)
    judge.judge("of three devices", words[0], devices, True)
    return ended_at_calls(judge, words, devices, SITE, (1, 1, 1, 50), 9)


def terminals(judge, _runs):
    """A count is on a terminal while a run goes on, never more than the file has, and nothing of it stays: that lacks. Where
    the output or the errors are no terminal there is none."""
    device, log = one(room_for=5000, count=1234)
    words = [f"{judge.room}/a.db", device.address, "1"]
    both = Terminal()
    judge.same("with a terminal", kept(judge, words, both.theirs, both.theirs)[0], 0)
    text = both.text()
    counts = [int(count) for address, count in SHOWN.findall(text) if address == device.address]
    judge.lacks("count", "counts rise up to all", len(counts) > 10 and counts == sorted(counts) and counts[-1] == 1234)
    judge.same("the line that stays", SHOWN.sub("", text).removeprefix("\r\x1b[K"), said(device, 1234, 0, "caught up, next 1235"))
    log.log(3)
    for name, out_is_one in (("the output alone is one", True), ("the errors alone are one", False)):
        half = Terminal()
        streams = (half.theirs, subprocess.PIPE) if out_is_one else (subprocess.PIPE, half.theirs)
        status, out, errors = kept(judge, words, *streams)
        line = said(device, 3 if out_is_one else 0, 0, "caught up, next 1238")
        want = (0, line, "") if out_is_one else (0, "", line)
        judge.same(name, (status, half.text(), (errors if out_is_one else out) or ""), want)
    ended = ended_at_calls(judge, words, [device], SHOWN, (200,), 1)
    return f"{ended}, of three devices {of_three(judge)}"
