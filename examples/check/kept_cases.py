"""Cases of `bac keep` and `bac kept` for kept.py, each with devices and files of its own."""
import csv
import datetime
import io
import os
import re
import select
import shutil
import sqlite3
import subprocess
import sys
import time

from checked import NOTHING, checked, checked_parts
from kept_apart import QUICK, dead_at_once, dead_devices, last_epoch, line, new_logs
from kept_at_once import at_once, each_option, ids_go_on, ids_go_on_behind_the_longest, lists_at_once, own_address, own_address_echoes, silent_lists, whole_lists
from kept_beside import objects_beside
from kept_clocks import clocks, doubts_of, either_line, gaps_of, questions
from kept_converted import converted_files
from kept_dates import dates, last_records
from kept_devices import Device, Log, chance, serve, wait_until_asked
from kept_doubts import emptied, never_begun, overwritten, told_at_once
from kept_files import barred
from kept_groups import groups
from kept_holes import holes, holes_in_parts
from kept_json import json_lines
from kept_json import json_lines
from kept_judge import in_use, no_use, wrongs
from kept_limits import file_limits, part_limits
from kept_more import listed, listed_twice, said_more, several, unlisted
from kept_moved import moved, moved_at_each_call, moved_at_random, moved_ways, told_later, two_of_one
from kept_names import names
from kept_rounds import anew, dropped, one, rounds, said, silent, whys_of, why
from kept_restarts import started_and_killed, started_meanwhile
from kept_stopped import stopped
from kept_terminal import terminals
from kept_folders import folders, folders_damaged
from kept_parts import parts, parts_ended, parts_refused
from kept_told import no_route, told_among_others, told_beside
from kept_waits import waited, waited_for_parts, waited_in_vain
from kept_whose import asked_at_once, other_devices
from kept_window import window
from kept_words import first_answers, own_lives, own_rule, own_words, renewed

TOP = os.path.realpath(os.path.join(os.path.dirname(__file__), "../.."))
USE = f"{TOP}/examples/use"


def run_after_run(judge, _runs):
    """What is new each time, and nothing if nothing is; the file's name may be a link, and its mode stays."""
    device, log = one()
    file = f"{judge.room}/a.db"
    judge.same("an empty log", judge.ran(["keep", file, device.address, "1"]),
               (0, said(device, 0, 0, "caught up, next 1"), ""))
    for count in (0, 6, 0, 4, 1):
        log.log(count)
        judge.same(f"{count} more", judge.ran(["keep", file]),
                   (0, said(device, count, 0, f"caught up, next {log.total + 1}"), ""))
    log.purge()
    judge.same("behind a purge", judge.ran(["keep", file]), (0, said(device, 0, 0, "caught up, next 12"), ""))
    log.log(2)
    judge.tells("and records again", judge.ran(["keep", file]), 0, why(device, 1, "goes on at 12, or began anew"), said(device, 2, 0, "caught up, next 14"))
    judge.lacks("goes on", "and records again: a row tells it", any(text for *_, text in whys_of(file)) or doubts_of(file))
    log.log(3)
    log.purge()
    log.log(1)
    judge.tells("what was purged is a gap", judge.ran(["keep", file]), 0, dropped(device, 14, 16), said(device, 1, 1, "caught up, next 18"))
    os.chmod(file, 0o640)
    os.symlink("a.db", f"{judge.room}/link")
    before = os.stat(file)
    log.log(2)
    judge.same("by a link", judge.ran(["keep", f"{judge.room}/link"])[:2], (0, said(device, 2, 0, "caught up, next 20")))
    after = os.stat(file)
    judge.same("the file and its mode stay", (after.st_ino, after.st_mode), (before.st_ino, before.st_mode))
    judge.is_right("the link stays", os.path.islink(f"{judge.room}/link"))
    judge.judge("by a link", file, [device], True)
    judge.same("no other file is left", sorted(os.listdir(judge.room)), ["a.db", "a.db-wal", "a.db.copy", "link"])
    judge.is_right("no record is in the log beside it", os.path.getsize(f"{file}-wal") < 4096)


def beginnings(judge, _runs):
    """A first run that finds nothing keeps where the log begins: what is logged and dropped before the next one is a gap."""
    uncounted_end = "shows no record, and refuses its count, next 1"
    for name, before, more, uncounted, first in (("an empty log", 0, 130, False, 1), ("a log that was purged", 7, 60, False, 8),
                                                 ("a log without a count", 7, 60, True, 1)):
        device, log = one(count=before)
        file = f"{judge.room}/{before}{uncounted}.db"
        log.purge()
        device.uncounted = {1} if uncounted else set()
        for words in ([device.address, "1"], []):
            status, end = (3, uncounted_end) if uncounted and not words else (0, f"caught up, next {first}")
            judge.tells(f"{name} {words}", judge.ran(["keep", file, *words]), status, said(device, 0, 0, end))
            judge.same(f"{name}: where it begins {words}", whys_of(file), [(0, first, None)])
        log.log(more)
        end = f"caught up, next {before + more + 1}"
        # One that had logged nothing, as far as is known, has dropped these whatever its life.
        told = dropped(device, first, before + more - 50) if first > 1 else ""
        judge.tells(f"{name} fills and drops", judge.ran(["keep", file]), 0, told, said(device, 50, 1, end))
        judge.same(f"{name}: whether that is for sure", bool(doubts_of(file)), first > 1)
        judge.judge(f"{name} fills and drops", file, [device], True)
        judge.same(f"{name}: what it dropped is a gap", gaps_of(file), [(0, first, before + more - 50)])
    # Few records, behind those that were purged; and none but those of a new life.
    device, log = one()
    file = f"{judge.room}/purged.db"
    judge.ran(["keep", file, device.address, "1"])
    log.log(30)
    log.purge()
    log.log(2)
    judge.tells("behind a purge", judge.ran(["keep", file]), 0, said(device, 2, 1, "caught up, next 33"))
    judge.judge("behind a purge", file, [device], True)
    for name, count, records, gaps in (("fewer", 3, 3, 0), ("as many", 40, 40, 0), ("more, and the last one is held", 60, 50, 1)):
        log.begin(0)
        log.log(40)
        log.purge()
        file = f"{judge.room}/{count}.db"
        judge.ran(["keep", file, device.address, "1"])
        log.begin(0)
        log.log(count)
        judge.tells(f"a new life behind an empty one: {name}", judge.ran(["keep", file]), 0, anew(device), said(device, records, gaps, f"caught up, next {count + 1}"))
        judge.judge(f"a new life behind an empty one: {name}", file, [device], True)
    # A first run that is lost, or ends early, has only the number behind those that are counted.
    device, log = one(count=9)
    file = f"{judge.room}/lost.db"
    device.answers = 5
    judge.tells("counted, and then lost", judge.ran(["keep", file, device.address, "1", *QUICK]), 2, said(device, 0, 0, "lost, next 1"))
    judge.same("counted, and then lost: where it begins", whys_of(file), [(0, 10, "counted")])
    device.answers = None
    judge.same("and whole", judge.ran(["keep", file, device.address, "1"]), (0, said(device, 9, 0, "caught up, next 10"), ""))
    judge.same("and whole: where it begins", whys_of(file), [(0, 1, None)])
    judge.judge("and whole", file, [device], True)


def options(judge, _runs):
    """The way to a device is kept with its logs; the options of time and of our own address go for each run."""
    device, log = one(way=(5, b"\x07"), count=3)
    file = f"{judge.room}/a.db"
    way = "/5/07"
    judge.same("through a router", judge.ran(["keep", file, device.address, "1", "--dnet=5", "--dadr=07"]),
               (0, said(device, 3, 0, "caught up, next 4", way), ""))
    log.log(1)
    judge.same("and again", judge.ran(["keep", file]), (0, said(device, 1, 0, "caught up, next 5", way), ""))
    for bad in ("--local=127.77.5.1:0", "--timeout=0", "--retries=11"):
        before = device.asked
        status, out, errors = judge.ran(["keep", file, bad])
        judge.is_right(bad, status == 1 and out == "" and errors.startswith("bad value\n") and device.asked == before, errors)
    port = 20000 + chance.randrange(9000)
    judge.ran(["keep", file, f"--local=127.77.5.1:{port}"])
    judge.same("--local", device.asker, f"127.77.5.1:{port}")
    device.answers = 0
    # Longer than what is waited without the option: a busy machine can't fail it.
    for timeout, retries in ((4, 0), (0.05, 2)):
        before, began = device.asked, time.monotonic()
        judge.tells("nobody answers", judge.ran(["keep", file, f"--timeout={timeout * 1000:.0f}", f"--retries={retries}"]), 2, silent(device, (1,), way))
        took, asks = time.monotonic() - began, device.asked - before
        judge.is_right("--timeout and --retries", took >= timeout and asks == retries + 1, (took, asks))


def losses(judge, _runs):
    """A run that is lost keeps what came, and the next one goes on; so does one that is killed while it waits."""
    device, log = one(room_for=400, count=150)
    file = f"{judge.room}/a.db"
    device.answers = 0
    judge.tells("a first run that is lost", judge.ran(["keep", file, device.address, "1", *QUICK]), 2, silent(device))
    device.answers, device.fits = 6, (45,)
    judge.tells("lost after two answers", judge.ran(["keep", file, device.address, "1", *QUICK]), 2, said(device, 45, 0, "lost, next 46"))
    device.fits = (1, 7, 30, 45)
    judge.judge("lost after two answers", file, [device])
    device.answers, before = 0, device.asked
    process = judge.started(["keep", file, "--timeout=60000"])
    wait_until_asked(device, before)
    judge.same("a second run", judge.ran(["keep", file, "--wait=0", *QUICK]), in_use(file))
    for tool in ("kept", "check"):
        judge.same(f"{tool} beside a run", judge.ran([tool, file, "--wait=0"]), in_use(file))
    process.kill()
    process.communicate()
    device.answers = None
    judge.same("behind a run that is killed", judge.ran(["keep", file])[0], 0)
    judge.judge("behind a run that is killed", file, [device], True)
    # Held back until the second run has ended, the first goes on.
    log.log(5)
    device.open.clear()
    before = device.asked
    process = judge.started(["keep", file, "--timeout=60000"])
    wait_until_asked(device, before)
    judge.same("a second run again", judge.ran(["keep", file, "--wait=0", *QUICK]), in_use(file))
    device.open.set()
    out = process.communicate(timeout=60)[0].decode()
    judge.same("the first run", (process.returncode, out), (0, said(device, 5, 0, "caught up, next 156")))
    judge.judge("the first run", file, [device], True)
    other = Device([Log(1, 50)], "other")
    other.logs[1].log(3)
    serve([other])
    device.answers = 0
    judge.ran(["keep", file, other.address, "1"])
    other.logs[1].log(1)
    judge.tells("a device that doesn't answer doesn't stop the others", judge.ran(["keep", file, *QUICK]), 2,
                silent(device), said(other, 1, 0, "caught up, next 5"))


def line_by_line(judge, _runs):
    """The line of a log can be read while its device holds back what it is asked for the next one."""
    device = Device([Log(1, 50), Log(2, 50)], "lines")
    device.fits = (45,)
    serve([device])
    for log in device.logs.values():
        log.log(3)
    file = f"{judge.room}/a.db"
    judge.ran(["keep", file, device.address])
    device.logs[2].log(1)
    # It answers the question for the first log, and is held back then.
    device.then[131] = device.open.clear
    process = judge.started(["keep", file, "--timeout=60000"])
    # A line that isn't written yet would come only once the device answers.
    ready = select.select([process.stdout], [], [], 30)[0]
    judge.same("a line comes before the next log", os.read(process.stdout.fileno(), 4096).decode() if ready else "nothing",
               f"{device.address} 1 0 records 0 gaps caught up, next 4\n")
    end = time.monotonic() + 30
    while device.open.is_set() and time.monotonic() < end:
        time.sleep(0.002)
    device.open.set()
    out, errors = process.communicate(timeout=60)
    judge.same("and then the next one", (process.returncode, out.decode(), errors.decode()),
               (0, f"{device.address} 2 1 record 0 gaps caught up, next 5\n", ""))


def step_limits(judge, _runs):
    """A log that ends at the step limit is told by the status, and the next run goes on to its end. A run that is
    lost behind the last number there is names the number behind it."""
    device, log = one(room_for=400, count=150)
    file = f"{judge.room}/a.db"
    status, out, errors = judge.ran(["keep", file, device.address, "1", "--steps=1"])
    told = re.fullmatch(re.escape(device.address) + r" 1 (\d+) records? 0 gaps step limit, next (\d+)\n", errors)
    judge.is_right("one step", status == 8 and out == "" and told and 0 < int(told[1]) <= 100
                   and int(told[2]) == int(told[1]) + 1, (status, out, errors))
    rest = 151 - int(told[2])
    judge.same("and all the rest", judge.ran(["keep", file]), (0, said(device, rest, 0, "caught up, next 151"), ""))
    judge.judge("behind a step limit", file, [device], True)
    last, log = one(room_for=50)
    log.begin(4294967292)
    log.log(3)
    other = f"{judge.room}/b.db"
    judge.same("up to the last number", judge.ran(["keep", other, last.address, "1"])[:2],
               (0, said(last, 3, 0, "caught up, next 1")))
    last.answers = 0
    judge.tells("lost behind it", judge.ran(["keep", other, *QUICK]), 2, silent(last))


def words_and_names(judge, _runs):
    """A log that is named twice is asked once; one without a name is kept as the others are."""
    device = Device([Log(number, 50) for number in (1, 2, 3)], "three")
    for number, log in device.logs.items():
        log.log(number)
    serve([device])
    file = f"{judge.room}/a.db"
    one_line = f"{device.address} 2 2 records 0 gaps caught up, next 3\n"
    judge.same("a log is named twice", judge.ran(["keep", file, device.address, "2", "02", "2"]), (0, one_line, ""))
    device.nameless, device.mute = {1}, {3}
    every = "".join(f"{device.address} {number} {number} record{'s' * (number > 1)} 0 gaps caught up, next {number + 1}\n" for number in (1, 2, 3))
    other = f"{judge.room}/b.db"
    judge.tells("names that are refused or lost", judge.ran(["keep", other, device.address, *QUICK]), 0, new_logs(device), every)
    base = sqlite3.connect(other)
    names = base.execute("SELECT instance, name FROM logs ORDER BY id").fetchall()
    base.close()
    judge.same("they have no name", names, [(1, None), (2, "three log 2"), (3, None)])


def no_archive(judge, _runs):
    """Without a device only an archive with logs is taken, and none is made."""
    device, _log = one(count=5)
    file = f"{judge.room}/none.db"
    judge.same("keep without a file", judge.ran(["keep", file]), no_use(file, "there is no such file"))
    judge.is_right("none is made", not os.path.exists(file) and not os.path.exists(f"{file}-wal"), "there is one")
    with open(file, "w"):
        pass
    for tool in ("keep", "kept"):
        judge.same(f"{tool} of an empty file", judge.ran([tool, file]), no_use(file, NOTHING))
    judge.is_right("it stays empty", os.path.getsize(file) == 0 and not os.path.exists(f"{file}-wal"), "it isn't")
    judge.same("a device's log", judge.ran(["keep", file, device.address, "1"])[0], 0)
    base = sqlite3.connect(file)
    for table in ("items", "beginnings", "logs", "devices"):
        base.execute(f"DELETE FROM {table}")
    base.commit()
    base.close()
    for tool in ("keep", "kept", "check"):
        judge.same(f"{tool} of an archive without logs", judge.ran([tool, file]), (0, "", ""))


def far_away(judge, _runs):
    """The first run is lost, and then the log is 2^31 records and more away; and what is dropped there."""
    device, log = one(room_for=4)
    file = f"{judge.room}/a.db"
    device.answers = 0
    judge.same("lost", judge.ran(["keep", file, device.address, "1", *QUICK])[0], 2)
    device.answers = None
    log.begin(3000000000)
    log.log(3)
    judge.same("from the oldest", judge.ran(["keep", file, device.address, "1"]), (0, said(device, 3, 0, "caught up, next 3000000004"), ""))
    log.log(7)
    judge.tells("a gap", judge.ran(["keep", file]), 0, dropped(device, 3000000004, 3000000006), said(device, 4, 1, "caught up, next 3000000011"))
    judge.judge("far away", file, [device], True)
    judge.same("the gap", judge.ran(["kept", file, device.address, "1"])[1].splitlines()[3], "gap 3000000004 3000000006 or began anew")


def restarts(judge, _runs):
    """A log that counts fewer, as many or more records than before, that is empty, or whose records are dated before."""
    device, log = one(count=12)
    file = f"{judge.room}/a.db"
    judge.ran(["keep", file, device.address, "1"])
    epoch = 0
    for name, count in (("fewer", 3), ("as many", 3), ("more", 8), ("one more", 9), ("fewer again", 1)):
        log.begin(0)
        log.log(count)
        epoch += 1
        judge.tells(name, judge.ran(["keep", file]), 0, anew(device), said(device, count, 0, f"caught up, next {count + 1}"))
        judge.judge(name, file, [device], True)
        judge.same(f"{name}, again", judge.ran(["keep", file]),
                   (0, said(device, 0, 0, f"caught up, next {count + 1}"), ""))
    # It holds nothing, and counts fewer than were kept.
    log.begin(0)
    judge.tells("an empty log that counts fewer", judge.ran(["keep", file]), 0, anew(device), said(device, 0, 0, "caught up, next 1"))
    judge.same("is told once", judge.ran(["keep", file]), (0, said(device, 0, 0, "caught up, next 1"), ""))
    log.log(1)
    judge.same("until it has a record", judge.ran(["keep", file]), (0, said(device, 1, 0, "caught up, next 2"), ""))
    # It has passed the number and dropped it; its clock was set back: it may have gone on.
    log.begin(0)
    log.clock -= datetime.timedelta(days=400)
    log.log(70)
    judge.tells("passed, and dated before", judge.ran(["keep", file]), 0, either_line(device), said(device, 50, 2, "caught up, next 71"))
    judge.judge("passed, and dated before", file, [device], True)
    judge.same("what it dropped since is a gap, and so is what it may have dropped before", gaps_of(file), [(epoch + 1, 2, 20), (epoch + 2, 1, 20)])
    # Its count lies half of the numbers ahead and more: so its oldest record lies before the newest that is kept. It begins at 1 all
    # the same, with a gap up to that.
    log.begin(3000000000)
    log.clock -= datetime.timedelta(days=400)
    log.log(60)
    judge.tells("half of the numbers ahead", judge.ran(["keep", file]), 0, anew(device), said(device, 50, 1, "caught up, next 3000000061"))
    judge.judge("half of the numbers ahead", file, [device], True)
    judge.same("half of the numbers ahead: its gaps", gaps_of(file)[2:], [(epoch + 3, 1, 3000000010)])
    judge.same("why each epoch began", [text for *_, text in whys_of(file)],
               [None, *["began anew"] * (epoch + 1), "began anew, or dropped records", "began anew"])


def cut_files(judge, _runs):
    """What a crash leaves: the log beside a file is cut at any octet, and the next run goes on."""
    device, log = one(room_for=400, count=200)
    file, cuts = f"{judge.room}/a.db", 0
    judge.ran(["keep", file, device.address, "1"])
    for call in (3, 4, 5, 6, 7, 8, 9, 10, 12, 14, 17, 20):
        log.log(90)
        judge.ended_at(call, ["keep", file])
        size = os.path.getsize(f"{file}-wal") if os.path.exists(f"{file}-wal") else 0
        if size:
            cuts += 1
            os.truncate(f"{file}-wal", chance.randrange(size))
        judge.judge(f"cut behind call {call}", file, [device])
        status, out, errors = judge.ran(["keep", file])
        judge.is_right(f"behind a cut at call {call}", status == 0, f"status {status}: {out} {errors}")
        judge.judge(f"behind a cut at call {call}", file, [device], True)
    judge.is_right("logs were cut", cuts >= 4, cuts)
    with open(file, "rb") as it:
        octets = it.read()
    for _ in range(12):
        cut = f"{judge.room}/cut.db"
        with open(cut, "wb") as it:
            it.write(octets[: chance.randrange(1, len(octets))])
        status, out, errors = judge.ran(["kept", cut])
        judge.is_right("a cut file", status == 6 and errors.startswith(f"file fault\n{cut}: "), f"status {status}: {errors}")


def foreign_files(judge, _runs):
    """Files that are no archives are refused, and left as they are."""
    device, _log = one(count=5)
    file = f"{judge.room}/a.db"
    judge.ran(["keep", file, device.address, "1"])

    def made(name, *statements, of=None):
        path = f"{judge.room}/{name}"
        if of:
            shutil.copyfile(of, path)
        base = sqlite3.connect(path)
        for statement in statements:
            base.execute(statement)
        base.commit()
        base.close()
        return path

    text = f"{judge.room}/text"
    with open(text, "w") as it:
        it.write("not a database\n")
    names = [text, made("other.db", "CREATE TABLE people (name TEXT)", "INSERT INTO people VALUES ('Ada')"),
             made("earlier.db", "UPDATE archive SET version = 2", of=file),
             made("later.db", "UPDATE archive SET version = 4", of=file),
             made("twice.db", "INSERT INTO archive (version, made) VALUES (1, '')", of=file),
             made("no_version.db", "DELETE FROM archive", of=file),
             made("no_log.db", "DELETE FROM logs", of=file),
             made("not_begun.db", "DELETE FROM beginnings", of=file),
             made("keys.db", "CREATE TABLE notes (log INTEGER REFERENCES logs (id))", of=file),
             made("unique.db", "CREATE UNIQUE INDEX once ON items (id, stamp)", of=file),
             made("trigger.db", "CREATE TRIGGER gone AFTER DELETE ON items BEGIN DELETE FROM logs; END", of=file),
             made("no_view.db", "DROP VIEW gaps", of=file),
             made("other_view.db", "DROP VIEW gaps", "CREATE VIEW gaps AS SELECT id FROM items", of=file),
             made("over.db", "UPDATE items SET last = (id & 4294967295) + 1, stamp = NULL WHERE id & 4294967295 = 2", of=file),
             made("back.db", "UPDATE items SET last = (id & 4294967295) - 1, stamp = NULL WHERE id & 4294967295 = 2", of=file),
             made("no_device.db", "DELETE FROM devices", of=file)]
    for name in names:
        with open(name, "rb") as it:
            before = it.read()
        for words in (["keep", name, device.address, "1"], ["keep", name], ["kept", name], ["check", name]):
            status, out, errors = judge.ran(words)
            right = status == 6 and out == "" and errors.startswith(f"file fault\n{name}: ")
            judge.is_right(f"{os.path.basename(name)}", right, f"status {status}: {out} {errors}")
        with open(name, "rb") as it:
            judge.is_right(f"{os.path.basename(name)} is left as it is", it.read() == before, "it has changed")
    judge.is_right("no log is left beside a text", not os.path.exists(f"{text}-wal"), "there is one")
    status, out, errors = judge.ran(["kept", f"{judge.room}/none.db"])
    judge.is_right("no file", status == 6 and not os.path.exists(f"{judge.room}/none.db"), f"status {status}: {errors}")
    judge.same("a folder", judge.ran(["keep", judge.room])[0], 6)


def a_large_file(judge, _runs):
    """A run goes on behind 200,000 records."""
    device, log = one(count=3)
    file = f"{judge.room}/a.db"
    judge.ran(["keep", file, device.address, "1"])
    base = sqlite3.connect(file)
    newest, *texts = base.execute("SELECT * FROM items ORDER BY id DESC LIMIT 1").fetchone()
    base.executemany("INSERT INTO items VALUES (?, ?, ?, ?, ?, ?)", ((newest + 1 + at, *texts) for at in range(200000)))
    base.commit()
    base.close()
    octets, row = log.held[3], log.lives[0][3]
    log.total = log.oldest = 200003
    log.held, log.lives[0][log.total] = {log.total: octets}, row
    log.log(1)
    judge.same("a large file", judge.ran(["keep", file]), (0, said(device, 1, 0, "caught up, next 200005"), ""))


def printed(judge, _runs):
    """`kept` prints the lines of the rows, as CSV what a spreadsheet reads, and yesterday is one statement."""
    yesterday = datetime.datetime.combine(datetime.datetime.utcnow().date(), datetime.time()) - datetime.timedelta(hours=20)
    devices = [Device([Log(1, 50, yesterday), Log(2, 50)], 'boiler, "old"')]
    # What the first one logs: the Present_Value (85) of Analog Input 3, in degrees Celsius (62).
    devices[0].facts.update({(20, 1, 132): b"\x0c\x00\x00\x00\x03\x19\x55", (0, 3, 117): b"\x91\x3e", (0, 3, 28): b"\x74\x00yes"})
    devices[0].restart, devices[0].revision = datetime.datetime(2024, 1, 1), 7
    serve(devices)
    (log, old), file = devices[0].logs.values(), f"{judge.room}/a.db"
    log.log(70)
    old.log(5)
    judge.ran(["keep", file, devices[0].address])
    log.log(60)
    judge.ran(["keep", file])
    old.begin(0)
    old.log(2)
    judge.ran(["keep", file])
    # And one that may be none.
    devices[0].restart += datetime.timedelta(days=3650)
    old.log(55)
    judge.ran(["keep", file])
    base = sqlite3.connect(file)
    rows = base.execute("SELECT address, trend_log, epoch, number, NULL, stamp, value, datum, flags, name, source, units FROM records UNION ALL "
                        "SELECT g.address, g.trend_log, g.epoch, g.first, g.last, '', NULL, iif(g.doubtful, ' or began anew', ''), '', g.name, l.source, l.units "
                        "FROM gaps g JOIN logs l ON l.instance = g.trend_log ORDER BY 2, 3, 4").fetchall()
    whys = {(instance, epoch): why for instance, epoch, why in base.execute("SELECT trend_log, epoch, why FROM epochs")}
    base.close()
    judge.is_right("a gap is there, and one that may be none", {row[7] for row in rows if row[4]} == {"", " or began anew"}, rows[:3])
    judge.same("what a log logs, and in which units", {row[1]: row[10:] for row in rows}, {1: ("object(0,3).85", "enum(62)"), 2: (None, None)})
    lines, before = [], None
    for address, instance, epoch, number, last, stamp, _value, text, flags, *_ in rows:
        if before is None or before[0] != instance:
            lines.append(f"{address} {instance}")
        elif before[1] != epoch:
            lines.append(whys[instance, epoch])
        lines.append(f"gap {number} {last}{text}" if last else f"{number} {stamp} {text} {flags}")
        before = instance, epoch
    judge.same("the lines", judge.ran(["kept", file]), (0, "\n".join(lines) + "\n", ""))
    out = judge.ran(["kept", file, devices[0].address, "2"])[1].splitlines()
    judge.same("the lines of one log", out, lines[lines.index(f"{devices[0].address} 2") + 1 :])
    judge.same("of a log that isn't kept", judge.ran(["kept", file, devices[0].address, "3"]),
               no_use(file, "it has no such trend log"))
    table = list(csv.reader(io.StringIO(judge.ran(["kept", file, "--csv"])[1], newline="")))
    judge.same("the names of columns", table[0], "address,device,trend_log,name,source,units,epoch,number,stamp,value,datum,flags".split(","))
    wanted = [(address, str(devices[0].number), str(instance), name, source or "", units or "", str(epoch), str(number), stamp, value,
               f"gap {number} {last}{text}" if last else text, flags.replace("0", "F").replace("1", "T"))
              for address, instance, epoch, number, last, stamp, value, text, flags, name, source, units in rows]
    got = [(*row[:9], float(row[9]) if row[9] else None, *row[10:]) for row in table[1:]]
    judge.same("CSV", got, wanted)
    values = [value for _, value, _, _ in log.lives[0].values() if value is not None]
    kept = [row[6] for row in rows if row[1] == 1 and row[6] is not None]
    judge.is_right("values are kept", len(kept) > 50 and set(kept) <= set(values), kept[:5])
    with open(f"{TOP}/docs/ARCHIVE.md") as page:
        statement = re.search(r"\n    (SELECT address, trend_log, name, avg.*?;)\n", page.read(), re.S)[1]
    count = sum(row[1] == 1 and row[4] is None for row in rows)
    base = sqlite3.connect(file)
    judge.same("yesterday", base.execute(statement).fetchall(),
               [(devices[0].address, 1, 'boiler, "old" log 1', sum(kept) / len(kept), min(kept), max(kept), count)])
    newest = "SELECT trend_log, name, source, units, number, stamp, value FROM newest ORDER BY 1"
    last = [next(row for row in reversed(rows) if row[1] == instance and row[4] is None) for instance in (1, 2)]
    judge.same("the newest of each log", base.execute(newest).fetchall(), [(row[1], row[9], row[10], row[11], row[3], row[5], row[6]) for row in last])
    base.close()
    plot(judge, file, devices[0].address, rows)


def plot(judge, file, address, rows):
    """A line where record follows record, and none over a gap or a record without a number; a title, and axes."""
    drawn = subprocess.run([sys.executable, f"{USE}/plot.py", file, address, "1"], capture_output=True, text=True)
    lines, before = [[]], None
    for row in (row for row in rows if row[1] == 1):
        if row[4] or row[6] is None or row[6] in (float("inf"), float("-inf")):
            lines.append([])
        else:
            lines[-1].append(row[6])
    found = [len(points.split()) for points in re.findall(r'<polyline points="([^"]*)"', drawn.stdout)]
    judge.same("a plot", (drawn.returncode, found, drawn.stderr), (0, [len(line) for line in lines if line], ""))
    texts = re.findall(r'<text x="([0-9.]+)" y="[0-9.]+"([^>]*)>([^<]*)<', drawn.stdout)
    titles = [text for _, kind, text in texts if "font-size" in kind]
    judge.same("its title", titles, [f'{address} trend log 1: boiler, "old" log 1'])
    judge.is_right("its axes", sum('"end"' in kind for _, kind, _ in texts) > 1 and texts[-2][2].startswith("time, 20"), texts)
    both = subprocess.run([sys.executable, f"{USE}/plot.py", file, address, "1", address, "2"], capture_output=True, text=True)
    judge.same("two logs in one picture", (both.returncode, both.stdout.count('font-size="14"')), (0, 2))


def taken_over(judge, _runs):
    """The lines of keep.sh are taken over, `bac keep` goes on behind them, and `bac kept` prints them."""
    device, log = one(count=20)
    records, file = f"{judge.room}/records", f"{judge.room}/a.db"

    def text(numbers):
        rows = ((number, log.lives[-1][number]) for number in numbers)
        return "".join(f"{number} {stamp} {shown} {flags}\n" for number, (stamp, _value, shown, flags) in rows)

    old = text(range(1, 21))
    log.begin(0)
    log.log(60)
    lines = old + "began anew: 60 records, and 21 was next\n" + "gap 1 10\n" + text(range(11, 31)) + "caught up, next 31\n" + text([31])

    def take(*words):
        return subprocess.run([sys.executable, f"{USE}/takeover.py", *words], capture_output=True, text=True)

    for name, wrong, why in (("no line of bac log", lines.replace("\n25 ", "\n25:", 1), "it is no record, gap or end of a walk: 25:"),
                             ("a number twice", lines.replace("\n15 ", "\n14 ", 1), "14 stands where 15 is next"),
                             ("a number is missing", re.sub("\n7 .*", "", lines), "8 stands where 7 is next"),
                             ("number 0", "0 " + lines.split(" ", 1)[1], "a number is from 1 to 4294967295")):
        with open(records, "w") as it:
            it.write(wrong)
        at = next(at for at, pair in enumerate(zip(lines.splitlines(), wrong.splitlines()), 1) if pair[0] != pair[1])
        done = take(records, file, device.address, "1")
        judge.is_right(f"{name} is refused", done.returncode == 1 and done.stderr.startswith(f"takeover.py: line {at}: {why}"), done.stderr)
        judge.is_right(f"{name} leaves nothing", not os.path.exists(file))
    with open(records, "w") as it:
        it.write(lines + "gap 32 40\n41 2024-01-0")
    judge.same("taken over", (take(records, file, device.address, "1").stdout, wrongs(file, [device], False)), ("41 records\n", []))
    judge.same("it goes on behind them", judge.ran(["keep", file]), (0, said(device, 29, 0, "caught up, next 61"), ""))
    judge.judge("behind what was taken over", file, [device], True)
    printed = judge.ran(["kept", file, device.address, "1"])[1]
    wanted = re.sub(r"caught up.*\n", "", re.sub(r"began anew:.*", "began anew", lines)) + text(range(32, 61))
    judge.same("the old lines", printed, wanted)
    done = take(records, file, device.address, "1")
    judge.is_right("once", done.returncode == 1 and "it has records of this trend log already" in done.stderr, done.stderr)
    done = take(records, file, "010.0.0.1:047808", "7", "5", "0A")
    judge.same("beside another log", (done.stdout, judge.ran(["kept", file, "10.0.0.1", "7"])[1]), ("41 records\n", wanted.replace(text(range(32, 61)), "")))
    base = sqlite3.connect(file)
    judge.same("under its one text", base.execute("SELECT address, dnet, dadr FROM devices WHERE id = 2").fetchall(), [("10.0.0.1:47808", 5, "0a")])
    base.close()
    # Of a text of its own, and another one of the same place, one is refused; that the other isn't, yet, is known.
    for name, table, column, other, is_refused in (
            ("zeros", "devices", "address", "010.0.0.1:47808", False), ("no port", "devices", "address", "10.0.0.1", True),
            ("large digits", "devices", "dadr", "0A", False), ("no network", "devices", "dnet", 0, False),
            ("no address", "devices", "address", "site", True), ("a device's instance", "devices", "instance", 4194304, True),
            ("a log's instance", "logs", "instance", 4194304, True)):
        broken = f"{judge.room}/broken.db"
        shutil.copyfile(file, broken)
        base = sqlite3.connect(broken)
        base.execute(f"UPDATE {table} SET {column} = ? WHERE id = 2", (other,))
        base.commit()
        base.close()
        row = "device 2 in it has a wrong address, dnet, dadr or instance" if table == "devices" else "trend log 2 in it has a wrong instance"
        ran = judge.ran(["keep", broken, "--timeout=300", "--retries=0"])
        if is_refused:
            judge.same(f"{name} is refused", ran, no_use(broken, f"{row}: correct that with sqlite3"))
        else:
            judge.lacks("other text", f"{name} is refused", ran[0] == 6)
            judge.is_right(f"{name} is polled", ran[0] == 2 and ": no answer\n" in ran[2], ran)


def site_kept(judge, addresses):
    """The status of site.sh over these addresses, and what it printed and told."""
    ran = subprocess.run(["bash", f"{USE}/site.sh", f"{judge.room}/site.db"], input=addresses, text=True, capture_output=True,
                         env={**os.environ, "BAC": judge.program})
    return ran.returncode, ran.stdout, ran.stderr


def served(judge, _runs):
    """The device is `bac serve`: a log that is switched and purged, and a device that is restarted."""
    file, address, server = f"{judge.room}/a.db", None, None

    def begin():
        nonlocal address, server
        for _try in range(50):
            at = address or f"127.0.0.1:{20000 + chance.randrange(9000)}"
            with open(f"{USE}/plant.conf") as lines:
                server = subprocess.Popen([judge.program, "serve", at], stdin=lines, stderr=subprocess.PIPE)
            if server.stderr.readline().startswith(b"serving"):
                address = at
                return
            server.wait()

    def switched(times):
        for turn in range(times):
            words = ["wp", address, "20", "2", "133", "0", "1", f"--value={(turn + 1) % 2}"]
            judge.same("the log is switched", judge.ran(words), (0, "written\n", ""))

    def kept(name, records, gaps, after, anew=False):
        wanted = f"{address} 2 {records} records {gaps} gaps caught up, next {after}\n"
        judge.same(name, judge.ran(["keep", file, address, "2"]), (0, wanted, f"{address} 2: began anew\n" if anew else ""))

    begin()
    try:
        # An enabled log stays enabled with the first of them; each change of Enable is a record.
        judge.ran(["wp", address, "20", "2", "133", "0", "1", "--value=0"])
        switched(5)
        status, out, errors = judge.ran(["keep", file, address, "2"])
        judge.same("switched", (status, out, errors), (0, f"{address} 2 6 records 0 gaps caught up, next 7\n", ""))
        judge.ran(["wp", address, "20", "2", "141", "0", "2", "--value=0"])
        judge.same("a purge is a record", judge.ran(["keep", file, address, "2"])[:2], (0, f"{address} 2 1 record 0 gaps caught up, next 8\n"))
        log_lines = judge.ran(["log", address, "2", "7"])[1].splitlines()
        judge.same("as bac log prints it", judge.ran(["kept", file, address, "2"])[1].splitlines()[-1], log_lines[0])
        server.kill()
        server.wait()
        time.sleep(0.02)
        begin()
        judge.ran(["wp", address, "20", "2", "133", "0", "1", "--value=0"])
        switched(9)
        kept("restarted, and past the old number", 10, 0, 11, anew=True)
        kept("and nothing new", 0, 0, 11)
        site = site_kept(judge, f"127.77.77.77:9\n{address}\n")
        right = re.fullmatch(rf"{address} 1 is new\n{address} 2 is new\n{address} 1 \d+ records? 0 gaps caught up, next \d+\n"
                             rf"{address} 2 10 records 0 gaps caught up, next 11\n", site[1])
        judge.is_right("site.sh", site[0] == 0 and right and site[2] == "", site)
        judge.same("a site where nobody answers", site_kept(judge, "127.77.77.77:9\n"),
                   (2, "", "no answer\naddresses asked: 1; devices that answer by broadcast are only heard with --local=0.0.0.0:47808\n"))
        site = site_kept(judge, "127.77.77\n")
        judge.is_right("a line of a site that is no address", site[:2] == (1, "") and site[2].startswith("line 1: bad line\n"), site)
        found = judge.ran(["wi", "127.77.77.77:9", address])[1]
        listed = subprocess.run([judge.program, "keep", f"{judge.room}/site.db", "-"], input=found, text=True, capture_output=True)
        judge.same("the lines of wi", (listed.returncode, listed.stdout.count("\n"), listed.stderr), (0, 2, ""))
        base = sqlite3.connect(f"{judge.room}/site.db")
        judge.same("with its names", base.execute("SELECT instance, name FROM logs ORDER BY instance").fetchall(), [(1, "pump-trend"), (2, "by-hand")])
        base.close()
    finally:
        server.kill()
        server.wait()


def judgements(judge, _runs):
    """Each kind of judgement fails on a file that was broken so."""
    device = Device([Log(1, 50), Log(2, 50)], "broken")
    device.restart, device.revision = datetime.datetime(2024, 1, 1), 7
    was = device.address
    device.move()
    serve([device])
    one_log, two = device.logs.values()
    one_log.log(89)
    two.log(19)
    file, broken = f"{judge.room}/a.db", f"{judge.room}/broken.db"
    judge.ran(["keep", file, device.address])
    device.revision = 8
    one_log.log(1)
    two.log(1)
    judge.ran(["keep", file])
    one_log.log(60)
    two.begin(0)
    two.log(10)
    judge.ran(["keep", file])
    judge.judge("whole", file, [device], True)
    record = "id = (SELECT id FROM items WHERE last IS NULL AND id >> 47 = 1 AND id & 4294967295 = 120)"
    other = "id >> 15 = 2 AND id & 32767 = 1"
    for name, statement, why_wrong in (
        ("a row is removed", f"DELETE FROM items WHERE {record}", "121 comes where 120 is next"),
        ("the newest row is removed", "DELETE FROM items WHERE id = (SELECT max(id) FROM items)", "newest is 9 of"),
        ("the first rows are removed", "DELETE FROM items WHERE id >> 47 = 2 AND (id >> 32) & 32767 = 1 AND id & 4294967295 < 3", "3 comes where 1 is next"),
        ("an epoch is removed", "DELETE FROM items WHERE id >> 47 = 2 AND (id >> 32) & 32767 = 1", "newest is 20 of life 0"),
        ("a gap is removed", "DELETE FROM items WHERE last NOT NULL", "comes where 91 is next"),
        ("a stamp is another", f"UPDATE items SET stamp = '2024-01-01T00:00:00.00' WHERE {record}", "no life from"),
        ("a value is another", f"UPDATE items SET value = 1e300 WHERE {record}", "no life from"),
        ("a datum is another", f"UPDATE items SET datum = 'real(00000001)' WHERE {record}", "no life from"),
        ("flags are others", f"UPDATE items SET flags = '1111' WHERE {record}", "no life from"),
        ("a gap of what is held", f"UPDATE items SET last = 120, stamp = NULL, value = NULL, datum = NULL, flags = NULL WHERE {record}", "or it holds more"),
        ("a doubtful gap of what is held", f"UPDATE items SET last = 120, stamp = NULL, value = NULL, datum = 'or began anew', flags = NULL WHERE {record}", "or it holds more"),
        ("a gap with a record's texts", "UPDATE items SET datum = 'null' WHERE last NOT NULL", "gap Row("),
        ("a gap is one shorter", "UPDATE items SET last = last - 1 WHERE last NOT NULL", "comes where"),
        ("a gap is one longer", "UPDATE items SET last = last + 1 WHERE last NOT NULL", "comes where"),
        ("a gap at the end", "INSERT INTO items (id, last) VALUES ((SELECT max(id) + 1 FROM items), 11)", "it ends with"),
        ("a record comes twice", f"INSERT INTO items SELECT id + 4294967296, last, stamp, value, datum, flags FROM items WHERE {record}", "has rows and no beginning"),
        ("a log that isn't there", f"INSERT INTO items SELECT id + (1 << 48), last, stamp, value, datum, flags FROM items WHERE {record}", "which aren't there"),
        ("rows under another log", "UPDATE items SET id = id + (1 << 47) WHERE id >> 47 = 2", "which aren't there"),
        ("a beginning is one too high", "UPDATE beginnings SET number = number + 1 WHERE id >> 15 = 2", "1 comes where 2 is next"),
        ("a beginning is removed", "DELETE FROM beginnings WHERE id >> 15 = 2", "has rows and no beginning"),
        ("an epoch begins for no reason", f"UPDATE beginnings SET why = NULL WHERE {other}", "begins at 1 for None"),
        ("one may have dropped records, and no gap tells which", f"UPDATE beginnings SET why = 'began anew, or dropped records' WHERE {other}", "it begins for"),
        ("numbers came round, and didn't", f"UPDATE beginnings SET why = 'numbers came round' WHERE {other}", "it begins for"),
        ("a first epoch has a reason", "UPDATE beginnings SET why = 'began anew' WHERE id = 1 << 15", "it begins for"),
        ("a first epoch is counted", "UPDATE beginnings SET why = 'counted' WHERE id = 1 << 15", "it begins for"),
        ("an instance that it never told", "UPDATE devices SET instance = 7", "no device has it"),
        ("none", "UPDATE devices SET instance = NULL", "device None is on record"),
        ("a start that it never told", "UPDATE logs SET restart = '00' WHERE id = 1", "is its word on record"),
        ("no revision", "UPDATE logs SET revision = NULL WHERE id = 1", "is its word on record"),
        ("a place of before", f"UPDATE devices SET address = '{was}'", "isn't kept"),
        ("a log of nobody", "INSERT INTO logs (device, instance, stopped) VALUES (1, 77, 0)", "no device has it"),
        ("a log is lost", "DELETE FROM logs WHERE id = 2", "isn't kept"),
    ):
        shutil.copyfile(file, broken)
        base = sqlite3.connect(broken)
        changed = base.execute(statement).rowcount
        base.commit()
        base.close()
        found = wrongs(broken, [device], True)
        judge.is_right(f"{name} is seen", changed > 0 and any(why_wrong in text for text in found), f"{changed} rows, {found}")
    with open(file, "rb") as it:
        octets = bytearray(it.read())
    octets[-4096:-4088] = b"\xaa" * 8
    with open(broken, "wb") as it:
        it.write(octets)
    judge.is_right("a broken page is seen", wrongs(broken, [device], True))


CASES = [judgements, run_after_run, beginnings, options, losses, line_by_line, step_limits, last_epoch, dead_devices, dead_at_once, at_once, own_address, own_address_echoes, ids_go_on, ids_go_on_behind_the_longest, each_option, window, lists_at_once, whole_lists, silent_lists, other_devices, asked_at_once, words_and_names, no_archive, barred, far_away, rounds, restarts, clocks, questions, cut_files, foreign_files, objects_beside, a_large_file, printed, taken_over, served,
         stopped, terminals, names, own_words, own_rule, own_lives, first_answers, renewed, moved, moved_ways, two_of_one, told_later,
         moved_at_each_call, moved_at_random, emptied, never_begun, overwritten, told_at_once, started_meanwhile, started_and_killed, said_more, several, unlisted, listed, listed_twice,
         no_route, told_beside, told_among_others, parts, parts_refused, parts_ended,
         file_limits, part_limits, dates, json_lines, last_records, waited, waited_for_parts, waited_in_vain, converted_files, folders, folders_damaged, checked, checked_parts, groups, holes, holes_in_parts]
