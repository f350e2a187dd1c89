#!/usr/bin/env python3
"""Judges examples/use/page.py: what its page says is compared with what the archive has, and a browser, Chromium, opens it:
its text is read there, and the picture that it draws is looked at.

    examples/check/page.py [PROGRAM]

PROGRAM is crates/bac/out/bac where none is given; it keeps a device that it serves. Chromium is installed by apt-get where it
isn't there, which only root may do: without it this check fails. The last line is `N passed, M failed`."""
import datetime
import os
import re
import resource
import shutil
import sqlite3
import struct
import subprocess
import sys
import tempfile
import threading
import time

# Nothing is left beside the scripts.
sys.dont_write_bytecode = True
# Before this folder, which has an archive.py, too.
sys.path.insert(0, os.path.join(os.path.dirname(os.path.abspath(__file__)), "../use"))
import archive
import page_archives
from page_browser import Browser, Page, installed

HERE = os.path.dirname(os.path.abspath(__file__))
SCRIPT = os.path.join(HERE, "../use/page.py")
PROGRAM = os.path.abspath(sys.argv[1] if len(sys.argv) > 1 else os.path.join(HERE, "../../crates/bac/out/bac"))
# The colours of page.css: of a curve, a gap and the paper, by day and by night.
CURVE, GAP, PAPER = (0x1A, 0x5F, 0xB4), (0xF3, 0xC9, 0xC1), (0xFF, 0xFF, 0xFF)
DARK_CURVE, DARK_GAP, DARK_PAPER = (0x78, 0xAE, 0xED), (0x6B, 0x2F, 0x28), (0x12, 0x16, 0x1B)
SECONDS, OCTETS, MEMORY = 20, 10_000_000, 300_000_000


class Judge:
    def __init__(self, room):
        self.room, self.passed, self.failed, self.browser = room, 0, 0, Browser(room)

    def same(self, name, got, wanted):
        if got == wanted:
            self.passed += 1
        else:
            self.failed += 1
            print(f"{name}: {wanted!r}\nis wanted, and it is: {got!r}"[:3000])

    def drawn(self, file, *words):
        """The page of an archive, and where it was put."""
        ran = subprocess.run([sys.executable, "-B", SCRIPT, file, *words], capture_output=True, timeout=600, check=False)
        if ran.returncode or ran.stderr:
            self.same(f"{file} is drawn", (ran.returncode, ran.stderr.decode()), (0, ""))
        self.at = os.path.join(self.room, "page.html")
        with open(self.at, "wb") as page:
            page.write(ran.stdout)
        return ran.stdout.decode()


def asked(file, statement, *values):
    base = sqlite3.connect(file)
    try:
        return base.execute(statement, values).fetchall()
    finally:
        base.close()


def minute(stamp):
    return stamp[:16].replace("T", " ")


def logs_of(file, version):
    """Of each log that is kept: its heading, its name, its instance, its newest stamp and how many records it has."""
    join = "JOIN devices d ON d.id = l.device" if version == 3 else ""
    title = "d.name" if version == 3 else "'Device ' || l.device"
    return asked(file, f"""SELECT {title}, l.name, l.instance,
        (SELECT stamp FROM items WHERE id >> 47 = l.id AND last IS NULL ORDER BY id DESC LIMIT 1),
        (SELECT count(*) FROM items WHERE id >> 47 = l.id AND last IS NULL) FROM logs l {join} ORDER BY l.id""")


def gaps_of(file):
    """The cells of each gap: its numbers, how many, the minutes of the records before and behind it, and what it means."""
    beside = "SELECT stamp FROM items n WHERE n.id >> 47 = i.id >> 47 AND n.last IS NULL AND n.id"
    rows = asked(file, f"""SELECT l.name, i.id & 4294967295, i.last, ({beside} < i.id ORDER BY n.id DESC LIMIT 1),
        ({beside} > i.id ORDER BY n.id LIMIT 1), i.datum FROM items i JOIN logs l ON l.id = i.id >> 47 WHERE i.last NOT NULL ORDER BY i.id""")
    means = {True: "dropped, or the log began anew", False: "overwritten or purged before it was fetched"}
    return [(name, f"{first}–{last}", str(last - first + 1), minute(before), minute(behind), means[datum is not None])
            for name, first, last, before, behind, datum in rows]


def site(judge, version):
    """Each log, gap and epoch of a site stands on its page, as a browser reads it."""
    file = os.path.join(judge.room, f"site{version}.db")
    page_archives.made(file, version)
    text = judge.drawn(file, "--title=Lecture <building>")
    page = Page(judge.browser.dom(judge.at))
    judge.same(f"format {version}: its title", page.title, "Lecture <building>")
    judge.same(f"format {version}: nothing from elsewhere", re.findall(r"<script|<link|<img|@import|https?:|\b(?:src|href)=", text), [])
    logs = logs_of(file, version)
    got = [(row.heading, row.name, f"Trend Log {instance}" in row.about, row.stamp, int(row.records.replace(",", "")))
           for row, (_, _, instance, _, _) in zip(page.rows, logs)]
    judge.same(f"format {version}: a row a log", got, [(title, name, True, minute(stamp), count) for title, name, _, stamp, count in logs])
    judge.same(f"format {version}: its gaps", page.tables.get("Gaps"), gaps_of(file))
    doubtful = [row.name for row in page.rows if "?" in row.marks]
    judge.same(f"format {version}: doubt is marked", (doubtful, sum(row.count_of("rect", "doubt") for row in page.rows)),
               (["Supply fan speed"], 1) if version == 3 else ([], 0))
    judge.same(f"format {version}: gaps are drawn", [row.name for row in page.rows if row.count_of("rect", "gap")],
               ["Return air temperature", "Boiler stage"] if version == 3 else ["Return air temperature", "Supply fan speed", "Boiler stage"])
    judge.same(f"format {version}: epochs are drawn", [row.name for row in page.rows if row.count_of("path", "epoch")],
               ["Supply fan speed", "CO₂ lecture hall 1"])
    whys = ["began anew, or dropped records", "began anew"] if version == 3 else ["began anew, or its numbers came round"] * 2
    judge.same(f"format {version}: and told", [(row[0], row[1], row[2], row[4]) for row in page.tables.get("Epochs", [])],
               list(zip(("Supply fan speed", "CO₂ lecture hall 1"), "11", "11", whys)))
    word = "silent" if version == 3 else "nothing"
    judge.same(f"format {version}: silence", [(row.name, row.silence) for row in page.rows if row.silence],
               [(name, f"{word} since 2026-11-27") for name in ("Chilled water flow", '<b>Condenser</b> & "fan"')])
    judge.same(f"format {version}: units and values", [row.now for row in page.rows[:4]],
               [f"{shown} {unit}".strip() if version == 3 else shown for shown, unit in zip(newest(file), ("°C", "°C", "%", ""))])
    judge.same(f"format {version}: flags", [row.flags for row in page.rows if row.flags], [["fault"], ["fault"]])
    judge.same(f"format {version}: changes of one without numbers", page.rows[8].changes,
               ["2026-11-29 06:00 bits(0000)", "2026-11-28 20:15 bits(0100)", "2026-11-26 03:00 bits(0000)", "2026-11-25 17:15 bits(0100)"])


def newest(file):
    """The newest values of the first four logs, to four digits."""
    rows = asked(file, "SELECT (SELECT value FROM items WHERE id >> 47 = l.id ORDER BY id DESC LIMIT 1) FROM logs l ORDER BY id LIMIT 4")
    return [f"{value:.4g}" for (value,) in rows]


def one_log(file, rows, name="a log"):
    """An archive with one log of these items: number, last, stamp, value, datum."""
    if os.path.exists(file):
        os.remove(file)
    base = sqlite3.connect(file)
    base.executescript(page_archives.FORMAT_3)
    base.execute("INSERT INTO devices VALUES (1, '10.0.0.1:47808', 0, '', 7, NULL, NULL, 1, 0, '2026-11-29T23:46:02.00', 0)")
    base.execute("INSERT INTO logs VALUES (1, 1, 1, ?, NULL, NULL, NULL, NULL, NULL, 0)", (name,))
    base.execute("INSERT INTO beginnings VALUES (?, 1, NULL)", (1 << 15,))
    base.executemany("INSERT INTO items VALUES (?, ?, ?, ?, ?, NULL)", [((1 << 47) + row[0], *row[1:]) for row in rows])
    base.commit()
    base.close()


def stamped(at):
    """The stamp of a quarter of an hour of May 2024."""
    return f"2024-05-{1 + at // 96:02}T{at % 96 // 4:02}:{at % 4 * 15:02}:00.00"


def pictures(judge):
    """A picture of a log that lacks its middle third: the curve is drawn on both sides, and its gap is open."""
    file = os.path.join(judge.room, "one.db")
    rows = [(at + 1, None, stamped(at), float(at % 2), f"enum({at % 2})") for at in range(900) if not 300 <= at < 600]
    one_log(file, sorted([*rows, (301, 600, None, None, None)]))
    judge.drawn(file)
    for name, size, is_dark in (("wide", (1200, 500), False), ("narrow", (420, 600), False), ("dark", (1200, 500), True)):
        picture = judge.browser.picture(judge.at, size, is_dark)
        curve, gap, paper = (DARK_CURVE, DARK_GAP, DARK_PAPER) if is_dark else (CURVE, GAP, PAPER)
        judge.same(f"{name}: its size and paper", (picture.size, picture.at(2, 2)), (size, paper))
        columns, lines = picture.places(curve)
        hole = max(zip(columns, columns[1:]), key=lambda pair: pair[1] - pair[0], default=(0, 0))
        wide = columns[-1] - columns[0] if columns else 1
        judge.same(f"{name}: a curve that is open for a third",
                   (len(columns) > 100, len(lines) > 30, round(3 * (hole[1] - hole[0]) / wide, 1)), (True, True, 1.0))
        middle = picture.at((hole[0] + hole[1]) // 2, (lines[0] + lines[-1]) // 2 if lines else 0)
        judge.same(f"{name}: where the gap is marked", middle, gap)
        judge.same(f"{name}: it lies in the window", (columns[:1] or [0])[0] > 5 and (columns[-1:] or [9999])[0] < size[0] - 5, True)
    judge.same("printed: one sheet", judge.browser.sheets(judge.at), 1)


def hostile(judge):
    """Names with markup and control characters are texts; stamps that nobody can place are told and not drawn."""
    file, name = os.path.join(judge.room, "hostile.db"), "</bdi><script>document.title=1</script>&amp;\x07\u202e\"'"
    rows = [(1, None, "2024-05-06T07:08:09.10", 1.0, "1"), (2, None, "2024-*-06T07:08:09.10", 2.0, "2"),
            (3, None, "2154-05-06T07:08:09.10", 3.0, "3"), (4, None, "2024-05-07T07:08:09.10", 9e99, "<i>"),
            (5, None, "2024-05-08T00:00:00.00", 5.0, "5")]
    one_log(file, rows, name)
    text = judge.drawn(file, f"--title={name}")
    page = Page(judge.browser.dom(judge.at))
    wanted = name.replace("\x07", "\N{REPLACEMENT CHARACTER}")
    judge.same("hostile: its name", (page.rows[0].name, page.heading, "<script" in text), (wanted, wanted, False))
    judge.same("hostile: records without a place", "2 records without a full date" in page.text, True)
    one_log(file, [(at + 1, None, stamped(at * 7919 % 2900), float(at % 50), "1") for at in range(20000)])
    text = judge.drawn(file)
    judge.same("a clock that goes to and fro", len(text) < 100_000, True)
    one_log(file, [])
    judge.drawn(file)
    page = Page(judge.browser.dom(judge.at))
    judge.same("a log without records", [row.now for row in page.rows], ["no record yet"])


def silences(judge):
    """A device is silent by the rule of `bac kept --last`: by hours, and not while nobody ever replied, or it is stopped."""
    file, last = os.path.join(judge.room, "silences.db"), "2026-11-29T23:01:02.00"
    for answered, other, is_stopped, wanted in (
            ("2026-11-29T22:00:00.00", last, 0, None), ("2026-11-29T21:59:59.99", last, 0, "silent since 2026-11-29"),
            ("2026-11-28T23:01:02.00", "2026-11-29T00:00:00.00", 0, None), (last, "2026-11-29T20:00:00.00", 0, None),
            (None, last, 0, "never answered"), (None, None, 0, None), ("2025-11-29T21:59:59.99", last, 1, None)):
        one_log(file, [(1, None, "2026-11-29T12:00:00.00", 1.0, "1")])
        base = sqlite3.connect(file)
        base.execute("UPDATE devices SET answered = ?, stopped = ?", (answered, is_stopped))
        base.execute("INSERT INTO devices VALUES (2, '10.0.0.2:47808', 0, '', 8, NULL, NULL, 1, 0, ?, 0)", (other,))
        base.commit()
        base.close()
        judge.drawn(file)
        rows = Page(judge.browser.dom(judge.at)).rows
        judge.same(f"silence: {answered}, {other}, {is_stopped}", [row.silence or None for row in rows], [wanted])


def marks(judge):
    """The axis of time has marks of seconds, minutes, days and months, by how long it is."""
    file, begin = os.path.join(judge.room, "marks.db"), datetime.datetime(2024, 5, 6, 7, 8, 9)
    for hours, wanted in ((0.0084, "07:08:10 07:08:20 07:08:30"), (0.5, "07:10 07:15 07:20 07:25 07:30 07:35"),
                          (90, "12:00 05-07 12:00 05-08 12:00 05-09 12:00 05-10"),
                          (450 * 24, "2024-07 2024-09 2024-11 2025-01 2025-03 2025-05 2025-07")):
        stamps = [begin + datetime.timedelta(hours=it) for it in (0, hours)]
        one_log(file, [(it + 1, None, at.strftime("%Y-%m-%dT%H:%M:%S.00"), 1.0, "1") for it, at in enumerate(stamps)])
        found = re.findall(r'<span style="left:[0-9.]+%">([^<]*)</span>', judge.drawn(file))
        judge.same(f"marks of {hours} hours", " ".join(found), wanted)


def large(judge):
    """2,000 logs with a million records: the page is thinned, and a browser opens it; of one log of many no peak is lost."""
    file = os.path.join(judge.room, "large.db")
    page_archives.made_large(file, 2000, 1_000_000)
    before = resource.getrusage(resource.RUSAGE_CHILDREN)
    text = judge.drawn(file)
    after = resource.getrusage(resource.RUSAGE_CHILDREN)
    took = after.ru_utime + after.ru_stime - before.ru_utime - before.ru_stime
    print(f"a million records: {took:.1f} s of processor time, {len(text.encode()) / 1e6:.1f} MB of page")
    judge.same("a million records: time, octets", (took < SECONDS, len(text.encode()) < OCTETS), (True, True))
    # The script alone, under a limit of memory.
    limit = f"ulimit -v {MEMORY // 1000}; exec \"$@\""
    ran = subprocess.run(["sh", "-c", limit, "", sys.executable, "-B", SCRIPT, file], capture_output=True, timeout=600, check=False)
    judge.same("a million records: memory", (ran.returncode, ran.stderr), (0, b""))
    page = Page(judge.browser.dom(judge.at))
    judge.same("a million records: rows", (len(page.rows), page.text.count("2,000 curves had more records")), (2000, 1))
    os.remove(file)
    one_log(file, [(at + 1, None, stamped(at % 2900), 7777.0 if at == 1717 else -7.0 if at == 2222 else 1.0, "1") for at in range(2900)])
    heights = heights_of(judge.drawn(file))
    page = Page(judge.browser.dom(judge.at))
    judge.same("no peak is lost", (page.rows[0].ends, min(heights), max(heights)), (["7,777", "-7"], 6, 114))


def heights_of(text):
    """Where the path of the only curve goes, from the upper end of its drawing on."""
    y, heights = 0, []
    for step, first, second in re.findall(r"([Mlhv])(-?[0-9]+)(?: (-?[0-9]+))?", re.search(r'class="curve" d="([^"]*)"', text)[1]):
        y = int(second) if step == "M" else y + int({"l": second, "h": 0, "v": first}[step])
        heights.append(y)
    return heights


def in_parts(judge):
    """Two parts say what the file says that they were made of. In format 3 each has of a log the beginnings of its own epochs."""
    for version in (2, 3):
        whole, folder = os.path.join(judge.room, f"site{version}.db"), os.path.join(judge.room, f"parts{version}")
        os.mkdir(folder)
        pages = [re.sub(r"page made [^<]*", "", judge.drawn(file, "--title=site")) for file in (whole, divided(whole, folder, version))]
        judge.same(f"parts of format {version}", pages[0] == pages[1], True)


def divided(whole, folder, version):
    """The folder, with the file in two parts."""
    for part in ("000001.db", "000002.db"):
        shutil.copy(whole, os.path.join(folder, part))
    cut = "(i.id & 4294967295) + ((i.id >> 32) & 32767) * 10000"
    for part, statement in (("000001.db", f"{cut} > 800"), ("000002.db", f"{cut} < 750")):
        base = sqlite3.connect(os.path.join(folder, part))
        base.execute(f"DELETE FROM items WHERE id IN (SELECT id FROM items i WHERE {statement})")
        if part == "000001.db":
            base.execute("UPDATE logs SET name = 'as it was called before' WHERE id = 1")
        if version == 3 and part == "000002.db":
            base.execute("DELETE FROM beginnings WHERE id NOT IN (SELECT max(id) FROM beginnings GROUP BY id >> 15)")
        base.commit()
        base.close()
    open(os.path.join(folder, "000003.db"), "w").close()
    return folder


def refused(judge):
    """What is no archive is told."""
    text, empty, folder = (os.path.join(judge.room, name) for name in ("text", "empty.db", "folder"))
    shutil.copy(SCRIPT, text)
    sqlite3.connect(empty).close()
    os.mkdir(folder)
    for file, why in ((os.path.join(judge.room, "none.db"), "there is no such file"), (text, "file is not a database"),
                      (empty, "there is no archive in it"), (folder, "there is no archive in it")):
        ran = subprocess.run([sys.executable, "-B", SCRIPT, file], capture_output=True, text=True, timeout=60, check=False)
        judge.same(f"refused: {why}", (ran.returncode, ran.stdout, ran.stderr), (1, "", f"page.py: {file}: {why}\n"))


def beside_others(judge):
    """A program that has the file open is waited for; nothing of the file is changed."""
    file = os.path.join(judge.room, "one.db")
    with open(file, "rb") as it:
        octets = it.read()
    base = sqlite3.connect(file, isolation_level=None, check_same_thread=False)
    base.execute("BEGIN EXCLUSIVE")
    threading.Timer(2, base.rollback).start()
    began = time.monotonic()
    judge.drawn(file)
    judge.same("a locked file is waited for", time.monotonic() - began > 1.5, True)
    base.close()
    with open(file, "rb") as it:
        judge.same("the file is as it was", it.read() == octets, True)
    left_by_a_kill(judge, file)
    without_leave(judge)


def left_by_a_kill(judge, file):
    """What stands in the log beside a file alone is on the page, and both are as they were."""
    base, killed = sqlite3.connect(file), os.path.join(judge.room, "killed.db")
    base.execute("PRAGMA journal_mode = WAL")
    base.execute("UPDATE logs SET name = 'left in the log'")
    base.commit()
    for end in ("", "-wal"):
        shutil.copy(file + end, killed + end)
    base.close()

    def octets():
        return [os.path.exists(killed + end) and open(killed + end, "rb").read() for end in ("", "-wal")]

    before = octets()
    judge.same("what a killed run left", ("left in the log" in judge.drawn(killed), octets() == before), (True, True))


def without_leave(judge):
    """Who may not write beside the file reads it, too, behind a run that ended, and is told of one that was killed."""
    if os.geteuid() != 0:
        return
    folder = os.path.join(judge.room, "closed")
    os.mkdir(folder)
    for at in (judge.room, folder):
        os.chmod(at, 0o755)
    for name, log, wanted in (("ended.db", 41, True), ("killed.db", 4152, False)):
        file = os.path.join(folder, name)
        page_archives.made(file, 2)
        base = sqlite3.connect(file)
        base.execute("PRAGMA journal_mode = WAL")
        base.close()
        with open(file + "-wal", "wb") as it:
            it.write(bytes(log))
        judge.same(f"without leave to write: {name}", is_opened_by_nobody(file), wanted)


def is_opened_by_nobody(file):
    """Whether page.py opens a file in a process that has given up its rights; what it ends with where that isn't told."""
    process = os.fork()
    if process:
        status = os.waitstatus_to_exitcode(os.waitpid(process, 0)[1])
        return {0: True, 1: False}.get(status, status)
    status = 2
    try:
        os.setgroups([])
        os.setgid(65534)
        os.setuid(65534)
        archive.opened(file).close()
        status = 0
    except sqlite3.OperationalError:
        status = 1
    finally:
        os._exit(status)


def kept(judge):
    """What `bac keep` keeps of a device that `bac serve` is, before and behind a page of it."""
    file = os.path.join(judge.room, "kept.db")
    port = 20000 + struct.unpack("H", os.urandom(2))[0] % 20000
    address = f"127.0.0.1:{port}"
    with open(os.path.join(HERE, "../use/plant.conf"), "rb") as lines:
        server = subprocess.Popen([PROGRAM, "serve", address], stdin=lines, stdout=subprocess.DEVNULL, stderr=subprocess.PIPE)
    try:
        server.stderr.readline()
        statuses = []
        for _ in range(2):
            statuses.append(subprocess.run([PROGRAM, "keep", file, address], capture_output=True, timeout=60, check=False).returncode)
            judge.drawn(file)
        page = Page(judge.browser.dom(judge.at))
    finally:
        server.kill()
        server.wait()
    count = asked(file, "SELECT count(*) FROM items WHERE last IS NULL AND id >> 47 = 1")[0][0]
    judge.same("kept by bac", (statuses, [(row.heading, row.name) for row in page.rows], page.rows and page.rows[0].records),
               ([0, 0], [("Device 123", "pump-trend"), ("Device 123", "by-hand")], f"{count:,}"))


def main():
    why = installed()
    if why:
        print(f"Chromium isn't there: {why}\n0 passed, 1 failed")
        sys.exit(1)
    with tempfile.TemporaryDirectory() as room:
        judge = Judge(room)
        for version in (2, 3):
            site(judge, version)
        for row in (pictures, hostile, silences, marks, in_parts, refused, beside_others, large):
            row(judge)
        try:
            kept(judge)
        except OSError as error:
            judge.same("kept by bac", str(error), "a program that starts")
    print(f"{judge.passed} passed, {judge.failed} failed")
    sys.exit(judge.failed > 0)


if __name__ == "__main__":
    main()
