#!/usr/bin/env python3
"""warehouse.py [PROGRAM [CASE..]]: archives of `PROGRAM keep` are loaded into a PostgreSQL of its own by ../use/warehouse/load: each
record and each gap once, also if loads are killed, of many sites at once, behind a restored backup; and no other archive
under a site's name. PROGRAM is crates/bac/out/bac where none is given. Where no PostgreSQL is here it is installed. Prints
what is wrong, and `N passed, M failed` at the end."""
import datetime
import os
import shutil
import signal
import sqlite3
import subprocess
import sys
import tempfile
import threading
import time

from kept_devices import Device, Log, answering, chance, serve
from kept_judge import Judge
from kept_parts import FULL, begun, fill, together
from kept_rounds import one
from warehouse_files import USE, Server, dressed, is_installed, made_at, older, opened, rows_of
from warehouse_moments import MOMENTS

ZONE = "--zone=Europe/Berlin"
ANOTHER = "it is another archive; load it under a name of its own\n"


def items(found):
    """How many records and gaps there are."""
    return sum(len(found[table]) for table in ("records", "gaps"))


def same_rows(judge, name, server, site, file, version=3):
    """What is loaded is what the file has, row by row."""
    loaded, wanted = server.loaded(site, version), rows_of(file, version)
    for table, rows in wanted.items():
        judge.is_right(f"{name}: {table}", loaded[table] == rows, (sorted(loaded[table] - rows)[:3], sorted(rows - loaded[table])[:3]))


def refused(judge, name, server, words, *texts):
    """A load that says why nothing is loaded, and loads nothing."""
    before = server.everything()
    ended, out, errors = server.load(*words)
    judge.is_right(name, (ended, out) == (1, "") and all(it in errors for it in texts), (ended, out, errors))
    judge.is_right(f"{name}: nothing is loaded", server.everything() == before)


def parts(judge, server):
    """Parts are loaded as they are begun, also one that was moved away; where one is missing none behind it is loaded."""
    device, folder = begun(judge, "warehouse's", 30)
    judge.ran(["keep", folder, device.address, "1", "2"])
    first, second, third = (f"{folder}/00000{n}.db" for n in (1, 2, 3))
    away = f"{judge.room}/away"
    os.mkdir(away)

    def grown(part):
        fill(part)
        device.logs[1].log(20)
        device.logs[2].log(3)
        judge.ran(["keep", folder, *FULL])
        device.logs[1].log(5)
        judge.ran(["keep", folder])

    def count():
        return items(server.loaded("parts"))

    def is_loaded(name, before, *files):
        came = server.load("parts", *files, ZONE)
        wanted = rows_of(together(folder, f"{judge.room}/merged warehouse.db"))
        judge.same(name, came, (0, f"{count() - before} items\n", ""))
        judge.is_right(f"{name}: all of it", all(server.loaded("parts")[table] >= rows for table, rows in wanted.items()))

    is_loaded("one part is loaded", 0, folder)
    grown(first)
    is_loaded("and the next one", count(), folder)
    judge.same("and nothing again", server.load("parts", folder), (0, "0 items\n", ""))
    os.rename(first, f"{away}/000001.db")
    device.logs[1].log(4)
    judge.ran(["keep", folder])
    grown(second)
    os.rename(second, f"{away}/000002.db")
    refused(judge, "a part is missing", server, ("parts", folder), f"{third}: what comes behind the items that are loaded is in")
    is_loaded("with it all is loaded", count(), f"{away}/000002.db", folder)
    open(f"{folder}/000004.db", "wb").close()
    judge.same("a part that has nothing yet", server.load("parts", folder), (0, "0 items\n", ""))
    judge.same("all parts at once", server.load("whole", away, folder, ZONE)[:2], (0, f"{count()} items\n"))
    judge.same("are the same", server.loaded("whole"), server.loaded("parts"))
    # One that begins with an epoch that has no item yet: of the log it has nothing of the epoch before.
    os.remove(f"{folder}/000004.db")
    device.logs[2].begin(0)
    judge.ran(["keep", folder])
    judge.same("up to there", server.load("empty", away, f"{folder}/000003.db", ZONE)[0], 0)
    fill(third)
    judge.ran(["keep", folder, *FULL])
    device.logs[2].log(4)
    judge.ran(["keep", folder])
    fourth = f"{folder}/000004.db"
    judge.same("a part whose log begins with another epoch", server.load("empty", fourth)[:2], (0, "4 items\n"))
    with opened(third) as base:
        base.execute("DELETE FROM beginnings WHERE id & 32767 = 1")
        base.commit()
    judge.same("before that epoch", server.load("before", away, third, ZONE)[0], 0)
    refused(judge, "what lies between isn't loaded", server, ("before", fourth), f"{fourth}: what comes behind the items that are loaded is in")


def killed_loads(judge, server):
    """Two sites go on, and loads are killed, all of them or psql alone: each leaves what was there, or a whole load."""
    (device, log), (other, second) = one(room_for=90), one(room_for=40)
    file = f"{judge.room}/site's.db"
    log.log(60)
    judge.same("a first run", judge.ran(["keep", file, device.address, "1"])[0], 0)
    began = time.monotonic()
    judge.same("all of it is loaded", server.load("here", file, ZONE), (0, "60 items\n", ""))
    took = time.monotonic() - began  # on this machine: so kills fall within a load
    judge.same("and nothing again", server.load("here", file), (0, "0 items\n", ""))
    # The second log's ids lie above the first one's; then both go on, and one has a gap and begins anew.
    second.log(10)
    judge.ran(["keep", file, other.address, "1"])
    judge.same("another log", server.load("here", file), (0, "10 items\n", ""))
    killed = 0
    for at in range(16):
        log.log(chance.randrange(1, 120))
        second.log(chance.randrange(3))
        if at == 6:
            log.begin(0)
            log.log(7)
        judge.same("a run", judge.ran(["keep", file])[0], 0)
        before = server.loaded("here")
        status = server.load("here", file, seconds=chance.uniform(0.2, 1.1) * took, psql_alone=at % 2 == 1)[0]
        killed += status in (-signal.SIGKILL, 9, 3)
        judge.is_right(f"load {at} ends well, or is killed", status in (0, -signal.SIGKILL, 9, 3), status)
        # What was told the server before the kill may still come to its end.
        while server.rows("SELECT 1 FROM pg_stat_activity WHERE usename = 'loader'"):
            time.sleep(0.1)
        judge.is_right(f"behind load {at}", server.loaded("here") in (before, rows_of(file)))
    judge.same("a whole load", server.load("here", file)[0], 0)
    same_rows(judge, "all is loaded", server, "here", file)
    judge.is_right("loads are killed", killed > 3, killed)
    judge.same("under another name all comes again", server.load("there's", file, ZONE)[:2], (0, f"{items(rows_of(file))} items\n"))
    same_rows(judge, "under another name", server, "there''s", file)
    judge.same("the newest", server.rows("SELECT address, number FROM bac.newest WHERE site = 'here' ORDER BY 1"),
               sorted([(device.address, str(log.total)), (other.address, str(second.total))]))
    refused(judge, "no such file", server, ("here", f"{judge.room}/none.db"), "none.db: there is no such file")


def restored(judge, server):
    """A restored backup goes on: what the warehouse lacks of it is loaded, and what it has more stays."""
    for version in (2, 3):
        device, log = one(room_for=60)
        file, two, site = f"{judge.room}/restored {version}.db", f"{judge.room}/two.db", f"restored {version}"

        def load(name, count):
            loads = file if version == 3 else older(file, two)
            judge.same(name, server.load(site, loads, ZONE), (0, f"{count} items\n", ""))
            loaded, wanted = server.loaded(site, version), rows_of(loads, version)
            judge.is_right(f"{name}: each row", all(loaded[table] >= rows for table, rows in wanted.items()), wanted["gaps"] - loaded["gaps"])

        def run(count):
            log.log(count)
            judge.same("a run", judge.ran(["keep", file, device.address, "1"])[0], 0)

        run(50)
        shutil.copyfile(file, f"{file}.backup")
        run(50)
        shutil.copyfile(file, f"{file}.more")
        load(f"restored, {version}: before", 100)
        shutil.copyfile(f"{file}.backup", file)
        load(f"restored, {version}: as it was", 0)
        for number in range(41, 91):
            del log.held[number]
        log.oldest = 91
        run(0)
        load(f"restored, {version}: a gap of what was loaded", 1)
        missing = f"SELECT first, last FROM bac.missing WHERE site = '{site}' ORDER BY 1"
        judge.same(f"restored, {version}: no number is without a record", server.rows(missing), [])
        judge.same(f"restored, {version}: under a name of its own", server.load(f"copy {version}", file, ZONE), (0, "61 items\n", ""))
        same_rows(judge, f"restored, {version}: under a name of its own", server, f"copy {version}", file)
        judge.same("a copy with records in that gap", server.load(f"copy {version}", f"{file}.more"), (0, "40 items\n", ""))
        judge.same("which is none any more", server.rows(f"SELECT * FROM bac.missing WHERE site = 'copy {version}'"), [])
        run(100)
        load(f"restored, {version}: and it goes on", 61)
        judge.same(f"restored, {version}: what no record has", server.rows(missing), [("101", "140")])
        shutil.copyfile(f"{file}.backup", file)
        run(0)
        load(f"restored, {version}: a longer gap", 1)
        judge.same(f"restored, {version}: still", server.rows(missing), [("101", "140")])


def made_anew(judge, server):
    """A file that was made anew is refused in words, by its own moment, or of format 2 by its logs."""
    device, other = (Device([Log(1, 50), Log(2, 50)], name) for name in ("plant", "other"))
    serve([device, other])
    for log in (*device.logs.values(), *other.logs.values()):
        log.log(8)
    first, second = f"{judge.room}/first.db", f"{judge.room}/second.db"
    judge.ran(["keep", first, device.address, "1", other.address, "1"])
    two, other_two = older(first, f"{judge.room}/first two.db"), f"{judge.room}/second two.db"
    judge.same("a site", server.load("anew 3", first, ZONE), (0, "16 items\n", ""))
    judge.same("a site of format 2", server.load("anew", two, ZONE), (0, "16 items\n", ""))
    device.logs[1].log(60)
    for name, words, why in (("in another order", [other.address, "1", device.address, "1"], "its log 1 is"),
                             ("of another log", [device.address, "2", other.address, "1"], "its log 1 is"),
                             ("later", [device.address, "1", other.address, "1"], "begins at 19, and the one that is loaded at 1")):
        if os.path.exists(second):
            os.remove(second)
        judge.ran(["keep", second, *words])
        refused(judge, f"made anew {name}, format 2", server, ("anew", older(second, other_two)), f"{other_two}: ", why, ANOTHER)
        made_at(second, "2024-05-06 07:00:01")
        refused(judge, f"made anew {name}", server, ("anew 3", second), "it was made 2024-05-06 07:00:01, and", ANOTHER)
        judge.same(f"made anew {name}, by a name of its own", server.load(name, second, ZONE)[0], 0)
        same_rows(judge, f"made anew {name}, by a name of its own", server, name, second)
    with opened(two) as base:
        base.execute("UPDATE items SET stamp = '2024-01-01T00:00:00.00' WHERE id = (1 << 47) + 8")
        base.commit()
    refused(judge, "another record", server, ("anew", two), "number 8 of epoch 0 of", "isn't the record that is loaded", ANOTHER)


def moved(judge, server):
    """A device that moved is the same one, known by its instance. Its row is mended by hand."""
    for version in (2, 3):
        device, log = one()
        log.log(5)
        file, site = f"{judge.room}/moved {version}.db", f"moved {version}"
        judge.ran(["keep", file, device.address, "1"])

        def loads():
            return file if version == 3 else older(file, f"{file}.two")

        judge.same(f"before it moved, {version}", server.load(site, loads(), ZONE), (0, "5 items\n", ""))
        device.move()
        serve([device])
        log.log(2)
        with opened(file) as base:
            base.execute("UPDATE devices SET address = ?", (device.address,))
            base.commit()
        judge.same(f"its log goes on there, {version}", judge.ran(["keep", file])[0], 0)
        judge.same(f"behind its move, {version}", server.load(site, loads()), (0, "2 items\n", ""))
        judge.same(f"it stands there, {version}", server.rows(f"SELECT DISTINCT address FROM bac.trends WHERE site = '{site}'"), [(device.address,)])


def formats(judge, server):
    """Of format 3 all columns are loaded; a site of format 2 goes on as one of format 3."""
    device, folder = begun(judge, "formats", 30)
    device.logs[1].room_for = 20
    two, three = f"{folder}/two.db", f"{folder}/three.db"
    judge.ran(["keep", three, device.address, "1", "2"])
    device.logs[1].log(45)
    device.logs[2].begin(0)
    device.logs[2].log(3)
    judge.ran(["keep", three])
    older(dressed(three), two)
    judge.same("format 2", server.load("formats", two, ZONE)[0], 0)
    same_rows(judge, "format 2", server, "formats", two, 2)
    judge.same("format 3 of it", server.load("formats", three), (0, "0 items\n", ""))
    same_rows(judge, "format 3 of it", server, "formats", three)
    judge.same("an old copy of format 2", server.load("formats", two), (0, "0 items\n", ""))
    judge.same("format 3 at once", server.load("formats 3", three)[:2], (0, f"{items(rows_of(three))} items\n"))
    same_rows(judge, "format 3 at once", server, "formats 3", three)
    judge.same("its clock is two hours ahead", server.rows(
        "SELECT DISTINCT stamp::timestamp - at AT TIME ZONE 'UTC' FROM bac.trends WHERE site = 'formats 3'"), [("02:00:00",)])
    with opened(three) as base:
        base.executescript("INSERT INTO logs (id, device, instance, stopped) VALUES (9, 1, 3, 1); INSERT INTO beginnings VALUES (9 << 15, 448, 'counted')")
    judge.same("a beginning that was counted", server.load("formats 3", three), (0, "0 items\n", ""))
    with opened(three) as base:
        base.executescript("UPDATE beginnings SET number = 400, why = NULL WHERE id = 9 << 15; UPDATE devices SET answered = NULL, offset = NULL;"
                           "INSERT INTO items (id, stamp, value, datum, flags) VALUES ((9 << 47) + 400, '*-*-*T*:*:*.*', 9e999, 'real(7f800000)', '-')")
    refused(judge, "no offset", server, ("formats 3", three), "no offset of", "--zone=Europe/Berlin")
    refused(judge, "another zone", server, ("formats", three, "--zone=+01:00"), "formats was loaded by Europe/Berlin, and not by +01:00")
    refused(judge, "no zone", server, ("formats", three, "--zone=Europe/Berln"), "Europe/Berln: there is no such zone")
    judge.same("it is lowered, of a log that is stopped", server.load("formats", three), (0, "1 items\n", ""))
    same_rows(judge, "it is lowered", server, "formats", three)
    judge.same("no moment", server.rows("SELECT number, at IS NULL, value FROM bac.trends WHERE site = 'formats' AND trend_log = 3"), [("400", "t", "Infinity")])
    with opened(three) as base:
        base.execute("UPDATE archive SET version = 4")
        base.commit()
    refused(judge, "format 4", server, ("formats", three), "three.db: it is of format 4, and 2 and 3 are loaded")


def moments(judge, server):
    """Stamps are moments of the site's zone, whatever loads cut; the double hour of October is both."""
    for name, zone, wanted in MOMENTS:
        for step in (1, len(wanted)) if name in ("quarters", "hours", "seconds") else (len(wanted),):
            device, log = one()
            file, site = f"{judge.room}/{name}.db", f"{name} {step}"
            if os.path.exists(file):
                os.remove(file)
            log.log(len(wanted))
            judge.ran(["keep", file, device.address, "1"])
            with opened(file) as base:
                for number, (stamp, _) in enumerate(wanted, 1):
                    base.execute("UPDATE items SET stamp = ? WHERE id & 4294967295 = ?", (stamp, number))
                base.commit()
                rows = base.execute("SELECT * FROM items ORDER BY id").fetchall()
                for at in range(step, len(wanted) + 1, step):
                    base.execute("DELETE FROM items")
                    base.executemany("INSERT INTO items VALUES (?, ?, ?, ?, ?, ?)", rows[:at])
                    base.commit()
                    judge.same(f"{name}, {at}", server.load(site, file, f"--zone={zone}")[0], 0)
            found = server.rows("SELECT number, to_char(at AT TIME ZONE 'UTC', 'DD HH24:MI:SS.MS') FROM bac.records JOIN bac.sites USING (site)"
                                f" WHERE name = '{site}' ORDER BY number")
            judge.same(f"{name}, {step} at a time", [moment for _, moment in found], [moment for _, moment in wanted])


class Both:
    """A router, which gives on to its device what is for it."""

    def __init__(self, *devices):
        self.devices = devices

    def answer(self, port, request, asker):
        for device in self.devices:
            device.answer(port, request, asker)


def behind_a_router(judge, server):
    """Two devices behind one router, of which each has a log 1."""
    first = Device([Log(1, 50)], "first", (5, b"\x01"))
    second = Device([Log(1, 50)], "second", (5, b"\x02"), first.socket)
    answering[first.socket] = Both(first, second)
    serve([first])
    file = f"{judge.room}/router.db"
    for device, way in ((first, "01"), (second, "02")):
        device.logs[1].log(3)
        judge.same("behind a router", judge.ran(["keep", file, device.address, "1", "--dnet=5", f"--dadr={way}"])[0], 0)
    judge.same("both are loaded", server.load("router", file, ZONE), (0, "6 items\n", ""))
    judge.same("and told apart", server.rows("SELECT dnet, dadr, device, trend_log, count(*) FROM bac.trends WHERE site = 'router'"
                                             " GROUP BY 1, 2, 3, 4 ORDER BY 2"),
               [("5", "01", str(first.number), "1", "3"), ("5", "02", str(second.number), "1", "3")])


def rights(judge, server):
    """SELECT, INSERT and UPDATE are enough, and nothing less is."""
    granted = server.rows("SELECT DISTINCT privilege_type FROM information_schema.role_table_grants WHERE grantee = 'bac_loader' ORDER BY 1")
    judge.same("rights of a loader", granted, [("INSERT",), ("SELECT",), ("UPDATE",)])
    judge.same("it may make nothing", server.rows(
        "SELECT has_schema_privilege('loader', 'bac', 'CREATE'), has_schema_privilege('loader', 'public', 'CREATE'),"
        " has_database_privilege('loader', 'buildings', 'CREATE'), has_database_privilege('loader', 'buildings', 'TEMP')"), [("f",) * 4])
    device, _ = one(count=5)
    file = f"{judge.room}/rights.db"
    judge.ran(["keep", file, device.address, "1"])
    judge.same("with them", server.load("rights of a loader", file, ZONE), (0, "5 items\n", ""))
    before = server.everything()
    for role, why in (("nobody_here", "permission denied for schema bac"), ("reader", "permission denied for table sites"), ("unknown", 'role "unknown"')):
        status, out, errors = server.load("rights", file, ZONE, PGUSER=role)
        judge.is_right(f"rights of {role}", status in (2, 3) and out == "" and why in errors, (status, out, errors))
    judge.is_right("nothing is loaded without rights", server.everything() == before)
    judge.same("a reader", server.rows("SELECT count(*) > 0 FROM bac.newest", PGUSER="reader"), [("t",)])
    judge.same("another load of warehouse.sql", server.script("-f", f"{USE}/warehouse.sql")[0], 3)
    status, out, errors = server.load("rights", file, ZONE, PGDATABASE="postgres")
    judge.is_right("no warehouse", (status, out) == (1, "") and "there is no warehouse in this database" in errors, errors)
    server.ran("UPDATE bac.warehouse SET version = 2")
    refused(judge, "another version", server, ("rights", file), "the warehouse has version 2, and 1 is loaded")
    server.ran("UPDATE bac.warehouse SET version = 1")


def at_once(judge, server):
    """Eight first loads at once, each of a site of its own, and four of one site."""
    device, folder = begun(judge, "at once", 200)
    file = f"{folder}/site.db"
    judge.ran(["keep", file, device.address, "1", "2"])
    server.ran("DROP SCHEMA bac CASCADE")
    judge.same("the schema again", server.script("-f", f"{USE}/warehouse.sql")[0], 0)
    loads = [server.started(f"site {at}" if at < 8 else "one", shutil.copyfile(file, f"{folder}/{at}.db"), ZONE) for at in range(12)]
    ends = [(load.communicate(timeout=300), load.returncode) for load in loads]
    count = items(rows_of(file))
    judge.same("eight at once", [(out, status) for (out, _), status in ends[:8]], [(f"{count} items\n", 0)] * 8)
    judge.same("four of one site", sorted(out for (out, _), status in ends[8:] if status == 0), sorted([f"{count} items\n"] + ["0 items\n"] * 3))
    for site in [f"site {at}" for at in range(8)] + ["one"]:
        same_rows(judge, f"at once, {site}", server, site, file)


def in_use(judge, server):
    """A file that a run has is waited for, and nobody waits for the loader."""
    device, log = one(count=20)
    file = f"{judge.room}/in use.db"
    judge.ran(["keep", file, device.address, "1"])
    base = sqlite3.connect(file, isolation_level=None, check_same_thread=False)
    # As a run has it: also whoever only reads is kept out.
    base.execute("PRAGMA locking_mode = EXCLUSIVE")
    base.execute("BEGIN EXCLUSIVE")
    began = time.monotonic()
    threading.Timer(2, base.close).start()
    judge.same("a file in use", server.load("in use", file, ZONE), (0, "20 items\n", ""))
    judge.is_right("is waited for", time.monotonic() - began >= 2)
    # The warehouse is locked, so the load waits, and has let go of the file.
    log.log(3)
    judge.ran(["keep", file])
    lock = subprocess.Popen(["psql", "-X", "-q"], env=server.surroundings, stdin=subprocess.PIPE, text=True)
    lock.stdin.write("BEGIN; LOCK TABLE bac.sites;\n")
    lock.stdin.flush()
    waits = "SELECT count(*) FROM pg_stat_activity WHERE usename = 'loader' AND wait_event_type = 'Lock'"
    while server.rows("SELECT count(*) FROM pg_locks WHERE relation = 'bac.sites'::regclass AND granted") == [("0",)]:
        time.sleep(0.1)
    load = server.started("in use", file)
    while load.poll() is None and server.rows(waits) == [("0",)]:
        time.sleep(0.1)
    log.log(2)
    judge.same("a run while a load waits", (judge.ran(["keep", file])[0], load.poll()), (0, None))
    lock.communicate("ROLLBACK;\n")
    judge.same("the load goes on", load.communicate(timeout=120), ("3 items\n", ""))
    judge.same("and the next has the rest", server.load("in use", file), (0, "2 items\n", ""))


def views(judge, server):
    """A log's day is found by index, and the views tell what dashboards ask."""
    device, log = one(room_for=40)
    # What it drops since is dropped for sure.
    device.restart = datetime.datetime(2024, 1, 1)
    file, now = f"{judge.room}/views.db", datetime.datetime.utcnow()
    log.clock = now - datetime.timedelta(seconds=30)
    log.log(30)
    judge.ran(["keep", file, device.address, "1"])
    log.log(80)
    judge.ran(["keep", file])
    judge.same("recent records", server.load("views", file, "--zone=UTC")[0], 0)
    where = "WHERE site = 'views' AND device = %d AND trend_log = 1" % device.number
    records = len(rows_of(file)["records"])
    judge.is_right("the last day", [("30",)] <= server.rows(f"SELECT count(*) FROM bac.last_day {where}") <= [(str(records),)])
    judge.same("the hours", server.rows(f"SELECT sum(records), min(least), max(greatest) FROM bac.hourly {where}"),
               server.rows(f"SELECT count(value), min(value), max(value) FROM bac.trends {where} AND value IS NOT NULL"))
    judge.same("gaps", server.rows(f"SELECT epoch, first, last, doubtful FROM bac.missing {where}"), [("0", "31", "70", "f")])
    judge.same("beginnings", server.rows(f"SELECT epoch, beginning, why FROM bac.beginnings {where}"), [("0", "1", "")])
    server.ran("INSERT INTO bac.records (site, log, epoch, number, at) SELECT 0, l, 0, n, '2024-01-01Z'::timestamptz + n * interval '15 min'"
               " FROM generate_series(1, 20) l, generate_series(1, 5000) n", "ANALYZE bac.records")
    plan = server.rows(f"EXPLAIN SELECT at, value FROM bac.trends {where} AND at >= '2024-01-02Z' AND at < '2024-01-03Z'")
    index = server.rows("SELECT pg_get_indexdef('bac.records_at'::regclass)")[0][0]
    judge.is_right("a day by index", index.endswith("(site, log, at)") and "records_at" in str(plan) and any(
        "Index Cond" in row[0] and "log = " in row[0] and "at >= " in row[0] for row in plan), (index, plan))


CASES = [parts, killed_loads, restored, made_anew, moved, formats, moments, behind_a_router, views, rights, in_use, at_once]


def main(program=None, *names):
    top = os.path.realpath(os.path.join(os.path.dirname(__file__), "../.."))
    if not is_installed():
        print("no PostgreSQL could be installed: apt-get install postgresql", "0 passed, 1 failed", sep="\n")
        return False
    with tempfile.TemporaryDirectory() as room:
        judge = Judge(os.path.realpath(program or f"{top}/crates/bac/out/bac"), "", f"{room}/files")
        os.mkdir(judge.room)
        chance.seed("warehouse")
        server = Server(f"{room}/server")
        try:
            made = server.script("-f", f"{USE}/warehouse.sql")
            judge.same("the schema", (made[0], made[2]), (0, ""))
            server.ran("REVOKE TEMP ON DATABASE buildings FROM PUBLIC", "CREATE ROLE loader LOGIN IN ROLE bac_loader",
                       "CREATE ROLE reader LOGIN IN ROLE bac_reader", "CREATE ROLE nobody_here LOGIN")
            for case in (case for case in CASES if not names or case.__name__ in names):
                began = time.monotonic()
                try:
                    case(judge, server)
                except Exception as error:  # what stops a case is a failure
                    judge.is_right(case.__name__, False, f"{type(error).__name__}: {error}")
                print(f"{case.__name__}, {time.monotonic() - began:.0f} s", *judge.told, sep="\n", flush=True)
                judge.told.clear()
        finally:
            server.close()
    print(f"{judge.passed} passed, {judge.failed} failed")
    return judge.failed == 0


if __name__ == "__main__":
    sys.exit(0 if main(*sys.argv[1:]) else 1)
