"""Files and a server for warehouse.py: an archive of format 2 made of one of format 3, what an archive has, and a PostgreSQL
of its own."""
import contextlib
import glob
import os
import shutil
import signal
import sqlite3
import subprocess
import sys

from page_archives import schema_2

USE = os.path.realpath(os.path.join(os.path.dirname(__file__), "../use/warehouse"))
# The rows of format 2, of those of format 3.
ROWS_2 = """
INSERT INTO logs SELECT l.id, d.address, d.dnet, d.dadr, l.instance, l.name, d.instance, l.restart, l.revision, l.stopped
    FROM old.logs l JOIN old.devices d ON d.id = l.device;
INSERT INTO items SELECT id, last, stamp, value, iif(last IS NULL, datum, NULL), flags FROM old.items;
INSERT INTO beginnings SELECT id, number FROM old.beginnings;
"""
# What a device may have told, and what none may.
DRESSED = """
UPDATE devices SET name = 'plant''s', revision = 7, whole = 1, answered = '2024-05-06T07:08:09.10', offset = 7203;
UPDATE logs SET source = 'object(0,1).85', units = 'enum(62)', description = 'a\b' || char(9, 10) || 'c';
UPDATE items SET datum = iif(last % 2, 'or began anew', NULL) WHERE last IS NOT NULL;
"""
DEVICE = "device, address, dnet, dadr, instance, name, revision, whole, stopped, answered, clock_offset"
LOG = "log, device, instance, name, source, units, description, restart, revision, stopped"
RECORD = "log, epoch, number, stamp, value, datum, flags"


def opened(file):
    return contextlib.closing(sqlite3.connect(file))


def older(new, old):
    """A file of format 2 of one of format 3."""
    if os.path.exists(old):
        os.remove(old)
    with opened(old) as base:
        base.executescript(schema_2())
        base.execute("ATTACH ? AS old", (new,))
        base.executescript(ROWS_2)
        base.commit()
    return old


def dressed(file):
    """A file that has all columns."""
    with opened(file) as base:
        base.executescript(DRESSED)
    return file


def made_at(file, moment):
    """A file whose archive was made at this moment."""
    with opened(file) as base:
        base.execute("UPDATE archive SET made = ?", (moment,))
        base.commit()
    return file


def text(it):
    return "" if it is None else repr(it) if isinstance(it, float) else str(it)


def answered(stamp):
    """A moment as PostgreSQL tells it."""
    return stamp and stamp.replace("T", " ").rstrip("0").rstrip(".") + "+00"


def rows_of(file, version=3):
    """What an archive has, in the texts of the warehouse's tables."""
    with opened(file) as base:
        def ask(question):
            return {tuple(map(text, row)) for row in base.execute(question)}
        items = "SELECT id >> 47, (id >> 32) & 32767, id & 4294967295, {} FROM items WHERE last IS {} NULL"
        doubtful = "iif(datum IS NOT NULL, 't', 'f')" if version == 3 else "NULL"
        found = {"records": ask(items.format("stamp, value, datum, flags", "")), "gaps": ask(items.format(f"last, {doubtful}", "NOT")),
                 "epochs": ask(f"SELECT id >> 15, id & 32767, number, {'why' if version == 3 else 'NULL'} FROM beginnings")}
        if version == 3:
            base.create_function("moment", 1, answered)
            found["devices"] = ask("SELECT id, address, dnet, dadr, instance, name, revision, iif(whole, 't', 'f'), iif(stopped, 't', 'f'),"
                                   " moment(answered), offset FROM devices")
            found["logs"] = ask("SELECT id, device, instance, name, source, units, description, restart, revision,"
                                " iif(stopped, 't', 'f') FROM logs")
    return found


class Server:
    """A PostgreSQL that is reached by a socket in its folder."""

    def __init__(self, room):
        self.room = room
        os.mkdir(room)
        # It refuses to run as root.
        self.user = {"user": "nobody"} if os.geteuid() == 0 else {}
        if self.user:
            shutil.chown(room, "nobody")
            for folder in (room, *(room[:at] for at in range(len(room)) if room[at] == "/" and at)):
                os.chmod(folder, os.stat(folder).st_mode | 0o011)
        self.surroundings = {**os.environ, "PGHOST": room, "PGUSER": "owner", "PGDATABASE": "buildings", "PGTZ": "America/Lima"}
        self.call("initdb", "-D", f"{room}/data", "-A", "trust", "-U", "owner", "--no-sync", "-E", "UTF8", "--locale=C.UTF-8")
        self.call("pg_ctl", "-D", f"{room}/data", "-w", "-t", "300", "-l", f"{room}/log", "-o", f"-k {room} -h '' -c fsync=off", "start")
        self.ran("CREATE DATABASE buildings", PGDATABASE="postgres")

    def call(self, word, *words):
        subprocess.run([program(word), *words], check=True, stdout=subprocess.DEVNULL, cwd=self.room, **self.user)

    def close(self):
        self.call("pg_ctl", "-D", f"{self.room}/data", "-m", "immediate", "stop")

    def ran(self, *statements, **more):
        words = [word for statement in statements for word in ("-c", statement)]
        return self.script(*words, **more)

    def script(self, *words, **more):
        ran = subprocess.run(["psql", "-X", "-q", "-A", "-t", "-F", "\x1f", "-R", "\x1e", "-v", "ON_ERROR_STOP=1", *words],
                             env={**self.surroundings, **more}, capture_output=True, text=True)
        return ran.returncode, ran.stdout, ran.stderr

    def rows(self, statement, **more):
        status, out, errors = self.ran(statement, **more)
        assert status == 0, errors
        return [tuple(row.split("\x1f")) for row in out.removesuffix("\n").split("\x1e") if row]

    def started(self, *words, **more):
        return subprocess.Popen([sys.executable, f"{USE}/load", *words], env={**self.surroundings, "PGUSER": "loader", **more},
                                stdout=subprocess.PIPE, stderr=subprocess.PIPE, text=True, start_new_session=True)

    def load(self, *words, seconds=None, psql_alone=False, **more):
        """A load, of which all or psql alone is killed after so many seconds: its status, and what it printed and told."""
        process = self.started(*words, **more)
        try:
            out, errors = process.communicate(timeout=seconds)
        except subprocess.TimeoutExpired:
            if psql_alone:
                subprocess.run(["pkill", "-KILL", "-P", str(process.pid), "psql"])
            else:
                os.killpg(process.pid, signal.SIGKILL)
            out, errors = process.communicate()
        return process.returncode, out, errors

    def loaded(self, site, version=3):
        """What the warehouse has of a site, as `rows_of` tells it of a file."""
        where = f"WHERE site = (SELECT site FROM bac.sites WHERE name = '{site}')"
        self.surroundings["PGTZ"] = "UTC"
        found = {"records": {row[:4] + (repr(float(row[4])) if row[4] else "",) + row[5:]
                             for row in self.rows(f"SELECT {RECORD} FROM bac.records {where}")},
                 "gaps": set(self.rows(f"SELECT log, epoch, first, last, doubtful FROM bac.gaps {where}")),
                 "epochs": set(self.rows(f"SELECT log, epoch, beginning, why FROM bac.epochs {where}"))}
        if version == 3:
            found["devices"] = set(self.rows(f"SELECT {DEVICE} FROM bac.devices {where} AND device < 65536"))
            found["logs"] = set(self.rows(f"SELECT {LOG} FROM bac.logs {where}"))
        return found

    def everything(self):
        """All rows of the warehouse."""
        tables = "sites", "devices", "logs", "epochs", "records", "gaps"
        return [self.rows(f"SELECT * FROM bac.{table} ORDER BY 1, 2, 3, 4") for table in tables]


def program(word):
    """A program of PostgreSQL's server, which Debian has out of PATH."""
    return shutil.which(word) or next(iter(sorted(glob.glob(f"/usr/lib/postgresql/*/bin/{word}"), reverse=True)), None)


def is_installed():
    """Whether a server is here, or could be installed."""
    wanted = "initdb", "pg_ctl", "psql"
    for words in (["update"], ["install", "-y", "--no-install-recommends", "postgresql"]):
        if not all(map(program, wanted)):
            words = [*(["sudo", "-n"] if os.geteuid() else []), "apt-get", "-q", *words]
            print("no PostgreSQL is here:", *words, flush=True)
            with contextlib.suppress(FileNotFoundError):
                subprocess.run(words, env={**os.environ, "DEBIAN_FRONTEND": "noninteractive"}, stdout=subprocess.DEVNULL)
    return all(map(program, wanted))
