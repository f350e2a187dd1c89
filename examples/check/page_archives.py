"""Archives for page.py: sites with curves, gaps, doubtful gaps, epochs, silent devices and logs without numbers, in format 3,
which `bac keep` writes, and in format 2, which it wrote before, by the texts that their tables have."""
import datetime
import math
import os
import random
import re
import sqlite3
import struct

HERE = os.path.dirname(os.path.abspath(__file__))
END = datetime.datetime(2026, 11, 29, 23, 45)
DAYS, QUARTER = 7, datetime.timedelta(minutes=15)
STEPS = DAYS * 96

FORMAT_3 = """
CREATE TABLE archive (version INTEGER PRIMARY KEY, made TEXT NOT NULL) STRICT;
CREATE TABLE devices (id INTEGER PRIMARY KEY, address TEXT NOT NULL, dnet INTEGER NOT NULL, dadr TEXT NOT NULL, instance INTEGER,
    name TEXT, revision INTEGER, whole INTEGER NOT NULL, stopped INTEGER NOT NULL, answered TEXT, offset INTEGER,
    UNIQUE (address, dnet, dadr)) STRICT;
CREATE TABLE logs (id INTEGER PRIMARY KEY, device INTEGER NOT NULL, instance INTEGER NOT NULL, name TEXT, source TEXT, units TEXT,
    description TEXT, restart TEXT, revision INTEGER, stopped INTEGER NOT NULL, UNIQUE (device, instance)) STRICT;
CREATE TABLE items (id INTEGER PRIMARY KEY, last INTEGER, stamp TEXT, value REAL, datum TEXT, flags TEXT) STRICT;
CREATE TABLE beginnings (id INTEGER PRIMARY KEY, number INTEGER NOT NULL, why TEXT) STRICT;
INSERT INTO archive VALUES (3, '2026-11-22 23:41:07');
"""
# Address, instance, name, when it answered last, and how far its clock is ahead.
DEVICES = [
    ("192.168.1.20:47808", 1201, "AHU-1 Lecture halls", "2026-11-29T23:46:02.00", 2),
    ("192.168.1.21:47808", 1202, "Heating plant", "2026-11-29T23:46:03.00", -3607),
    ("192.168.1.22:47808", 1203, "Chiller <roof> & \"pumps\"", "2026-11-27T09:31:01.00", 0),
]
# Device, instance, name, source, units, kind, and what befell it.
LOGS = [
    (1, 1, "Supply air temperature", "object(0,1).85", "enum(62)", ("real", 19.5, 2.2, 0.25), ""),
    (1, 2, "Return air temperature", "object(0,2).85", "enum(62)", ("real", 22.4, 1.1, 0.12), "gap"),
    (1, 3, "Supply fan speed", "object(1,1).85", "enum(98)", ("real", 55.0, 30.0, 1.5), "doubtful"),
    (1, 4, "Supply fan", "object(4,1).85", "enum(95)", ("enum", 0, 0, 0), ""),
    (1, 5, "CO₂ lecture hall 1", "object(0,7).85", "enum(96)", ("real", 620.0, 210.0, 18.0), "epoch"),
    (2, 1, "Flow temperature", "object(0,1).85", "enum(62)", ("real", 58.0, 7.0, 0.8), ""),
    (2, 2, "Boiler stage", "object(19,1).85", "enum(95)", ("unsigned", 2, 0, 0), "gap"),
    (2, 3, "Heat meter", "object(23,1).85", "enum(19)", ("count", 48210, 0, 0), ""),
    (2, 4, "Alarm bits", "object(40,2).85", "enum(95)", ("bits", 0, 0, 0), ""),
    (3, 1, "Chilled water flow", "object(0,3).85@1202", "enum(135)", ("real", 31.0, 6.0, 0.9), "silent"),
    (3, 2, "<b>Condenser</b> & \"fan\"", "object(1,2).85", "enum(98)", ("real", 48.0, 22.0, 2.5), "silent"),
]


def schema_2():
    """The texts of format 2, as an archive of format2/ has them, in the order in which they were made."""
    with open(os.path.join(HERE, "format2/site.sql"), encoding="utf-8") as file:
        texts = re.findall(r"^CREATE (?:TABLE|VIEW) (\w+) (.*?;)$", file.read(), re.S | re.M)
    made = "archive", "logs", "items", "beginnings", "records", "gaps", "epochs"
    texts = [f"CREATE {'VIEW' if text.startswith('AS ') else 'TABLE'} {name} {text}" for name, text in sorted(texts, key=lambda it: made.index(it[0]))]
    return "\n".join([*texts, "INSERT INTO archive VALUES (2);"])


def real(value):
    octets = struct.pack(">f", value)
    return struct.unpack(">f", octets)[0], f"real({octets.hex()})"


def datum_of(kind, middle, swing, noise, at, chance):
    """A value and its text, at a step of the week: days have noons, and weekends little load."""
    phase = math.sin((at % 96 - 34) / 96 * 2 * math.pi)
    if kind == "real":
        return real(max(0.0, middle + swing * phase + chance.gauss(0, noise)))
    if kind == "enum":
        on = 24 <= at % 96 < 76 and at // 96 != 6
        return float(on), f"enum({int(on)})"
    if kind == "unsigned":
        stage = 1 + (phase < 0.3) + (phase < -0.6)
        return float(stage), str(stage)
    if kind == "count":
        return float(middle + at * 3 + int(12 * phase)), str(middle + at * 3 + int(12 * phase))
    return None, "bits(0100)" if at % 300 > 260 else "bits(0000)"


def items_of(log, middle_of, befell, chance):
    """The rows of items: id, last, stamp, value, datum, flags. A doubtful gap has a datum."""
    epoch, number = 0, 400
    for at in range(STEPS):
        if befell == "silent" and at > STEPS - 250:
            return
        missing = {"gap": range(300, 372), "doubtful": range(420, 470)}.get(befell, ())
        if at in missing:
            if at == missing[0]:
                yield row(log, epoch, number, number + len(missing) - 1, "or began anew" if befell == "doubtful" else None)
            number += 1
            if at == missing[-1] and befell == "doubtful":
                epoch, number = 1, 1
            continue
        if befell == "epoch" and at == 500:
            epoch, number = 1, 1
        value, datum = datum_of(*middle_of, at, chance)
        stamp = (END - QUARTER * (STEPS - 1 - at)).strftime("%Y-%m-%dT%H:%M:%S.00")
        yield (log << 15 | epoch) << 32 | number, None, stamp, value, datum, "0100" if befell == "silent" else "0000"
        number += 1


def row(log, epoch, first, last, datum):
    return (log << 15 | epoch) << 32 | first, last, None, None, datum, None


def made(file, version):
    """The site of DEVICES and LOGS, in this format. In format 2 no gap is doubtful, and no log has a source or units."""
    if os.path.exists(file):
        os.remove(file)
    chance, base = random.Random(7), sqlite3.connect(file)
    base.executescript(schema_2() if version == 2 else FORMAT_3)
    for at, device in enumerate(DEVICES, 1):
        if version == 3:
            base.execute("INSERT INTO devices VALUES (?, ?, 0, '', ?, ?, 7, 1, 0, ?, ?)", (at, *device))
    if version == 3:
        base.execute("INSERT INTO devices VALUES (4, '192.168.1.23:47808', 0, '', NULL, NULL, NULL, 1, 0, NULL, NULL)")
    for log, (device, instance, name, source, units, kind, befell) in enumerate(LOGS, 1):
        address, number = DEVICES[device - 1][:2]
        if version == 2:
            base.execute("INSERT INTO logs VALUES (?, ?, 0, '', ?, ?, ?, NULL, NULL, 0)", (log, address, instance, name, number))
        else:
            base.execute("INSERT INTO logs VALUES (?, ?, ?, ?, ?, ?, NULL, NULL, NULL, 0)", (log, device, instance, name, source, units))
        rows = list(items_of(log, kind, befell, chance))
        begins = {row[0] >> 32: row[0] & 4294967295 for row in reversed(rows)}
        for at, first in begins.items():
            why = {"doubtful": "began anew, or dropped records", "epoch": "began anew"}.get(befell) if at & 32767 else None
            base.execute("INSERT INTO beginnings VALUES (?, ?" + (", ?)" if version == 3 else ")"), (at, first, why)[:version])
        base.executemany("INSERT INTO items VALUES (?, ?, ?, ?, ?, ?)",
                         [row[:4] + (row[4] if version == 3 or not row[1] else None,) + row[5:] for row in rows])
    base.commit()
    base.close()


def made_large(file, logs, records):
    """Format 3: so many logs with so many records in all, a quarter of an hour apart."""
    base, each = sqlite3.connect(file), records // logs
    base.executescript(FORMAT_3)
    base.executemany("INSERT INTO devices VALUES (?, ?, 0, '', ?, NULL, NULL, 1, 0, '2026-11-29T23:46:02.00', 0)",
                     [(at, f"10.0.{at // 250}.{at % 250}:47808", at) for at in range(logs // 4 + 1)])
    base.executemany("INSERT INTO logs VALUES (?, ?, ?, ?, NULL, NULL, NULL, NULL, NULL, 0)",
                     [(at, at // 4, at, f"log {at}") for at in range(1, logs + 1)])
    base.executemany("INSERT INTO beginnings VALUES (?, 1, NULL)", [(at << 15,) for at in range(1, logs + 1)])
    base.execute("""INSERT INTO items WITH RECURSIVE log(at) AS (SELECT 1 UNION ALL SELECT at + 1 FROM log WHERE at < ?1),
        number(it) AS (SELECT 1 UNION ALL SELECT it + 1 FROM number WHERE it < ?2)
        SELECT (at << 47) + it, CASE WHEN it % 97 = 0 THEN it END,
            CASE WHEN it % 97 THEN strftime('%Y-%m-%dT%H:%M:%S.00', 1700000000 + it * 900, 'unixepoch') END,
            CASE WHEN it % 97 THEN at * 13 % 50 + abs(random() % 1000) / 100.0 END, CASE WHEN it % 97 THEN 'real(41c80000)' END,
            CASE WHEN it % 97 THEN '0000' END FROM log CROSS JOIN number""", (logs, each))
    base.commit()
    base.close()
