"""What `bac kept --json` prints, for kept.py: an object on each line, whatever texts an archive holds."""
import contextlib
import json
import shutil
import sqlite3
import subprocess

from kept_apart import in_file
from kept_dates import ITEMS, grown

LOGS = ("SELECT l.id, d.address, d.instance, l.instance, l.name, l.source, l.units FROM logs l JOIN devices d ON d.id = l.device "
        "ORDER BY l.id")
OF_LOG = "address", "device", "trend_log", "name", "source", "units"
OF_RECORD = "epoch", "number", "stamp", "value", "datum", "flags"
LETTERS = str.maketrans("01", "FT")
# What ends a line, a text or an escape for one reader or another; no text at all; and one that looks like a number.
HOSTILE = ("\"", "\\", "\\u0000", "a\nb\r\tc", "".join(map(chr, range(1, 32))), "\x7f\x85\u2028\u2029\ufeff", "😀\U0010ffff", "{}[],:", "", "0100")
VALUES = (0.1, -0.0, 5e-324, 1.7976931348623157e308, 123456789012345680.0, float("inf"), float("-inf"), None)


def objects_of(file):
    """The objects of an archive, by what sqlite3 reads of it."""
    said = []
    for log, *texts in in_file(file, LOGS):
        names = dict(zip(OF_LOG, [text if text != "" else None for text in texts]))
        for epoch, number, last, stamp, value, datum, flags in in_file(file, ITEMS.format(log)):
            if last is not None:
                said.append({**names, "epoch": epoch, "first": number, "last": last, "doubtful": bool(datum)})
                continue
            real = value if value is not None and abs(value) != float("inf") else None
            said.append({**names, **dict(zip(OF_RECORD, (epoch, number, stamp, real, datum, flags.translate(LETTERS))))})
    return said


def parsed(text):
    """Each line's object, which has its keys in order."""
    return [json.loads(line) for line in text.split("\n")[:-1]]


def is_printed(judge, name, file):
    """What is printed is what sqlite3 reads: the same objects, with their keys in the same order, and numbers as numbers."""
    status, out, errors = judge.ran(["kept", file, "--json"])
    got, wanted = parsed(out), objects_of(file)
    judge.same(name, (status, [list(said.items()) for said in got], errors), (0, [list(said.items()) for said in wanted], ""))
    judge.is_right(f"{name}: numbers", all(type(said.get("value", 0.5)) in (float, type(None)) and type(said["epoch"]) is int for said in got), got)
    if shutil.which("jq"):
        done = subprocess.run(["jq", "-c", "."], input=out.encode(), capture_output=True, check=False)
        judge.same(f"{name}: jq", (done.returncode, done.stdout.count(b"\n")), (0, len(got)))
    return out


def changed(file, statement, *rows):
    with contextlib.closing(sqlite3.connect(file)) as base:
        base.executemany(statement, rows)
        base.commit()


def json_lines(judge, _runs):
    """Records and gaps of an archive as JSON, hostile texts and numbers in it, and what isn't UTF-8."""
    file = f"{judge.room}/a.db"
    device = grown(judge, [file])
    is_printed(judge, "as it was kept", file)
    judge.is_right("there is a gap", "\"doubtful\":true" in judge.ran(["kept", file, "--json"])[1])
    for text in HOSTILE:
        changed(file, "UPDATE logs SET name = ?, source = ?, units = ?", (text, f"x{text}", f"{text}y"))
        changed(file, "UPDATE items SET datum = ? WHERE last IS NULL AND id >> 47 = 3", (f"\"{text}\"",))
        out = is_printed(judge, f"a text of {text!r}", file)
        judge.is_right(f"a text of {text!r}: no line is broken", all(line.startswith("{\"address\"") for line in out.split("\n")[:-1]), out)
    for value in VALUES:
        changed(file, "UPDATE items SET value = ? WHERE last IS NULL", (value,))
        is_printed(judge, f"a value of {value}", file)
    # What isn't UTF-8 in a datum is U+FFFD.
    changed(file, "UPDATE items SET datum = CAST(x'61ff62' AS TEXT) WHERE last IS NULL", ())
    status, out, errors = judge.ran(["kept", file, "--json"])
    judge.same("octets that aren't UTF-8", (status, {said["datum"] for said in parsed(out) if "datum" in said}, errors), (0, {"a\ufffdb"}, ""))
    # The newest records.
    changed(file, "UPDATE items SET datum = 'null' WHERE last IS NULL", ())
    newest = parsed(judge.ran(["kept", file, "--last", "--json"])[1])
    judge.same("the newest records", [(said["trend_log"], said["number"], list(said)) for said in newest],
               [(1, 2, [*OF_LOG, *OF_RECORD, "silent_since"]), (2, None, [*OF_LOG, *OF_RECORD, "silent_since"]), (3, 3, [*OF_LOG, *OF_RECORD, "silent_since"])])
    # Of dates, and of one log.
    dated = judge.ran(["kept", file, device.address, "1", "--since=2026-11-30", "--json"])
    wanted = [said for said in objects_of(file) if said["trend_log"] == 1 and said.get("stamp", "") >= "2026-11-30"]
    judge.same("of dates", (dated[0], [said for said in parsed(dated[1]) if "stamp" in said]), (0, wanted))
    status, out, errors = judge.ran(["kept", file, "--csv", "--json"])
    judge.is_right("beside --csv", (status, out) == (1, "") and errors.startswith("bad value\n--json: "), (status, out, errors))
