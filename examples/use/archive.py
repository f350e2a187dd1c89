"""An archive of `bac keep` for page.py: a copy of it, and what the page shows of each log."""
import collections
import glob
import itertools
import math
import os
import sqlite3
import urllib.parse

# For how long a run of `bac keep` that has the file open is waited for, in seconds.
WAIT = 600
# The least log that has a page of the database, with its header and the page's: a run that ends leaves less than that.
LEAST_LOG = 32 + 24 + 512
GREATEST = 4294967295
# How many changes are listed of a log without numbers.
CHANGES = 4
ITEMS = ("SELECT id, last, CAST(strftime('%s', substr(stamp, 1, 19)) AS INTEGER), stamp, value, datum, flags FROM items"
         " WHERE id BETWEEN ?1 << 47 AND (?1 << 47) + 140737488355327 ORDER BY id")

Gap = collections.namedtuple("Gap", "epoch first last is_doubtful before behind")
# A record: seconds of its stamp where that is a full date and time, its stamp, value, datum and flags.
Record = collections.namedtuple("Record", "at stamp value datum flags")
# The time that all curves have in common: seconds, and how many columns they have.
Axis = collections.namedtuple("Axis", "first last columns")


class Wrong(Exception):
    """FILE can't be drawn."""


# ---- the file

def parts_of(path):
    """The file, or the parts of a folder, the newest first."""
    if not os.path.isdir(path):
        return [path]
    return sorted(glob.glob(os.path.join(glob.escape(path), "[0-9]" * 6 + ".db")), reverse=True)


def opened(file):
    """The file to be read alone. What a run that was killed left beside it, in FILE-wal, is read, too; sqlite needs leave
    to write into the folder for that, and where there is no such leave the file is read as it stands if nothing is left."""
    if not os.path.exists(file):
        raise Wrong("there is no such file")
    name = urllib.parse.quote(os.path.abspath(file))
    for mode in ("mode=ro", "immutable=1"):
        base = sqlite3.connect(f"file:{name}?{mode}", uri=True, timeout=WAIT)
        try:
            base.execute("SELECT count(*) FROM sqlite_master").fetchone()
            return base
        except sqlite3.OperationalError as error:
            base.close()
            left = os.path.exists(file + "-wal") and os.path.getsize(file + "-wal") >= LEAST_LOG
            if mode == "immutable=1" or left or "open" not in str(error) and "readonly" not in str(error):
                raise
    raise AssertionError


def copied(file, copy):
    """A copy of a file; whether an archive of a format that is read is in it, and which."""
    base, into = opened(file), sqlite3.connect(copy)
    try:
        if not base.execute("SELECT count(*) FROM sqlite_master").fetchone()[0]:
            return None
        version = base.execute("SELECT version FROM archive").fetchone()
        if version not in ((2,), (3,)):
            raise Wrong("it is an archive of another version than 2 and 3")
        base.backup(into)
        into.execute("PRAGMA journal_mode = MEMORY")
        return version[0]
    finally:
        base.close()
        into.close()


def gathered(path, room):
    """All parts as one database of our own, and its format: the newest part has the logs of all, and each beginning that it has
    as it is now."""
    whole, version = os.path.join(room, "whole.db"), None
    for file in parts_of(path):
        if version is None:
            version = copied(file, whole)
            continue
        part = os.path.join(room, "part.db")
        if copied(file, part) == version:
            base = sqlite3.connect(whole, isolation_level=None)
            base.execute("ATTACH ? AS part", (part,))
            base.execute("INSERT OR IGNORE INTO beginnings SELECT * FROM part.beginnings")
            base.execute("INSERT OR IGNORE INTO items SELECT * FROM part.items")
            base.close()
        os.remove(part)
    if version is None:
        raise Wrong("there is no archive in it")
    return sqlite3.connect(whole), version


# ---- a log

class Curve:
    """What the page shows of a log, taken item by item in the order of their numbers."""

    def __init__(self, axis, listed):
        self.axis, self.epoch, self.column, self.at = axis, None, None, None
        # Each line is a list of columns: where it lies, and its records' first, least, greatest and last value.
        self.lines, self.bars, self.drawn, self.is_broken = [], None, 0, True
        self.bands, self.marks, self.gaps, self.waiting = [], [], collections.deque(maxlen=listed), []
        self.records = self.undrawn = self.gap_count = self.missing = self.doubtful = 0
        self.last = self.oldest = None
        self.is_step, self.changes = True, collections.deque(maxlen=CHANGES)

    def add_gap(self, epoch, first, last, is_doubtful):
        """Numbers that are missing; where they end in time is known with the next record."""
        self.waiting.append((epoch, first, last, is_doubtful))
        self.gap_count, self.missing = self.gap_count + 1, self.missing + last - first + 1
        self.doubtful += is_doubtful
        self.is_broken = True

    def add_record(self, epoch, record):
        """The next record. One that has no place on the axis isn't drawn: before it, behind it, or with no full date."""
        at, _, value, datum, _ = record
        self.records += 1
        if epoch != self.epoch:
            if self.epoch is not None:
                self.is_broken = True
                self.marks.append((epoch, Record(*record)))
            self.epoch = epoch
        if self.waiting:
            self.close_gaps(Record(*record))
        if value is None and not (self.changes and self.changes[-1].datum == datum):
            self.changes.append(Record(*record))
        first, last, columns = self.axis
        if at is None or at > last:
            self.undrawn += 1
            self.is_broken = True
        elif at < first or value is None or math.isinf(value):
            self.is_broken = True
        else:
            self.draw(min(columns - 1, (at - first) * columns // (last - first or 1)), value)
            self.is_step = self.is_step and datum[:4] != "real"
        self.last = record
        if self.oldest is None:
            self.oldest = Record(*record)
        if at is not None:
            self.at = at

    @property
    def newest(self):
        return self.last and Record(*self.last)

    def column_of(self, at):
        first, last, columns = self.axis
        return max(0, min(columns - 1, (at - first) * columns // (last - first or 1)))

    def draw(self, column, value):
        """Into the column of before, in a line with it, or in a new one: over a gap, or where the clock was set back."""
        self.drawn += 1
        if self.bars is not None:
            point = self.bars.setdefault(column, [column, value, value, value, value])
        elif column == self.column:
            point = self.lines[-1][-1]
        else:
            if self.is_broken or column < self.column:
                self.lines.append([])
            point = [column, value, value, value, value]
            self.lines[-1].append(point)
            self.column = column
        self.is_broken = False
        if value < point[2]:
            point[2] = value
        if value > point[3]:
            point[3] = value
        point[4] = value
        if len(self.lines) > 2 * self.axis.columns and self.bars is None:
            self.to_bars()

    def to_bars(self):
        """Of a log whose stamps go to and fro each column has one bar: lines would have no end."""
        self.bars = {}
        for point in itertools.chain.from_iterable(self.lines):
            bar = self.bars.setdefault(point[0], point)
            bar[2], bar[3], bar[4] = min(bar[2], point[2]), max(bar[3], point[3]), point[4]

    def close_gaps(self, record):
        """Gaps lie between the record of before and this one; what touches in the picture is one band there."""
        for epoch, first, last, is_doubtful in self.waiting:
            self.gaps.append(Gap(epoch, first, last, is_doubtful, self.newest and self.newest.stamp, record and record.stamp))
        if self.waiting and record and record.at is not None and self.axis.first <= record.at <= self.axis.last:
            right = self.column_of(record.at)
            left = right if self.at is None else min(right, self.column_of(self.at))
            is_doubtful = any(waiting[3] for waiting in self.waiting)
            if self.bands and self.bands[-1][1] >= left and self.bands[-1][2] == is_doubtful:
                self.bands[-1][1] = max(right, self.bands[-1][1])
            else:
                self.bands.append([left, right, is_doubtful])
        self.waiting = []

    def points(self):
        return [[point] for point in self.bars.values()] if self.bars is not None else self.lines

    def spacing(self):
        """The mean time between two records, in seconds."""
        known = self.records > 1 and None not in (self.newest.at, self.oldest.at)
        return (self.newest.at - self.oldest.at) / (self.records - 1) if known else 0


def read(base, log, axis, listed):
    """The curve of a log."""
    curve = Curve(axis, listed)
    for row in base.execute(ITEMS, (log,)):
        at, last = row[:2]
        if last is None:
            curve.add_record(at >> 32 & 32767, row[2:])
        else:
            curve.add_gap(at >> 32 & 32767, at & GREATEST, last, row[5] is not None)
    curve.close_gaps(None)
    return curve
