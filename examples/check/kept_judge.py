"""What is wrong with an archive, for kept.py: Python's sqlite3 reads it, and the rows are compared with what the
devices of kept_devices.py logged."""
import collections
import os
import re
import shutil
import sqlite3
import subprocess
import typing

from kept_devices import LAST
from kept_known import KNOWN

DOUBT = re.compile(r"^(\S+ \d+): goes on at (\d+), or began anew$", re.M)
# Of a gap that may be none, since the log may have begun anew.
DOUBTFUL = "or began anew"
# Of each log its id, where its device is, its instance and that of its device, and the word on record.
LOGS = ("SELECT l.id, d.address || CASE d.dnet WHEN 0 THEN '' ELSE '/' || d.dnet || '/' || d.dadr END, l.instance, d.instance, l.restart, "
        "l.revision FROM logs l JOIN devices d ON d.id = l.device ORDER BY l.id")
# Why an epoch begins.
ANEW, EITHER, ROUND = WHYS = "began anew", "began anew, or dropped records", "numbers came round"


def started_by(program, words, stdin=subprocess.DEVNULL, **more):
    return subprocess.Popen([program, *words], stdin=stdin, stdout=subprocess.PIPE, stderr=subprocess.PIPE, **more)


class Judge:
    """Runs PROGRAM, and counts what is right. Its files lie in `room`; KILLS is the library of kills.c. `doubts` has of which
    logs it was told that they go on at a number, or began anew: that has no row. `known` counts the rows of what is known to lack."""

    def __init__(self, program, kills, room):
        self.program, self.kills, self.room = program, kills, room
        self.passed = self.failed = 0
        self.told, self.doubts, self.known = [], set(), collections.Counter()

    def is_right(self, name, right, why=""):
        if right:
            self.passed += 1
        else:
            self.failed += 1
            self.told.append(f"{name}: {why}"[:1000])

    def lacks(self, what, name, is_mended):
        """A row that fails, as is known. Once it doesn't, this does."""
        self.known[what] += 1
        self.is_right(f"{name}, known to lack ({KNOWN[what]})", not is_mended, "it doesn't lack any more: take it out of KNOWN")

    def same(self, name, got, wanted):
        self.is_right(name, got == wanted, f"{wanted!r} is wanted, and it is {got!r}")

    def tells(self, name, ran, status, *texts):
        """A run has this status and tells these lines: what is caught up or new on standard output, and all else on standard
        error. Devices are polled beside one another, so only the lines of one device have an order."""
        wanted = "".join(texts).splitlines()
        good = [line for line in wanted if is_good(line)]
        bad = [line for line in wanted if not is_good(line)]
        self.same(name, (ran[0], in_turn(ran[1].splitlines()), in_turn(ran[2].splitlines())), (status, in_turn(good), in_turn(bad)))

    def started(self, words, **more):
        return started_by(self.program, words, **more)

    def ran(self, words, **more):
        """The status of a run, and what it printed and told."""
        return self.ran_by(self.program, words, **more)

    def ran_by(self, program, words, **more):
        """The same of a copy of the program."""
        process = started_by(program, words, **more)
        out, errors = process.communicate(timeout=120)
        self.hears(errors.decode())
        return process.returncode, out.decode(), errors.decode()

    def hears(self, errors):
        """What a run told on standard error."""
        self.doubts.update((name, int(number)) for name, number in DOUBT.findall(errors))

    def ending_at(self, call):
        """The surroundings of a run that is ended before this one of its calls on files."""
        return {**os.environ, "LD_PRELOAD": self.kills, "AT": str(call)}

    def ended_at(self, call, words):
        """The same of a run that is ended so."""
        return self.ran(words, env=self.ending_at(call))

    def judge(self, name, file, devices, all_of_it=False):
        found = wrongs(file, devices, all_of_it, self.doubts)
        self.is_right(name, not found, "; ".join(found[:3]))


def is_good(line):
    """Whether a line is of a log that is caught up, or that is new; or of a device that tells more of itself than before."""
    return " caught up, next " in line or line.endswith((" is new", " now"))


def in_turn(lines):
    """Lines by their devices, those of one in their order."""
    return sorted(lines, key=lambda line: line.split(" ")[0].rstrip(":"))


def no_use(file, why):
    """How a run ends whose file is no use, and what it tells."""
    return 6, "", f"file fault\n{file}: {why}\n"


def in_use(file):
    """The same where another program has it open."""
    return 7, "", f"file in use\n{file}: another program has it open\n"


def rows_of(file):
    """What sqlite3 reads of a copy of the file and its log."""
    copy = f"{file}.copy"
    for end in ("", "-wal", "-shm"):
        if os.path.exists(copy + end):
            os.remove(copy + end)
        if end != "-shm" and os.path.exists(file + end):
            shutil.copyfile(file + end, copy + end)
    base = sqlite3.connect(copy)
    try:
        whole = base.execute("PRAGMA integrity_check").fetchall()
        if not base.execute("SELECT 1 FROM sqlite_master WHERE name = 'gaps'").fetchall():
            # A first run that ended before it made the tables.
            return whole, [], [], {}
        logs = base.execute(LOGS).fetchall()
        items = base.execute("SELECT id, last, stamp, value, datum, flags FROM items ORDER BY id").fetchall()
        beginnings = {begun: (number, why) for begun, number, why in base.execute("SELECT id, number, why FROM beginnings")}
        return whole, logs, items, beginnings
    finally:
        base.close()


def wrongs(file, devices, all_of_it, doubts=()):
    """What is wrong with a file, a text each; if `all_of_it`, it has to have caught up. Of these logs it was told that they go
    on at a number, or began anew."""
    try:
        return wrongs_in(rows_of(file), devices, all_of_it, doubts)
    except sqlite3.Error as error:
        return [f"sqlite3: {error}"]


def wrongs_in(read, devices, all_of_it, doubts=()):
    """The same of what `rows_of` read of one."""
    whole, logs, items, beginnings = read
    if whole != [("ok",)]:
        return [f"integrity_check: {whole}"]
    found, by_log, named = [], {}, {log_id: f"{place} {instance}" for log_id, place, instance, *_ in logs}
    for begun, (number, why) in sorted(beginnings.items()):
        by_log.setdefault(begun >> 15, {})[begun & 32767] = number, why, []
    for item, last, *texts in items:
        epochs = by_log.setdefault(item >> 47, {})
        if item >> 32 & 32767 not in epochs:
            found.append(f"{named.get(item >> 47)}: epoch {item >> 32 & 32767} has rows and no beginning")
        epochs.setdefault(item >> 32 & 32767, (item & LAST, None, []))[2].append(Row(item & LAST, last, tuple(texts)))
    if strangers := set(by_log) - set(named):
        found.append(f"rows of the logs {strangers}, which aren't there")
    places = {}
    for log_id, place, instance, number, *word in logs:
        device = device_of(devices, place, number)
        log = device and device.logs.get(instance)
        mine = {at for name, at in doubts if name == named[log_id]}
        uncounted = device and instance in device.uncounted
        wrong = wrong_of(log, by_log.get(log_id, {}), mine, all_of_it, uncounted) if log else "no device has it"
        if wrong or (wrong := log and wrong_word(device, number, tuple(word), all_of_it)):
            found.append(f"{place} {instance}: {wrong}")
        places.setdefault(number, {})[place] = device
    found += [f"device {number} is at {set(at)}" for number, at in places.items()
              if number is not None and len({id(device) for device in at.values()}) > 1]
    if all_of_it:
        kept = {(place, instance) for _, place, instance, *_ in logs}
        found += [f"{device.place()} {number} isn't kept" for device in devices for number in device.logs
                  if (device.place(), number) not in kept]
    return found


def device_of(devices, place, number):
    """The device that is or was at a place, and that told this number, if one is on record."""
    return next((device for device in devices
                 if place in device.places and (number is None or number in device.numbers)), None)


def wrong_word(device, number, word, all_of_it):
    """What is wrong with what is on record of a device's own word, or None: each part is one that it told, or none."""
    if word[0] not in device.starts or word[1] not in device.revisions:
        return f"{word} is its word on record, and of {device.starts} and {device.revisions} it was told"
    if not all_of_it:
        return None
    if number != (device.i_am if device.number is None else device.number):
        return f"device {number} is on record, and {device.number} is told"
    # A refusal erases nothing, but a part that is told now is on record once the log was found at its place.
    if any(now not in (None, was) for was, now in zip(word, device.word())):
        return f"{word} is its word on record, and {device.word()} is told"
    return None


class Row(typing.NamedTuple):
    """A record, or a gap up to `last`: its stamp, value, datum and flags."""
    number: int
    last: int | None
    texts: tuple

    @property
    def end(self):
        return self.number if self.last is None else self.last

    @property
    def is_doubtful(self):
        return self.last is not None and self.texts == (None, None, DOUBTFUL, None)


def wrong_of(log, epochs, doubts, all_of_it, uncounted=False):
    """What is wrong with the rows of a log, or None. A log's life is an epoch; the rows of a doubtful gap and behind it, and those
    from a number on of which that was told, may be of a later one. Of one that is uncounted and holds nothing nobody knows how
    far it is."""
    life, behind, before = -1, 0, None
    for epoch in sorted(epochs):
        beginning, why, rows = epochs[epoch]
        wrong = wrong_beginning(epochs, epoch, before) or wrong_cover(beginning, rows)
        if wrong:
            return f"epoch {epoch}: {wrong}"
        least = life + (why in (ANEW, ROUND))
        for piece in pieces_of(rows, doubts):
            found = life_of(log, piece, life, behind, least)
            if found is None:
                return f"epoch {epoch}: no life from {least} on logged {piece[:2]} .. {piece[-1:]}, or it holds more, behind {behind}"
            life, behind = found
            least = life
        if epoch == 0 and rows and life >= 0 and any(number > log.gone(life) for number in log.lives[life] if number < beginning):
            return f"epoch 0 begins at {beginning}, behind what is held"
        if wrong := wrong_end(log, epochs, epoch, life):
            return f"epoch {epoch}: {wrong}"
        before = epoch
    if all_of_it:
        end = end_of(*epochs[before]) if epochs else 0
        is_newest = (life, behind) == (len(log.lives) - 1, log.total)
        if log.held and not is_newest or end % LAST != log.total % LAST and (log.held or not uncounted):
            return f"newest is {behind} of life {life}, up to {end}, and {log.total} of life {len(log.lives) - 1} is"
    return None


def end_of(beginning, _why, rows):
    """The last number of the rows of an epoch, or the one before its beginning."""
    return rows[-1].end if rows else beginning - 1


def wrong_beginning(epochs, epoch, before):
    """What is wrong with where an epoch begins, and why, or None."""
    beginning, why, rows = epochs[epoch]
    if epoch == 0:
        right = why is None or why == "counted" and not rows and len(epochs) == 1
        return None if right else f"it begins for {why!r} and has {rows[:1]}"
    if before != epoch - 1:
        return f"the one before it is {before}"
    if beginning != 1 or why not in WHYS:
        return f"it begins at {beginning} for {why!r}"
    end = end_of(*epochs[before])
    if why == ROUND and end != LAST:
        return f"it begins for {why!r}, and the one before it ends at {end}"
    # What the one before it may have dropped, it may have dropped, too. Behind the last number that is nothing.
    gap = rows[0].last or 0 if rows else 0
    if why == EITHER and gap != end % LAST:
        return f"it begins for {why!r} with {rows[:1]}, and the one before it ends at {end}"
    return None


def wrong_cover(beginning, rows):
    """What is wrong with the numbers of an epoch, or None: each comes once, from its beginning on."""
    next_number = beginning
    for row in rows:
        if row.number != next_number:
            return f"{row.number} comes where {next_number} is next"
        if row.last is not None and (row.last < row.number or row.texts != (None,) * 4 and not row.is_doubtful):
            return f"gap {row}"
        next_number = row.end + 1
    return None


def pieces_of(rows, doubts):
    """Rows, cut where those of another life may begin: at a doubtful gap, which stands before them, and at these numbers."""
    pieces = [[]]
    for row in rows:
        if row.is_doubtful or row.number in doubts:
            pieces.append([])
        pieces[-1].append(row)
    return pieces


def life_of(log, piece, life, behind, least):
    """The life of the records of a piece, and its last number: the first from `least` on that logged them all, where none of them
    is kept twice and none of its gaps has what is held; or what was before if it has no record."""
    records = [row for row in piece if row.last is None]
    if not records:
        return life, behind
    for at in range(max(least, 0), len(log.lives)):
        if at == life and records[0].number <= behind or any(log.lives[at].get(row.number) != row.texts for row in records):
            continue
        gaps = piece[: piece.index(records[-1])]
        # Of a doubtful gap before another life nobody knows what it had.
        if all(row.last is None or row.last <= log.gone(at) or row.is_doubtful and at > life for row in gaps):
            return at, records[-1].number
    return None


def wrong_end(log, epochs, epoch, life):
    """What is wrong with a gap at the end of an epoch, or None: it goes up to what the next one shows, or over what the log has
    counted and holds no more."""
    *_, rows = epochs[epoch]
    if not rows or rows[-1].last is None:
        return None
    _, why, _ = epochs.get(epoch + 1, (None, None, None))
    gone = any(rows[-1].last <= log.gone(at) for at in range(max(life, 0), len(log.lives)))
    if gone or why == EITHER or rows[-1].is_doubtful and why == ANEW:
        return None
    return f"it ends with {rows[-1]}"
