"""Whether the judges of kept_fifty.py bite, for kept.py: what a device answers, the rows that a run left, also where it
was killed, and what it printed are broken, each in one way, and they have to tell it, of that log alone."""
import contextlib
import copy
import re
import sqlite3

from kept_archives import OneFile
from kept_devices import LAST, Device, chance
from kept_fifty import LONG, Runs
from kept_judge import rows_of, wrongs_in
from kept_lines import KILLED, Rows, Told, disagreements
from kept_parts import copied
from kept_site import begins_anew

# Of the log with the id {log}: the rows of its first two epochs, a record in the midst, its newest row, and a gap.
OLD, NEW = "id >> 32 = ({log} << 15)", "id >> 32 = ({log} << 15 | 1)"
RECORD = "id = (SELECT id FROM items WHERE id >> 47 = {log} AND last IS NULL ORDER BY id DESC LIMIT 1 OFFSET 3)"
NEWEST = "id = (SELECT max(id) FROM items WHERE id >> 47 = {log})"
OF_GAP = "id >> 47 = {log} AND last > id & 4294967295"
BEHIND_GAP = f"id = (SELECT (id >> 32 << 32) + last + 1 FROM items WHERE {OF_GAP} LIMIT 1)"
NO_RECORD = "last = id & 4294967295, stamp = NULL, value = NULL, datum = NULL, flags = NULL"
TAKES = "UPDATE items SET (stamp, value, datum, flags) = (SELECT stamp, value, datum, flags FROM items AS i WHERE "
ANEW = "id = ({log} << 15 | 1)"
A_GAP, EPOCHS, ANY, ALONE = "has a gap", "has two epochs", "any", "is its device's only one"
# A name, which log of a site, and what is done to its rows.
BROKEN = (
    ("a record is gone", ANY, f"DELETE FROM items WHERE {RECORD}"),
    ("the newest record is gone", ANY, f"DELETE FROM items WHERE {NEWEST}"),
    ("a record is that of another log", ANY, f"{TAKES} i.id >> 47 <> {{log}} AND last IS NULL LIMIT 1) WHERE {RECORD}"),
    ("a record is one of the epoch before", EPOCHS, f"{TAKES} i.{OLD} AND last IS NULL LIMIT 1) WHERE {RECORD}"),
    ("a record is the one before it", ANY, f"{TAKES} i.id = items.id - 1) WHERE {RECORD}"),
    ("a gap where a record is held", ANY, f"UPDATE items SET {NO_RECORD} WHERE {RECORD}"),
    ("a gap is one longer", A_GAP, f"UPDATE items SET last = last + 1 WHERE {OF_GAP}"),
    ("a gap is one longer, for a record", A_GAP, f"DELETE FROM items WHERE {BEHIND_GAP}",
     f"UPDATE items SET last = last + 1 WHERE {OF_GAP}"),
    ("a gap is one shorter", A_GAP, f"UPDATE items SET last = last - 1 WHERE {OF_GAP}"),
    ("a gap begins one later", A_GAP, f"UPDATE items SET id = id + 1 WHERE {OF_GAP}"),
    ("a gap is gone", A_GAP, f"DELETE FROM items WHERE {OF_GAP}"),
    ("a record stands twice", ANY,
     f"INSERT INTO items SELECT id + (1 << 32), last, stamp, value, datum, flags FROM items WHERE {NEWEST}"),
    ("the new epoch is gone", EPOCHS, f"DELETE FROM items WHERE {NEW}", f"DELETE FROM beginnings WHERE {ANEW}"),
    ("the new epoch goes on in the old one", EPOCHS,
     f"DELETE FROM items WHERE {NEW} AND id - (1 << 32) <= (SELECT max(id) FROM items WHERE {OLD})",
     f"UPDATE items SET id = id - (1 << 32) WHERE {NEW}", f"DELETE FROM beginnings WHERE {ANEW}"),
    ("the new epoch begins one later", EPOCHS, f"UPDATE beginnings SET number = number + 1 WHERE {ANEW}"),
    ("a log is gone", ANY, "DELETE FROM items WHERE id >> 47 = {log}", "DELETE FROM beginnings WHERE id >> 15 = {log}",
     "DELETE FROM logs WHERE id = {log}"),
    ("its device's number is gone", ALONE, "UPDATE devices SET instance = NULL WHERE id = (SELECT device FROM logs WHERE id = {log})"),
    ("why it began anew is gone", EPOCHS, f"UPDATE beginnings SET why = NULL WHERE {ANEW}"),
    ("why it began anew is another", EPOCHS, f"UPDATE beginnings SET why = 'numbers came round' WHERE {ANEW}"),
)


def changed_in(file, *statements):
    """How many rows the statements change in a file."""
    with contextlib.closing(sqlite3.connect(file)) as base:
        changed = sum(base.execute(statement).rowcount for statement in statements)
        base.commit()
    return changed


def named(found):
    """The logs that texts are about."""
    return {" ".join(text.split(" ")[:2]).rstrip(":") for text in found}


def fitting(runs):
    """Names of logs by their ids, and of each kind the ids of those that are so, and whose device tells its number."""
    logs, fit = {}, {ANY: [], EPOCHS: [], A_GAP: [], ALONE: []}
    places = [place for _, place, *_ in runs.rows.logs]
    for log_id, place, instance, number, *_ in runs.rows.logs:
        logs[log_id] = name = f"{place} {instance}"
        rows = runs.rows.of[name] if number is not None else []
        gaps = [row[1:3] for row in rows if row[2] is not None]
        old, new = (max((row[1] for row in rows if row[0] == epoch), default=0) for epoch in (0, 1))
        fit[ANY] += [log_id] * (len(rows) > 8)
        fit[ALONE] += [log_id] * (len(rows) > 8 and places.count(place) == 1)
        fit[EPOCHS] += [log_id] * (0 < old < new - 8 and not gaps)
        fit[A_GAP] += [log_id] * (len(gaps) == 1 and 1 < gaps[0][0] < gaps[0][1] < LAST)
    return logs, fit


def broken_rows(judge, runs):
    """Rows are broken, of one log each time."""
    file, (logs, fit) = f"{judge.room}/broken.db", fitting(runs)
    for name, which, *statements in BROKEN:
        log_id = chance.choice(fit[which])
        copied(runs.archive.name, file)
        changed = changed_in(file, *(statement.format(log=log_id) for statement in statements))
        found, log = wrongs_in(rows_of(file), runs.site.devices, True, judge.doubts), logs[log_id]
        judge.is_right(f"{name}, and it is told", changed and named(found) == {log}, (log, found, changed))


def one_of(lines, pattern):
    """The place of a line that matches, by chance."""
    return chance.choice([at for at, line in enumerate(lines) if re.search(pattern, line)])


def edited(pattern, new):
    """Lines of which one that matches is another."""
    def edit(lines):
        at = one_of(lines, pattern)
        return lines[:at] + [re.sub(pattern, new, lines[at])] + lines[at + 1 :]
    return edit


def swapped(lines):
    """Two lines of logs of one device have changed places."""
    pairs = [(at, other) for at in range(len(lines)) for other in range(at) if lines[at].split(" ")[0] == lines[other].split(" ")[0]]
    at, other = chance.choice(pairs)
    lines = [*lines]
    lines[at], lines[other] = lines[other], lines[at]
    return lines


def without(pattern):
    def edit(lines):
        at = one_of(lines, pattern)
        return lines[:at] + lines[at + 1 :]
    return edit


def one_more(match):
    return f" {int(match[1]) + 1} {match[2]}"


# A name, and what is done to the lines on standard output, to those on standard error and to the status of a run.
MISPRINTED = (
    ("one record more", edited(r" (\d+) (records? )", one_more), list, int),
    ("one gap more", edited(r" (\d+) (gaps? )", one_more), list, int),
    ("another number is next", edited(r"next (\d+)", lambda match: f"next {int(match[1]) + 1}"), list, int),
    ("a line is left out", without(" "), list, int),
    ("a line stands twice", lambda lines: [*lines, chance.choice(lines)], list, int),
    ("two lines have changed places", swapped, list, int),
    ("a log that is lost is caught up", list, edited(" lost,", " caught up,"), int),
    ("a log that is caught up is lost", edited("caught up,", "lost,"), list, int),
    ("that a log began anew isn't told", list, without(": began anew$"), int),
    ("that it may have isn't told", list, without(": began anew, or dropped records$"), int),
    ("that a gap may be none isn't told", list, without(": dropped "), int),
    ("another gap may be none", list, edited(r": dropped (\d+)", lambda match: f": dropped {int(match[1]) + 1}"), int),
    ("that a log began anew is told of another", list, edited(r"^\S+ \d+: began", "127.0.0.1:1 1: began"), int),
    ("that a device gave no answer isn't told", list, lambda lines: [line for line in lines if not line.endswith(": no answer")], int),
    ("a log that wasn't asked isn't told", list, without(" not asked$"), int),
    ("status 0", list, list, lambda _: 0),
)


def judged_lines(run, before, after):
    status, out, errors = run
    texts = ["".join(f"{line}\n" for line in lines) for lines in (out, errors)]
    return disagreements(status, *texts, before, after)


def broken_lines(judge, runs):
    """What a run printed and told is broken, over a site in which logs went on and began anew, and some are dead."""
    before = runs.rows
    for device in runs.site.devices[::9]:
        device.loses = 1.0
    # One falls silent once it has told what it is: its first log is lost.
    runs.site.devices[1].answers = 3
    status, out, errors = runs.ended(runs.whole("--timeout=400", "--retries=1"))
    after = runs.rows = Rows(rows_of(runs.archive.name))
    run = status, out.splitlines(), errors.splitlines()
    found = judged_lines(run, before, after)
    judge.is_right("lines that aren't broken", not found, found)
    for name, printed, told, ended in MISPRINTED:
        found = judged_lines((ended(status), printed(run[1]), told(run[2])), before, after)
        judge.is_right(f"{name}, and it is told", found, name)
    runs.site.devices[1].answers = None
    runs.site.are_well()


def killed(runs):
    """A run that was killed behind some lines, and the rows before it."""
    for _ in range(20):
        before = runs.rows
        for device in runs.site.devices:
            for log in device.logs.values():
                log.log(4)
        when = chance.randrange(runs.calls // 4, runs.calls)
        run = runs.ended(runs.whole(*LONG), "call", when)
        runs.rows = Rows(rows_of(runs.archive.name))
        if run[0] == KILLED and run[1].count("\n") > 8:
            return run, before
        # One that was killed too early has more calls than were thought, and one that wasn't killed fewer.
        runs.calls = runs.calls * 3 // 2 if run[0] == KILLED else max(when, 8)
    return None


# A name, of which log, what is done to its rows, and whether they tell it themselves, without those of before.
BEHIND_A_KILL = (
    ("the newest row is gone", "new", f"DELETE FROM items WHERE {NEWEST}", False),
    ("a row of before is gone", "old",
     "DELETE FROM items WHERE id = (SELECT id FROM items WHERE id >> 47 = {log} ORDER BY id LIMIT 1 OFFSET 1)", True),
    ("a record of before is a gap", "dropped",
     f"UPDATE items SET {NO_RECORD} WHERE id = (SELECT min(id) FROM items WHERE id >> 47 = {{log}})", False),
)


def broken_behind_a_kill(judge, runs):
    """Rows are taken away or changed behind a run that was killed."""
    run, before = killed(runs)
    found = disagreements(*run, before, runs.rows)
    judge.is_right("a run that was killed", not found, found)
    ids = {f"{place} {instance}": log_id for log_id, place, instance, *_ in runs.rows.logs}
    told, held = {line[0] for line in Told(*run[1:]).logs}, runs.site.logs()
    fit = {"new": [name for name in told if runs.rows.new_in(before, name)],
           "old": [name for name in told if len(before.of[name]) > 2],
           # Records that their log holds no more: a gap would do for them, had they not been kept.
           "dropped": [name for name, rows in before.of.items() if rows and rows[0][2] is None and rows[-1][0] == 0
                       and rows[0][1] not in held[name].held and len(held[name].lives) == 1]}
    for name, which, statement, tell_it in BEHIND_A_KILL:
        log, file = chance.choice(sorted(fit[which])), copied(runs.archive.name, f"{judge.room}/killed.db")
        changed = changed_in(file, statement.format(log=ids[log]))
        read = rows_of(file)
        found, wrong = disagreements(*run, before, Rows(read)), wrongs_in(read, runs.site.devices, False, judge.doubts)
        right = changed == 1 and named(found) == {log} and named(wrong) == ({log} if tell_it else set())
        judge.is_right(f"{name} behind a kill, and it is told", right, (log, found, wrong))


def left_out(items):
    """Octets of records without one in their midst."""
    at = len(items) // 2
    return items[:at] + items[at + 1 :] if len(items) > 2 else items


def flipped(items):
    """The last record is a hundredth of a second later."""
    return [*items[:-1], items[-1][:10] + b"\x01" + items[-1][11:]] if items else items


def exchanged(items):
    return [items[1], items[0], *items[2:]] if len(items) > 1 else items


def with_items(edit):
    """A device of whose replies for a log the records behind a number are edited."""
    def lie(device, log, behind):
        def items(asked, numbers):
            true = Device.items(device, asked, numbers)
            known = sum(number <= behind for number in numbers) if asked is log else len(true)
            return true[:known] + edit(true[known:])
        device.items = items
    return lie


def with_view(view):
    """A device that answers for a log as for another one, where it is asked for what is behind a number."""
    def lie(device, log, behind):
        def answer(it, asked):
            first = int.from_bytes(asked[2 : 2 + asked[1] % 16], "big") if asked[0] == 0x6E else 0
            return Device.range_of(device, view(device, log) if it is log and first > behind else it, asked)
        device.range_of = answer
    return lie


def without_last(_device, log):
    """A log without its newest record."""
    hidden = copy.copy(log)
    hidden.held = {number: octets for number, octets in log.held.items() if number != log.total}
    hidden.total -= 1
    return hidden


def later(device, log, behind):
    """A reply begins with the record behind the one that was asked for."""
    def chosen(asked, first, most):
        numbers, more = Device.chosen(device, asked, first, most)
        return numbers[asked is log and first > behind and len(numbers) > 1 :], more
    device.chosen = chosen


def hides_anew(_device, log, _behind):
    """What it logs from now on is of another life, and it goes on with its numbers."""
    log.lives.append({})


LIES = (
    ("a record of a reply is left out", with_items(left_out)),
    ("a record of a reply is another", with_items(flipped)),
    ("two records of a reply have changed places", with_items(exchanged)),
    ("a reply begins one later", later),
    ("another log's answer", with_view(lambda device, log: device.logs[2])),
    ("the newest record is hidden", with_view(without_last)),
    ("that it began anew is hidden", hides_anew),
)


def broken_answers(judge, runs):
    """A device of two logs at least lies of its first one, where it tells what is behind its newest kept record."""
    devices = [device for device in runs.site.devices if len(device.logs) > 1
               and max(log.total for log in device.logs.values()) < LAST // 2]
    for (name, lie), device in zip(LIES, chance.sample(devices, len(LIES))):
        log, other = device.logs[1], device.logs[2]
        # Both have records with the same numbers.
        log.log(max(0, other.total - log.total))
        other.log(log.total - other.total)
        runs.run(f"{name}: before", runs.whole(*LONG), all_of_it=True)
        copied(runs.archive.name, f"{judge.room}/true.db")
        # What is new of it doesn't fit one reply.
        fits, device.fits = device.fits, (7,)
        lie(device, log, log.total)
        log.log(20)
        other.log(20)
        run, wanted = runs.ended(runs.whole(*LONG)), {f"{device.place()} 1"}
        found = wrongs_in(rows_of(runs.archive.name), runs.site.devices, True, judge.doubts)
        judge.is_right(f"{name}, and it is told", named(found) == wanted, (wanted, found, run[0], run[2][:200]))
        device.fits = fits
        for attribute in ("items", "range_of", "chosen"):
            device.__dict__.pop(attribute, None)
        copied(f"{judge.room}/true.db", runs.archive.name)


def goes_beyond(log, kept):
    """A log that began anew has more records than were kept before, if it can hold them all."""
    if kept + 9 <= log.room_for:
        log.log(max(0, kept + 9 - log.total))


def fifty_judged(judge, _runs):
    """A site is kept, and goes on; and then it is broken."""
    runs = Runs(judge, OneFile(f"{judge.room}/site.db"), chance.getrandbits(32))
    runs.run("all are added", runs.by_list(*LONG), all_of_it=True)
    for at, device in enumerate(runs.site.devices):
        kept = [log.total for log in device.logs.values()]
        if at % 3 == 0:
            begins_anew(device)
        for log, before in zip(device.logs.values(), kept):
            log.log(log.room_for + 20 if at % 3 == 1 else 9)
            if at % 3 == 0 and log.fresh and device.restart is not None:
                goes_beyond(log, before)
    runs.run("they go on", runs.whole(*LONG), all_of_it=True)
    broken_rows(judge, runs)
    for at, device in enumerate(runs.site.devices):
        if at % 4 == 0:
            begins_anew(device)
        for log in device.logs.values():
            log.log(2 if log.fresh else chance.choice((0, 3, 200)))
    broken_lines(judge, runs)
    runs.run("all are well again", runs.whole(*LONG), all_of_it=True)
    broken_behind_a_kill(judge, runs)
    runs.run("behind a kill", runs.whole(*LONG), all_of_it=True)
    broken_answers(judge, runs)
    ways = len(BROKEN) + len(MISPRINTED) + len(BEHIND_A_KILL) + len(LIES)
    return f"rows, lines and answers of {len(runs.site.devices)} devices were broken in {ways} ways"
