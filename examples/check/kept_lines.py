"""Whether what a run of `bac keep` printed and told agrees with the rows that it left, for kept.py: the line of a log
says what came to its rows and where they end, and nothing came to those of a log without one."""
import re

from kept_devices import LAST
from kept_judge import ANEW, DOUBTFUL, EITHER, ROUND

LINE = re.compile(r"(\S+ \d+) (\d+) records? (\d+) gaps? (.+), next (\d+)")
NEW = re.compile(r"(\S+ \d+) is new")
NOT_ASKED = re.compile(r"(\S+ \d+) not asked")
# What is told of a log while it is polled.
MEANWHILE = re.compile(r"(\S+ \d+): (began anew(?:, or dropped records)?|dropped \d+ to \d+, or began anew"
                       r"|goes on at \d+, or began anew|shown \d+ quarter hours (?:earlier|later)(?:, or began anew)?)")
# What is told of a device, or of a host.
SILENT = re.compile(r"(\S+): no answer")
OTHER = re.compile(r"(\S+): (?:another device answers: (?:\d+, not \d+|.+)|the device doesn't tell (?:that it is \d+|its name))")
SLOW = re.compile(r"[0-9.]+: slow, \d+ requests? at a time")
ALONE = re.compile(r"(\S+): the device is known by its address alone")
NOW = re.compile(r"(\S+): the device is known by its (?:instance|name) now")
UNLISTED = re.compile(r"(\S+) didn't tell its Object_List: lost")
# How the poll of a log may end, with which status; what is caught up is printed, and all else told.
ENDS = {"caught up": 0, "lost": 2, "step limit": 8, "its records contradict each other": 4}
KILLED = -9
# Why an epoch begins of which only the log's count was told.
COUNTED = "counted"
# How what may be either is told.
DOUBTS = EITHER, DOUBTFUL


class Rows:
    """What `rows_of` read, by the text that names a log: its rows, each behind its epoch and its number, and where its
    epochs begin, and why."""

    def __init__(self, read):
        _whole, self.logs, items, beginnings = read
        names = {log_id: f"{place} {instance}" for log_id, place, instance, *_ in self.logs}
        self.of, self.begins = {name: [] for name in names.values()}, {name: {} for name in names.values()}
        for item, *row in items:
            if item >> 47 in names:
                self.of[names[item >> 47]].append((item >> 32 & 32767, item & 0xFFFFFFFF, *row))
        for beginning, begun in beginnings.items():
            if beginning >> 15 in names:
                self.begins[names[beginning >> 15]][beginning & 32767] = begun

    def next_of(self, name):
        """The number that comes behind the rows of a log, or where its newest epoch begins that has none; or 1 where that isn't
        known yet, or only by the log's count."""
        epoch = max(self.begins.get(name, ()), default=None)
        if epoch is None or self.begins[name][epoch][1] == COUNTED:
            return 1
        newest = self.of[name][-1] if self.of[name] else (None,)
        return last_of(newest) % LAST + 1 if newest[0] == epoch else self.begins[name][epoch][0]

    def new_in(self, before, name):
        """The rows of a log that weren't there before."""
        return self.of.get(name, [])[len(before.of.get(name, [])) :]

    def whys_in(self, before, name):
        """Why epochs of a log began since, but those that began where its numbers came round."""
        old = before.begins.get(name, {})
        return [why for epoch, (_, why) in sorted(self.begins.get(name, {}).items()) if epoch and epoch not in old and why != ROUND]


def last_of(row):
    """The number of a record, or the last one of a gap."""
    return row[1] if row[2] is None else row[2]


def gaps_in(rows):
    """How many gaps rows have: one over the last number is two rows."""
    gaps = [row for row in rows if row[2] is not None]
    return len(gaps) - sum(one[2] == LAST and other[:2] == (one[0] + 1, 1) for one, other in zip(gaps, gaps[1:]))


def doubtful_in(rows):
    """The gaps of rows that may be none: where each begins and ends, also over the last number."""
    gaps = [(row[1], last_of(row)) for row in rows if row[5] == DOUBTFUL]
    for at in range(len(gaps) - 1, 0, -1):
        if gaps[at - 1][1] == LAST and gaps[at][0] == 1:
            gaps[at - 1 : at + 1] = [(gaps[at - 1][0], gaps[at][1])]
    return gaps


def whole_lines(text):
    """The lines of a text; one that a kill cut is left out."""
    return text.split("\n")[:-1]


class Told:
    """What a run told, of which `others` is nothing that it may tell: `logs` has the parts of the lines of logs; of these
    `new` are the ones that are new and `left` those that weren't asked; `turn` has the logs in the order of their lines, on
    standard output and on standard error; `meanwhile` has what was told of a log while it was polled, `silent` the devices that
    gave no answer, `unlisted` those whose Object_List was lost, and `strange` those at whose place another one answers."""

    def __init__(self, out, errors):
        self.logs, self.new, self.left, self.meanwhile, self.silent, self.strange, self.others = [], [], [], [], [], [], []
        self.unlisted = []
        self.turn = {True: [], False: []}
        for is_out, text in [(True, line) for line in whole_lines(out)] + [(False, line) for line in whole_lines(errors)]:
            self.add(is_out, text)

    def add(self, is_out, text):
        if match := LINE.fullmatch(text):
            name, records, gaps, end, next_number = match.groups()
            self.logs.append((name, int(records), int(gaps), end, int(next_number)))
            self.turn[is_out].append(name)
            if is_out != (end == "caught up"):
                self.others.append(text)
        elif (match := NEW.fullmatch(text)) and is_out:
            self.new.append(match[1])
        elif is_out and NOW.fullmatch(text):
            pass
        elif is_out:
            self.others.append(text)
        elif match := NOT_ASKED.fullmatch(text):
            self.left.append(match[1])
            self.turn[is_out].append(match[1])
        elif match := MEANWHILE.fullmatch(text):
            self.meanwhile.append((match[1], match[2]))
        elif match := SILENT.fullmatch(text):
            self.silent.append(match[1])
        elif match := OTHER.fullmatch(text):
            self.strange.append(match[1])
        elif match := UNLISTED.fullmatch(text):
            self.unlisted.append(match[1])
        elif not SLOW.fullmatch(text) and not ALONE.fullmatch(text):
            self.others.append(text)

    def status(self):
        """That of a run that told this."""
        return max([ENDS.get(line[3], 0) for line in self.logs] + [2] * bool(self.left or self.silent or self.unlisted) + [3] * bool(self.strange), default=0)


def wrong_line(line, before, after):
    """What is wrong with the line of a log by its rows, or None."""
    name, records, gaps, end, next_number = line
    new = after.new_in(before, name)
    came = sum(row[2] is None for row in new), gaps_in(new)
    if end not in ENDS:
        return f"{name}: it ended so: {end}"
    if (records, gaps) != came:
        return f"{name}: its line has {records} and {gaps}, and {came[0]} records and {came[1]} gaps came to its rows"
    if next_number != after.next_of(name):
        return f"{name}: {next_number} is next in its line, and {after.next_of(name)} behind its rows"
    return None


def wrong_turn(told, after, killed):
    """What is wrong with which logs have a line, or None: each that is on record has one, those of a device in the order of
    their instances, and the new ones behind them. Of a run that was killed the lines of some are missing."""
    wanted = by_place(sorted(after.of, key=lambda name: (name in told.new, int(name.split()[1]))))
    out, errors = by_place(told.turn[True]), by_place(told.turn[False])
    for place in sorted({*out, *errors, *wanted}):
        names, got = wanted.get(place, []), out.get(place, []) + errors.get(place, [])
        right = names[: len(got)] if killed else names
        if sorted(got) != sorted(right) or any(turn.get(place, []) != [name for name in names if name in turn.get(place, [])] for turn in (out, errors)):
            return f"lines are of {got}, and {names} are on record"
    return None


def wrong_left(told):
    """What is wrong with the logs that weren't asked, or None: their device gave no answer, or none any more for a log, or another
    one answers there."""
    whose = {*told.silent, *told.strange, *(line[0].split()[0] for line in told.logs if line[3] == "lost")}
    left = {name.split()[0] for name in told.left} - whose
    return f"logs of {left} weren't asked, and nothing tells why" if left else None


def by_place(names):
    found = {}
    for name in names:
        found.setdefault(name.split()[0], []).append(name)
    return found


def wrong_meanwhile(told, before, after, killed):
    """What is wrong with what was told of logs while they were polled, a text each: why each epoch began, and each gap that
    may be none."""
    found, named = [], {line[0] for line in told.logs}
    for name in sorted({*after.of, *(name for name, _ in told.meanwhile)}):
        got = [text for one, text in told.meanwhile if one == name]
        anew = [text for text in got if text in (ANEW, EITHER)]
        dropped = [text for text in got if text.startswith("dropped ")]
        # In front of the first record of a log of which only the count was known it isn't told.
        is_begun, new = before.begins.get(name, {0: (0, COUNTED)}).get(0, (0, None))[1] != COUNTED, after.new_in(before, name)
        gaps = [f"dropped {first} to {last}, {DOUBTFUL}" for first, last in doubtful_in(new if is_begun or not new or new[0][2] is None else new[1:])]
        if killed and name not in named:
            # Its rows may stand on record and not be told yet; what is told is on record.
            wrong = not set(anew) <= set(after.whys_in(before, name)) or not set(dropped) <= set(gaps)
        else:
            wrong = (anew, dropped) != (after.whys_in(before, name), gaps)
        if wrong:
            found.append(f"{name}: {got} is told, and began for {after.whys_in(before, name)}, with {gaps}")
    return found


def disagreements(status, out, errors, before, after):
    """What of a run doesn't agree with the rows before and behind it, a text each."""
    killed, told = status == KILLED, Told(out, errors)
    found = [f"it told {text!r}" for text in told.others]
    found += [f"{name}: rows of before have changed" for name, rows in before.of.items()
              if after.of.get(name, [])[: len(rows)] != rows]
    found += filter(None, [wrong_line(line, before, after) for line in told.logs])
    found += filter(None, [wrong_turn(told, after, killed)])
    found += filter(None, [None if killed else wrong_left(told)])
    # Behind its last line a run that was killed may have committed more.
    silent = [] if killed else [name for name in after.of if name not in {line[0] for line in told.logs} and after.new_in(before, name)]
    found += [f"{name}: rows without a line came to it" for name in silent]
    if not killed and status != told.status():
        found.append(f"status {status}, and {told.status()} is that of its lines")
    return found + wrong_meanwhile(told, before, after, killed)


def in_doubt(logs, devices, errors):
    """The logs of which standard error tells that they may have begun anew, and those of them that can't be in doubt: each part
    of the word that is on record in these rows of logs is told by their device as it is there, and a start is among them; and
    that they began anew or dropped records isn't told of one whose clock was set back. Of a log of no such device nobody is sure:
    one that loses questions may not have told its word."""
    kept = {f"{place} {instance}": tuple(word) for _, place, instance, _, *word in logs}
    of = {f"{device.place()} {instance}": (device, log) for device in devices for instance, log in device.logs.items()}
    doubted = [match.groups() for match in map(MEANWHILE.fullmatch, whole_lines(errors)) if match and match[2].endswith(DOUBTS)]

    def is_sure(name, text):
        if name not in of:
            return False
        device, log = of[name]
        word = kept.get(name, (None, None))
        same = word[0] is not None and all(was in (None, now) for was, now in zip(word, device.word()))
        return same and not (text == EITHER and log.was_set_back)

    return [name for name, _ in doubted], [name for name, text in doubted if is_sure(name, text)]
