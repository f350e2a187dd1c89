"""How a trend log is polled, as a program of its own beside the proved one: what is asked, and what follows from each answer.

It asks nothing itself and keeps nothing: `question()` says what is to be asked next, `take(outcome)` what follows from the answer.
A log's life lasts from a moment when its count began at 1 to the next such moment. Nothing in the protocol tells a life, so it is
told by evidence; where the evidence doesn't tell, that is said.

A record is (number, stamp, datum, flags), a stamp the text 2026-03-29T02:30:00.00, with * where a part is unspecified.

Questions                               Outcomes
  ("number", first, count)                a Reply: records, and whether LAST_ITEM and MORE_ITEMS are set
  ("oldest", count)                       a Reply, to the question by time from 1900-01-01
  ("count",)                              Total_Record_Count (145), or None where it is refused
  ("word", property)                      Time_Of_Device_Restart (203) or Database_Revision (155) of the device, or None
A device that can't send so many records (Abort 1, 4 or 11) is asked for half as many: `halve()`. Any other refusal of records, a
loss or a reply that can't be read ends the poll; whoever asks says so, asks a device that is busy again, and keeps what was given.

What `take` gives, in order, to be committed in one transaction:
  ("begin", number, counted)   where the first epoch begins; counted: nothing but the count is known yet
  ("epoch",)                   a new epoch, from 1
  ("gap", first, last, doubtful)   ("record", record)   ("line", text)   ("end", status)
A row over 4294967295 goes on at 1 in a further epoch, which is of the same life: whoever writes rows does that."""
from collections import namedtuple
from datetime import datetime

LAST = 4294967295               # behind this number comes 1
HALF = 2 ** 31                  # of two numbers that lie so far apart nobody can tell which comes first
SHOWN = 3                       # so many known records are compared
MOST = 100                      # so many records are asked for at once
RESTART, REVISION = 203, 155
FORWARD, BACKWARD = 1, -1       # from a number on, or up to it
Reply = namedtuple("Reply", "records last more")

# Where a log stands: the number that comes next; its records right before that, at most three, in order and of one epoch; the stamp of
# its newest record, if there is any in this epoch; the word on record, by property; counted: its first run ended behind the count.
Place = namedtuple("Place", "next known stamp word counted")


def after(n):
    return 1 if n == LAST else n + 1


def until(n):
    return LAST if n == 1 else n - 1


def is_behind(next_number, n):
    """n comes at next_number or later: less than half of all numbers lie between."""
    return n > 0 and (n - next_number) % LAST < HALF


def moment(stamp):
    """A stamp as a time, None if a part of it is unspecified."""
    try:
        return datetime.strptime(stamp + "0000", "%Y-%m-%dT%H:%M:%S.%f")
    except (ValueError, TypeError):
        return None


def is_before(stamp, other):
    a, b = moment(stamp), moment(other)
    return a is not None and b is not None and a < b


def moved(was, now):
    """By how many quarter hours a record is shown elsewhere, 25 hours at most; None if it is another record."""
    if was[1:] == now[1:]:
        return 0
    a, b = moment(was[1]), moment(now[1])
    if was[2:] != now[2:] or a is None or b is None:
        return None
    seconds = (b - a).total_seconds()
    return int(seconds // 900) if seconds % 900 == 0 and abs(seconds) <= 25 * 3600 else None


def shown(known, records):
    """What records show of each known one: 0 as it is known, n quarter hours later, None another one; what isn't shown is left out."""
    by = {r[0]: r for r in reversed(records)}
    return [moved(k, by[k[0]]) for k in known if k[0] in by]


def compared(known, records):
    """What records say of the known ones: None (they show none of them), "same", "moved" (three are shown at another hour, which changes
    at most once among them), "partly" (some are, and of three the others aren't shown) or "another"."""
    steps = shown(known, records)
    if not steps:
        return None
    if None in steps or not any(steps):
        return "another" if None in steps else "same"
    if len(steps) < SHOWN:
        return "partly" if len(known) == SHOWN else "another"
    return "moved" if steps[0] == steps[1] or steps[1] == steps[2] else "another"


def weighed(on_record, told):
    """The word told now against the one on record: "same", "changed" (another one, or refused) or "none": a revision alone tells no
    restart."""
    if any(told.get(part) != was for part, was in on_record.items()):
        return "changed"
    return "same" if RESTART in on_record else "none"


class Machine:
    """A generator that asks by `yield` and is told by what that gives."""

    def __init__(self):
        self.given, self.ended, self.many = [], False, MOST
        self.course = self.run()
        self.asked = next(self.course)

    def question(self):
        """What is asked next, with the count that the device can send."""
        kind, *of = self.asked
        return {"oldest": ("oldest", self.many), "number": ("number", *of[:1], sum(of[1:]) * self.many)}.get(kind, self.asked)

    def take(self, outcome):
        try:
            self.asked = self.course.send(outcome)
        except StopIteration:
            self.asked, self.ended = None, True
        given, self.given = self.given, []
        return given

    def halve(self):
        """The device can't send so many records: half as many are asked for from now on, one at least."""
        self.many = max(1, self.many // 2)

    def give(self, *what):
        self.given.append(what)


class LogPoll(Machine):
    def __init__(self, place, told):
        """`place` is None in a first run. `told` is what the device said of itself before: a part that it refused, or of which a part
        is unspecified, isn't in it."""
        self.place, self.told = place, dict(told)
        self.word = dict(place.word) if place else {}
        self.next, self.known, self.stamp = (place.next, list(place.known[-SHOWN:]), place.stamp) if place else (1, [], None)
        self.reference = self.known[0][0] if self.known else 0
        self.lives, self.backwards, self.more = 0, 0, False
        self.begun = place.next if place and place.counted else None
        super().__init__()

    # ---- rows

    def newest(self):
        return self.known[-1][0] if self.known else None

    def stand(self, known):
        """These are the known records now: what follows is asked for from the newest on."""
        self.known, self.reference = known[-SHOWN:], known[-1][0]

    def keep(self, records):
        """Records are kept that follow the known ones; there are none: nothing is newer."""
        if not records:
            return self.end()
        for r in records:
            self.give("record", r)
        self.stand(self.known + records)
        self.next, self.stamp = after(records[-1][0]), records[-1][1]
        return True

    def gap(self, before, doubtful=False):
        """A gap from what comes next up to the number before this one, if there are any."""
        if self.next != before:
            self.give("gap", self.next, until(before), doubtful)
        self.next, self.known = before, []

    def confirmed(self):
        """The log is at its place: the word told is on record from now on; what is refused stays as it was."""
        self.word.update(self.told)

    def end(self, status=0, line=None):
        if self.more and status == 0:
            status, line = 4, "the last reply said that more is there"
        if line:
            self.give("line", line)
        self.give("end", status)
        return False

    def contradicts(self):
        return self.end(4, "its records contradict each other")

    def ask(self, *question):
        reply = yield question
        if reply.records:
            self.more = reply.more
        return reply

    def back(self, number):
        """The records up to a number."""
        reply = yield from self.ask("number", number, BACKWARD)
        if reply.records:
            self.backwards += (number - reply.records[0][0]) % LAST + 1
        return reply

    # ---- the poll

    def run(self):
        goes_on = yield from (self.first() if self.place is None or self.place.counted else self.begin())
        while goes_on:
            goes_on = yield from self.join()

    def begin(self):
        """The known records are asked for. A log that has none stands behind a gap or at a beginning: the number before is gone. If it is
        there, it is of another life."""
        if self.known:
            return (yield from self.join())
        if self.next != 1:
            reply = yield from self.ask("number", until(self.next), FORWARD)
            if reply.records and reply.records[0][0] == until(self.next):
                return (yield from self.another_life())
        return (yield from self.oldest())

    # ---- each question shows the record before it

    def is_steady(self):
        """Datum and flags of all of the known records are the same: at even times they show nothing."""
        return len({k[2:] for k in self.known}) == 1

    def means(self, records):
        """What records say of the known ones. Where the word is another one a shift of a value that never changes is another life."""
        means = compared(self.known, records)
        if means == "moved" and self.is_steady():
            if weighed({k: v for k, v in self.word.items() if k in self.told}, self.told) == "changed":
                return "another"
        return means

    def known_as_shown(self, means, records):
        """The newest known record is known as it is shown from now on. All of them at another hour: it is told, but where the newest is
        shown as it was known; and where no restart says that a value that never changes is still of this life, that, too."""
        steps = shown(self.known[-1:], records)[0]
        if means == "moved" and steps:
            text = "shows its records %d:%02d h %s" % (abs(steps) // 4, abs(steps) % 4 * 15, "later" if steps > 0 else "earlier")
            doubtful = self.is_steady() and self.word.get(RESTART, "none") != self.told.get(RESTART)
            self.give("line", text + ", or began anew" if doubtful else text)
        self.stand(self.known[:-1] + [r for r in records if r[0] == self.newest()][:1])

    def join(self):
        """One question that shows what is known, and what its answer means. True: ask on; False: the log has ended."""
        reply = yield from self.ask("number", self.reference, FORWARD)
        means = self.means(reply.records)
        if means is None:
            return (yield from self.oldest())
        if means == "partly":
            return (yield from self.each())
        if means == "another":
            return (yield from self.another_life())
        numbers = [r[0] for r in reply.records]
        if self.newest() not in numbers:
            # A short reply that doesn't reach the newest known one: that is asked for alone.
            self.reference = self.newest()
            return True
        self.known_as_shown(means, reply.records)
        self.confirmed()
        news = reply.records[numbers.index(self.newest()) + 1:]
        if news:
            return self.keep(news)
        if reply.last and not reply.more:
            return self.end()
        return (yield from self.ahead()) if len(reply.records) == 1 else True

    def each(self):
        """Some known records are shown at another hour, and not all of the three: each is asked for, before anything is said. What came
        ahead of them comes again."""
        records = []
        for k in reversed(self.known):
            reply = yield from self.ask("number", k[0], FORWARD)
            if not reply.records or reply.records[0][0] != k[0]:
                break
            records.append(reply.records[0])
        means = self.means(records) if len(records) == SHOWN else "another"
        if means not in ("same", "moved"):
            return (yield from self.another_life())
        self.known_as_shown(means, records)
        # A record that is at another hour each time it is shown would have those before it asked for without end.
        self.stand(self.known[-1:])
        return True

    def ahead(self):
        """A reply is the newest known record alone, and doesn't say that it is the last: what follows is asked for, and before it is
        kept the newest known one again."""
        while True:
            ahead = yield from self.ask("number", self.next, FORWARD)
            if ahead.records and ahead.records[0][0] != self.next:
                return (yield from self.oldest())
            if not ahead.records and not self.more:
                return self.end()
            # Where more was promised and nothing came: a contradiction, if the newest known one is still there and still says so.
            check = yield from self.ask("number", self.newest(), FORWARD)
            means = compared(self.known, check.records)
            if means == "partly":
                return (yield from self.each())
            if means != "same":
                if ahead.records:
                    # What came is of nobody knows which life: a gap in this one.
                    self.gap(after(ahead.records[-1][0]), True)
                return (yield from self.oldest()) if means is None else (yield from self.another_life())
            if not self.keep(ahead.records or check.records[1:]):
                return False
            if not ahead.records or len(check.records) > 1:
                return True
            # A device that shows one record a reply: what follows by number is asked for.

    # ---- the oldest records

    def oldest(self):
        """The known records aren't shown by number."""
        reply = yield from self.ask("oldest")
        if not reply.records:
            return (yield from self.count())
        cut = reply.more or len(reply.records) == self.many and not reply.last
        return (yield from self.seen(reply.records, cut=cut))

    def seen(self, records, back=True, cut=False):
        """Records that were asked for without the known ones. `back`: those before them weren't looked for yet. `cut`: they came by
        time, and the log holds more."""
        numbers = [r[0] for r in records]
        means = self.means(records)
        if means == "partly":
            return (yield from self.each())
        # Whether the newest known one was asked for by number: of a short reply it is, once.
        asked = self.reference == self.newest()
        if means in ("same", "moved") and self.newest() in numbers:
            self.known_as_shown(means, records)
            self.confirmed()
            news = records[numbers.index(self.newest()) + 1:]
            if news or not asked:
                return self.keep(news) if news else True
            # Others may follow that nobody finds.
            return self.end(4, "shows no record by number") if cut else self.end()
        if means == "same" and not asked:
            self.reference = self.newest()
            return True
        if means is None and is_behind(self.next, numbers[0]):
            return (yield from self.dropped(records, back=back))
        if means != "another" and cut:
            # They begin before the newest known one and end before it: is it gone, or is nothing found by number?
            found = yield from self.ask("number", numbers[-1], FORWARD)
            if not found.records:
                return self.end(4, "shows no record by number")
        return (yield from self.another_life(records))

    # ---- the count, where no record is shown

    def count(self):
        self.more = False
        total = yield ("count",)
        if total is None:
            return self.end(0, "shows no record")
        if total == (until(self.next) if self.has_logged() else 0):
            self.confirmed()
            return self.end()
        if not is_behind(self.next, total):
            return (yield from self.another_life(total=total))
        reply = yield from self.back(total)
        return (yield from self.seen(reply.records) if reply.records else self.dropped([], total))

    # ---- dropped, or another life

    def has_logged(self):
        """Something was logged before the number that comes next."""
        return bool(self.known) or self.stamp is not None or self.next > 1

    def is_first(self, number):
        """Nothing stands before it, and there is no gap to put: it is 1, where the epoch begins."""
        return number == self.next == 1 and not (self.begun and is_behind(self.begun, 1))

    def before(self, records):
        """Before a gap is put in front of records, the first of them is asked for backwards: those that have no date aren't found by time.
        What follows the reply that shows the foremost comes by number. None: the first is another one by now. False: there is no end."""
        while True:
            first = records[0]
            reply = yield from self.back(first[0])
            if self.backwards >= HALF:
                return False
            if not reply.records:
                return records
            last = reply.records[-1]
            if last[0] == first[0]:
                if moved(first, last) != 0:
                    return None
                if len(reply.records) == 1:
                    if not self.more and self.many > 1:
                        return records
                    # A short reply may show that one alone: those before it are asked for without it.
                    reply = yield from self.back(until(first[0]))
                    if not reply.records:
                        return records
            records = reply.records
            if compared(self.known, records) is not None or self.is_first(records[0][0]):
                return records

    def dropped(self, records, total=None, back=False):
        """Dropped, or another life: records are held behind what comes next, or none up to the count."""
        if back and not self.is_first(records[0][0]):
            records = yield from self.before(records)
            if records is False:
                return self.contradicts()
            if records is None:
                return (yield from self.oldest())
            return (yield from self.seen(records, back=False))
        first = records[0][0] if records else after(total)
        again = dict(self.told)
        for part in sorted(self.word):
            told = yield ("word", part)
            again.pop(part, None)
            if told is not None:
                again[part] = told
        word, stamp = weighed(self.word, again), records[0][1] if records else None
        # The log outlived a restart between the two: one that began anew with it holds nothing older.
        behind = self.stamp is None or is_before(self.stamp, stamp)
        outlived = records and behind and is_before(stamp, again.get(RESTART))
        told_before, self.told = self.told, again
        if not self.has_logged():
            # Nothing that is held can be of another life.
            self.confirmed()
            self.gap(first)
        elif records and is_before(stamp, self.stamp) or word == "changed" and not outlived:
            # Its records came before the word was told again.
            self.gap(first)
            self.new_epoch("began anew, or dropped records", told_before)
            self.gap(first)
        else:
            if word != "same":
                if first != self.next:
                    self.give("line", "dropped %d to %d, or began anew" % (self.next, until(first)))
                else:
                    self.give("line", "goes on at %d, or began anew" % first)
            self.confirmed()
            self.gap(first, word != "same")
        return self.keep(records)

    # ---- a new epoch

    def new_epoch(self, text, word=None):
        self.give("line", text)
        self.give("epoch")
        self.next, self.known, self.stamp, self.word = 1, [], None, dict(self.told if word is None else word)
        self.more = False
        self.lives = min(2, self.lives + 1)

    def another_life(self, records=None, total=None):
        """Another life: it is kept from its oldest on. What told it is `records`, the oldest, or the count alone, `total`; else a record.
        A third one in a run contradicts itself."""
        if self.lives == 2:
            return self.contradicts()
        self.new_epoch("began anew")
        return (yield from self.from_the_oldest(records) if total is None else self.up_to(total))

    def up_to(self, total):
        """An epoch that shows no record by time: those up to its count."""
        if not total:
            return self.end()
        reply = yield from self.back(total)
        if reply.records:
            return (yield from self.from_the_oldest(reply.records))
        self.gap(after(total))
        self.more = False
        return self.end()

    def from_the_oldest(self, records=None):
        """An epoch from 1 on, with a gap up to the oldest held."""
        while True:
            if records is None:
                records = (yield from self.ask("oldest")).records
            if not records:
                return (yield from self.up_to((yield ("count",))))
            if records[0][0] != 1:
                records = yield from self.before(records)
            if records is False:
                return self.contradicts()
            if records is not None:
                self.gap(records[0][0])
                return self.keep(records)

    # ---- a first run

    def first(self):
        """A first run, or one behind a first run that ended behind the count: then a beginning by that count is on record."""
        total = yield ("count",)
        if self.place is None and (total is not None or self.begun is None):
            self.confirmed()
            self.give("begin", after(total or 0), True)
            self.begun = None if total is None else after(total)
        records = (yield from self.ask("oldest")).records
        if not records and total:
            records = (yield from self.back(total)).records
        if records:
            self.next = 1
            if not self.is_first(records[0][0]):
                records = yield from self.before(records)
            if records is False:
                return self.contradicts()
            if records is None:
                return (yield from self.first())
        elif total is None and self.begun is not None:
            # Nothing is known that wasn't: that beginning stays as it is.
            self.more = False
            return self.end(0, "shows no record")
        first = records[0][0] if records else after(total or 0)
        doubtful = self.place is not None and weighed(self.word, self.told) != "same"
        self.confirmed()
        if self.begun is not None and is_behind(self.begun, first):
            # What was logged since the count is missing.
            self.give("begin", self.begun, False)
            self.next = self.begun
            self.gap(first, doubtful)
        else:
            self.give("begin", first, False)
            self.next = first
        return self.keep(records)
