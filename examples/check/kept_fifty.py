"""Runs over a site of 50 devices for kept.py, most of which are ended at any moment, until at last all devices are
well, and one run catches up with all their logs."""
import collections
import os
import resource
import subprocess
import time

from kept_archives import OneFile, Parts
from kept_devices import chance
from kept_judge import ANEW, Row, rows_of, wrong_of, wrongs_in
from kept_lines import KILLED, Rows, Told, disagreements, gaps_in, in_doubt
from kept_site import Site

# How many runs over a site are ended at random; on a busy machine fewer, behind so many seconds, but so many at least.
RUNS, SECONDS, LEAST = 30, 45, 10
# Neither the site nor a run needs more open files.
FILES = 1024
LONG = ("--timeout=3000", "--retries=1")
# Devices that may answer a question not at all, or too late.
LATE = "dead", "slow", "late", "uneven", "lossy"
EMPTY = [("ok",)], [], [], {}
# What has to happen in these runs: else they would show nothing.
WANTED = ("asked", "after", "call", "itself", "caught up", "lost", "not asked", "no answer", "another device answers", "began anew",
          "in doubt", "a gap")


class Runs:
    """Runs over a site that is kept in an archive, and the rows that they left. `took`, `questions` and `calls` are the
    seconds, the questions and the calls on files of the last run that ended of itself; `ends` counts how runs and logs
    ended."""

    def __init__(self, judge, archive, seed):
        most = resource.getrlimit(resource.RLIMIT_NOFILE)[1]
        least = FILES if most == resource.RLIM_INFINITY else min(FILES, most)
        resource.setrlimit(resource.RLIMIT_NOFILE, (least, most))
        self.judge, self.archive, self.ends = judge, archive, collections.Counter()
        self.site = Site(seed, f"127.{64 + os.getpid() // 256 % 64}.{os.getpid() % 256}.{{}}")
        self.list, self.rows = f"{archive.name}.list", Rows(EMPTY)
        self.took, self.questions, self.calls = 1.0, 400, 400
        with open(self.list, "w") as lines:
            lines.writelines(f"{listed(device)}\n" for device in self.site.devices)

    def whole(self, *options):
        """The words of a run over all logs of the archive."""
        return self.archive.keep(*options)

    def by_list(self, *options):
        """The same, and over all logs of the devices of the list."""
        return self.archive.keep("-", *options)

    def by_words(self, *options):
        """The same, and over some logs of some devices that are named, none of which is behind a router."""
        words = []
        for device in chance.sample([device for device in self.site.devices if not device.way], 12):
            words += [device.address, *map(str, [number for number in device.logs if chance.random() < 0.7] or [1])]
        return self.archive.keep(*words, *options)

    def ended(self, words, how="itself", when=None):
        """The status of a run that is ended so, what it printed and told."""
        env = {"call": self.judge.ending_at(when), "itself": {**self.judge.ending_at(0), "TOLD": "2"}}.get(how)
        with open(self.list) as lines:
            process = self.judge.started(words, stdin=lines, env=env)
        if how == "asked":
            self.site.kill_at(process, when)
        try:
            out, errors = process.communicate(timeout=when if how == "after" else 120)
        except subprocess.TimeoutExpired:
            process.kill()
            out, errors = process.communicate()
        errors = errors.decode()
        if how == "itself" and process.returncode != KILLED:
            # Its last line is how many calls there were.
            *errors, calls = errors.splitlines(True)
            errors, self.calls = "".join(errors), int(calls)
        self.judge.hears(errors)
        return process.returncode, out.decode(), errors

    def read(self):
        return rows_of(self.archive.gathered()) if self.archive.is_begun() else EMPTY

    def run(self, name, words, how="itself", when=None, wait=5.0, all_of_it=False):
        """A run, which is judged by the rows that it left, and its lines by these; its status and what it told."""
        self.site.begins(wait)
        start = time.monotonic()
        status, out, errors = self.ended(words, how, when)
        if status != KILLED:
            self.took, self.questions = time.monotonic() - start, self.site.asked
        read = self.read()
        before, self.rows = self.rows, Rows(read)
        found = wrongs_in(read, self.site.devices, all_of_it, self.judge.doubts)
        self.judge.is_right(f"{name}: its rows", not found, "; ".join(found[:3]))
        found = disagreements(status, out, errors, before, self.rows)
        self.judge.is_right(f"{name}: its lines", not found, f"{'; '.join(found[:3])}; {how} {when}; {' '.join(words)}")
        doubted, wrong = in_doubt(before.logs, [device for device in self.site.devices if self.site.manner(device) not in LATE], errors)
        self.judge.is_right(f"{name}: what is in doubt", not wrong, wrong)
        self.judge.is_right(f"{name}: its end", how != "itself" or status != KILLED, status)
        told = Told(out, errors)
        self.ends.update([how, f"status {status}", *["in doubt"] * len(doubted), *["not asked"] * len(told.left),
                          *["no answer"] * len(told.silent), *["another device answers"] * len(told.strange)])
        self.ends.update(["began anew"] * sum(text == ANEW for _, text in told.meanwhile))
        self.ends.update(line[3].split(":")[0] for line in told.logs)
        self.ends.update(["a gap"] * sum(gaps_in(self.rows.new_in(before, line[0])) for line in told.logs))
        found = [text for line in told.logs if (text := self.wrong_end(*line))]
        self.judge.is_right(f"{name}: all that was caught up", not found, "; ".join(found[:3]))
        return status, told

    def wrong_end(self, name, _records, _gaps, end, _next):
        """What is missing of a log that was caught up, or None. Others go on while they are asked."""
        place, instance = name.split()
        device = next(device for device in self.site.devices if device.place() == place)
        log = device.logs[int(instance)]
        if end != "caught up":
            return None
        log.fresh = False
        doubts = {number for one, number in self.judge.doubts if one == name}
        wrong = wrong_of(log, by_epoch(self.rows, name), doubts, True) if self.site.manner(device) != "busy" else None
        return wrong and f"{name}: {wrong}"


def by_epoch(rows, name):
    """The rows of a log as the judge has them: of each epoch where it begins, why, and its rows."""
    found = {epoch: (*begun, []) for epoch, begun in rows.begins[name].items()}
    for epoch, number, last, *texts in rows.of[name]:
        found[epoch][2].append(Row(number, last, tuple(texts)))
    return found


def listed(device):
    """The line of a device in a list: one behind a router as `bac wi` prints it."""
    if not device.way:
        return device.address
    network, there = device.place().split("/")[1:]
    return f"I-Am {device.number or 1} {device.address} net {network} mac {there} max-apdu 1476 segmentation 3 vendor 0"


def any_end(runs):
    """How a run is ended, and when: at a question that it asks, so also while it asks many; after some time; before a
    call on files; or not."""
    what = chance.random()
    if what < 0.25:
        return "asked", chance.randrange(1, runs.questions + 10)
    if what < 0.45:
        return "after", chance.uniform(0, 1.1 * runs.took)
    if what < 0.7:
        return "call", chance.randrange(1, runs.calls + 10)
    return "itself", None


def a_random_run(runs, at):
    """A run over a site that has gone on."""
    wait, what = chance.choice((20, 30, 50)), chance.random()
    options = [f"--timeout={wait}", f"--retries={chance.choice((0, 1, 1, 2))}"]
    options += [f"--count={chance.choice((3, 20))}"] if chance.random() < 0.15 else []
    options += ["--steps=1"] if chance.random() < 0.1 else []
    if not runs.rows.logs or at < 2 or what < 0.15:
        words = runs.by_list(*options)
    else:
        words = runs.by_words(*options) if what < 0.3 else runs.whole(*options)
    runs.run(f"run {at}", words, *any_end(runs), wait / 1000)


def fifty(judge, archive):
    """Runs over a site that is kept in an archive, and at last two of which nothing is ended."""
    seed = chance.getrandbits(32)
    runs, end = Runs(judge, archive, seed), time.monotonic() + SECONDS
    for at in range(RUNS):
        if at >= LEAST and time.monotonic() > end:
            break
        made = at + 1
        # What is done before a run doesn't hang on how fast the others went.
        chance.seed(f"{seed} {at}")
        archive.goes_on()
        runs.site.goes_on({number for _, _, _, number, *_ in runs.rows.logs} - {None})
        a_random_run(runs, at)
    runs.site.are_well()
    status, told = runs.run("all devices are well", runs.by_list(*LONG), all_of_it=True)
    ends = {line[3] for line in told.logs}
    judge.is_right("all devices are well, and all is there", status == 0 and ends == {"caught up"}, (status, ends))
    status, told = runs.run("nothing is new", runs.whole(*LONG), all_of_it=True)
    new = [line for line in told.logs if line[1] + line[2]]
    judge.is_right("nothing is new, and nothing comes", status == 0 and not new, (status, new))
    few, counts = [what for what in WANTED if not runs.ends[what]], runs.site.counts
    killed = runs.ends[f"status {KILLED}"]
    right = made < RUNS or not few and killed >= RUNS // 4 and counts["late"] and counts["again"]
    judge.is_right("some of each happens", right and killed, (made, few, runs.ends, counts))
    if made == RUNS:
        archive.is_over(judge)
    return (f"{made} runs over {len(runs.site.devices)} devices with {len(runs.rows.logs)} logs, {killed} killed; "
            f"{runs.ends['lost']} times a log was lost, {runs.ends['began anew']} times it began anew and "
            f"{runs.ends['in doubt']} times it may have; {counts['late']} answers came behind another question, and "
            f"{counts['again']} once more")


def fifty_in_a_file(judge, _runs):
    """A site in a file."""
    return fifty(judge, OneFile(f"{judge.room}/site.db"))


def fifty_in_parts(judge, _runs):
    """A site in the parts of a folder."""
    return fifty(judge, Parts(f"{judge.room}/site", 0.2))
