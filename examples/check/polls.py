#!/usr/bin/env python3
"""Compares how the proved poll of a log and a second program of its rule, poll_rule.py, answer: on each row of
../vectors/polls.vectors, whose answers are written down there, and on random polls of simulated devices. And judges the
rule by what those devices held: a gap that isn't doubtful covers no record that is held.

    polls.py PROGRAM [POLLS [SEED]]

PROGRAM is a built bac_poll_rows. It is POLLS polls at least, 4000 where none is given. The last line is `N passed, M
failed`.
"""
import pathlib
import random
import subprocess
import sys

from poll_devices import Archive, Device, Poll, random_polls
from poll_lines import answered, lines_of
from poll_rule import LogPoll

ROWS = pathlib.Path(__file__).parent / "../vectors/polls.vectors"
AT_ONCE = 4000                          # so many polls are given to one run of the program
SHOWN = 5                               # so many differences are told


def answers(program, calls):
    run = subprocess.run([program], input="".join(call + "\n" for call in calls), capture_output=True, text=True)
    return run.stdout.splitlines()


class Score:
    def __init__(self):
        self.passed = self.failed = 0

    def row(self, name, got, wanted):
        if got == wanted:
            self.passed += 1
            return True
        self.failed += 1
        if self.failed <= SHOWN:
            print(f"{name}\n  {wanted} is wanted, and it is: {got}")
        return False


def compare_rows(program, score):
    """Each row: the answer that stands there, the rule's and the program's."""
    rows = [line for line in ROWS.read_text().splitlines() if line and not line.startswith("#")]
    rows = [row.split(" -> ") for row in rows]
    got, machine = answers(program, [call for call, _ in rows]), None
    score.row("answers to rows", len(got), len(rows))
    for (call, wanted), answer in zip(rows, got):
        by_rule, machine = answered(machine, call)
        score.row("by the rule: " + call, by_rule, wanted)
        score.row(call, answer, wanted)


def compare_random(program, polls, seed, score):
    """Random polls: one that differs is told with its calls up to there."""
    compared = turns = 0
    while compared < polls:
        cases = []
        while len(cases) < AT_ONCE and compared + len(cases) < polls:
            cases += [lines_of(*poll) for poll in random_polls(LogPoll, seed)]
            seed += 1
        got = iter(answers(program, [call for lines in cases for call, _ in lines]))
        for lines in cases:
            told = [next(got, "no answer") for _ in lines]
            differ = [n for n, (_, wanted) in enumerate(lines) if told[n] != wanted]
            upto = differ[0] if differ else 0
            name = "\n".join(f"{call} -> {wanted}" for call, wanted in lines[:upto]) + f"\n{lines[upto][0]}"
            score.row(name, told[upto], lines[upto][1])
            turns += len(lines)
        compared += len(cases)
    print(f"{compared} random polls, {turns} answers")


def judge(devices, seed, score):
    """Devices whose flags are right, which find records by number and by time: no gap that isn't doubtful covers a record
    of this life that is held."""
    for seed in range(seed, seed + devices):
        rng = random.Random(seed)
        device, archive = Device(rng), Archive()
        device.by_number = device.by_time = True
        device.last = device.more = "right"
        for _ in range(6):
            life = device.life
            poll = Poll(LogPoll(archive.place, dict(device.word)), device, most=500)
            held = {record[0] for record in device.records}
            gaps = [g for g in poll.given if g[0] == "gap" and not g[3]]
            new = any(g[0] == "epoch" for g in poll.given) or life != device.life
            covered = [] if new else [n for n in held for _, first, last, _ in gaps if first <= n <= last]
            score.row(f"held by device {seed} of the gaps {gaps}", covered, [])
            archive.put(poll.machine, poll.given)
            for _ in range(rng.randrange(0, 3)):
                device.change()


def main():
    program, polls, seed = sys.argv[1], int((sys.argv[2:3] or [4000])[0]), int((sys.argv[3:4] or [1])[0])
    if not pathlib.Path(program).exists():
        print("bac_poll_rows isn't built: 'rt run' in crates/bac_poll_rows does it\n0 passed, 1 failed")
        return 1
    score = Score()
    compare_rows(program, score)
    compare_random(program, polls, seed, score)
    judge(polls // 20, seed, score)
    print(f"{score.passed} passed, {score.failed} failed")
    return score.failed > 0


if __name__ == "__main__":
    sys.exit(main())
