#!/usr/bin/env python3
"""Counts what the provers of `rt ci` cost, while it runs.

    provers.py watch FILE           appends a line to FILE for each prover that ends, until it is ended itself
    provers.py page FILE            the table of them, and the longest chain of crates

A prover's processor seconds and memory are read from /proc, some times a second. Of each crate its last check counts, of
a program the last two, since it is built by two compilers; and the tests and the wrong bodies that were tried. The kept ones
of an earlier run have no prover, so FILE has to be begun where nothing is kept."""
import collections
import glob
import json
import os
import re
import sys
import time

TICKS = os.sysconf("SC_CLK_TCK")
TOP = os.path.realpath(os.path.join(os.path.dirname(__file__), ".."))


def read_process(number):
    """When it began, its processor seconds, its peak of memory in GB, its words and folder; nothing if it is no prover."""
    try:
        with open(f"/proc/{number}/stat") as file:
            name, rest = file.read().rsplit(")", 1)
        if not name.endswith("(rattle"):
            return None
        fields = rest.split()
        with open(f"/proc/{number}/status") as file:
            peak = next((int(line.split()[1]) for line in file if line.startswith("VmHWM")), 0)
        with open(f"/proc/{number}/cmdline") as file:
            words = file.read().split("\0")
        return fields[19], sum(map(int, fields[11:15])) / TICKS, peak / 1e6, words, os.readlink(f"/proc/{number}/cwd")
    except (OSError, IndexError, ValueError):
        return None


def kind_of(words, folder):
    """The crate and what is done of it, if a run of `rt ci` does it."""
    if "--crate-name" not in words or "/rt-" not in folder:
        return None
    name = words[words.index("--crate-name") + 1]
    if "--test" in words:
        return name, "tests"
    return name, "check" if words[1] == "build" else "edits"


def watch(to):
    alive = {}
    with open(to, "a") as file:
        while True:
            seen = {}
            for number in filter(str.isdigit, os.listdir("/proc")):
                if (read := read_process(number)) and (kind := kind_of(*read[3:])):
                    seen[number, read[0]] = (*kind, *read[1:3])
            for key in set(alive) - set(seen):
                file.write(json.dumps(alive[key]) + "\n")
                file.flush()
            alive = seen
            time.sleep(0.3)


def below(top):
    """Each crate and the crates of the repository that it stands on."""
    lines = [line.split("#")[0] for line in open(f"{top}/crates.txt")]
    given = {line.split(":")[0].strip(): line.split(":")[1].split() for line in lines if ":" in line}
    return {name: [use for use in uses if use in given] for name, uses in given.items()}


def counted(name):
    """How many tests and wrong bodies a crate has."""
    files = glob.glob(f"{TOP}/crates/{name}/src/**/*.rt", recursive=True)
    tests = sum(len(re.findall(r"#\[test\]", open(file).read())) for file in files)
    return {"tests": tests, "edits": len(glob.glob(f"{TOP}/crates/{name}/must-fail/*.edit"))}


def page(of):
    spent, peaks = collections.defaultdict(float), collections.defaultdict(float)
    checks = collections.defaultdict(list)
    for line in open(of):
        name, kind, seconds, peak = json.loads(line)
        if kind == "check":
            checks[name].append(seconds)
        spent[name, kind] += seconds
        peaks[name] = max(peaks[name], peak)
    for name, all_of_it in checks.items():
        is_program = os.path.exists(f"{TOP}/crates/{name}/src/main.rt")
        # A program is checked before its builds, by the word that tries wrong bodies elsewhere.
        before = spent.pop((name, "edits"), 0) if is_program else 0
        spent[name, "check"] = before + sum(all_of_it[-1 - is_program :])
    uses, sums, counts, chain = below(TOP), collections.Counter(), collections.Counter(), {}
    print("Crate | Check, s | Tests, s | Wrong bodies, s | Peak, GB\n---|---|---|---|---")

    def longest(name):
        if name not in chain:
            front = max((longest(use) for use in uses[name]), default=(0, []))
            chain[name] = front[0] + spent[name, "check"], front[1] + [name]
        return chain[name]

    for name in uses:
        count, cells = counted(name), [f"{spent[name, 'check']:.0f}"]
        for kind in ("tests", "edits"):
            cells.append(f"{spent[name, kind]:.0f} ({count[kind]})" if count[kind] else "-")
            counts[kind] += count[kind]
        for kind in ("check", "tests", "edits"):
            sums[kind] += spent[name, kind]
        print(f"`{name}` | {' | '.join(cells)} | {peaks[name]:.1f}")
    print(f"all | {sums['check']:.0f} | {sums['tests']:.0f} ({counts['tests']}) | {sums['edits']:.0f} ({counts['edits']}) | "
          f"{max(peaks.values()):.1f}")
    seconds, names = max(longest(name) for name in uses)
    print(f"\nIn all {sum(sums.values()) / 60:.0f} processor minutes. The longest chain of crates, for which the gate waits however many processors")
    print(f"there are, {seconds / 60:.0f} minutes of checks: {', '.join(names)}.")


if __name__ == "__main__":
    {"watch": watch, "page": page}[sys.argv[1]](sys.argv[2])
