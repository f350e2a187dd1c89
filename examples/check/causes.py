#!/usr/bin/env python3
"""Compares what help and man page say that a refusal means with what the program tells.

    examples/check/causes.py [PROGRAM]

Each pair of a number and a meaning that stands in `bac rp --help`, `bac wp --help`, `bac log --help` and docs/bac.1
is read; a device refuses `bac rp` and `bac log` so, and the line behind the refusal has to be that meaning.
Each page has to name each reject reason and each abort reason that the program has a name for. PROGRAM is
crates/bac/out/bac where none is given. The last line is `N passed, M failed`."""
import os
import re
import socket
import subprocess
import sys
import threading

HERE = os.path.dirname(os.path.abspath(__file__))
ROOT = os.path.join(HERE, "..", "..")
PROGRAM = os.path.abspath(sys.argv[1] if len(sys.argv) > 1 else os.path.join(ROOT, "crates/bac/out/bac"))
UNNAMED = "the standard has no name for it"
# What stands behind an Abort whose cause is that the answer is too long.
ADVICE = ": the answer is too long for one datagram; --index=0 and on reads an array in parts, --count=20 a log"
TOO_LONG = (1, 4, 11)


class Refusing:
    """A device that refuses each request as it is told to."""

    def __init__(self):
        self.refusal = None
        self.socket = socket.socket(socket.AF_INET, socket.SOCK_DGRAM)
        self.socket.bind(("127.0.0.1", 0))
        self.at = "%s:%d" % self.socket.getsockname()
        threading.Thread(target=self.serve, daemon=True).start()

    def serve(self):
        while True:
            octets, asker = self.socket.recvfrom(2000)
            invoke, service = octets[8:9], octets[9:10]
            kind, *numbers = self.refusal
            if kind == "error":
                apdu = b"\x50" + invoke + service + b"".join(b"\x91" + bytes([n]) for n in numbers)
            elif kind == "reject":
                apdu = b"\x60" + invoke + bytes(numbers)
            else:
                apdu = b"\x71" + invoke + bytes(numbers)
            frame = b"\x01\x00" + apdu
            self.socket.sendto(b"\x81\x0a" + (len(frame) + 4).to_bytes(2, "big") + frame, asker)

    def told(self, refusal, *words):
        """The lines on standard output and standard error, and the status."""
        self.refusal = refusal
        words = [word.replace("ADDRESS", self.at) for word in words]
        ended = subprocess.run([PROGRAM, *words], capture_output=True, text=True, timeout=60, check=False)
        return ended.stdout.splitlines(), ended.stderr.splitlines(), ended.returncode


def of_help(text):
    """The pairs of a help: `error`, `reject` and `abort`, each with items behind semicolons."""
    found = {}
    for kind, items in re.findall(r"^  (error|reject|abort) +((?:.|\n {12})*)", text, re.M):
        found.update(items_of(kind, items))
    return found


def of_man(text):
    """The same of the man page, where a tagged paragraph has them."""
    found = {}
    for kind, items in re.findall(r"^\.B (error|reject|abort) [A-Z ]+\n((?:[^.\n].*\n)*)", text, re.M):
        found.update(items_of(kind, items))
    return found


def items_of(kind, items):
    found = {}
    for item in " ".join(items.split()).rstrip(".").split(";"):
        numbers, meaning = re.fullmatch(r" ?((?:\d+ )+)(.*)", item).groups()
        found[(kind, *map(int, numbers.split()))] = meaning
    return found


def text_of(name):
    with open(os.path.join(ROOT, name), encoding="utf-8") as file:
        return file.read()


def help_of(tool):
    return subprocess.run([PROGRAM, tool, "--help"], capture_output=True, text=True, timeout=60, check=True).stdout


def meaning_told(device, refusal):
    """What `rp` and `log` tell of a refusal, if it is the same, the status is 3 and the first lines are the refusal."""
    line = "refused: " + " ".join(map(str, refusal))
    read = device.told(refusal, "rp", "ADDRESS", "8", "1", "77")
    walked = device.told(refusal, "log", "ADDRESS", "1", "1")
    if read[2] != 3 or walked[2] != 3 or read[0] or read[1][:1] != [line] or walked[0] != [line + ", next 1"]:
        return f"{read} {walked}"
    if read[1][1:] != walked[1]:
        return f"rp: {read[1][1:]}, log: {walked[1]}"
    meaning = "\n".join(walked[1])
    if refusal[0] == "abort" and refusal[1] in TOO_LONG:
        if not meaning.endswith(ADVICE):
            return meaning + " without what can be done"
        meaning = meaning[: -len(ADVICE)]
    return meaning


def main():
    device = Refusing()
    pages = {f"bac {tool} --help": of_help(help_of(tool)) for tool in ("rp", "wp", "log")}
    pages["docs/bac.1"] = of_man(text_of("docs/bac.1"))
    named = {("reject", n) for n in range(64)} | {("abort", n) for n in range(64)}
    wanted = named.union(*pages.values())
    told = {refusal: meaning_told(device, refusal) for refusal in sorted(wanted)}
    passed = failed = 0
    for page, pairs in pages.items():
        wrong = [f"{key}: {meaning}, and {told[key]} is told" for key, meaning in pairs.items() if meaning != told[key]]
        wrong += [f"{key}: not named, and {told[key]} is told" for key in sorted(named) if told[key] != UNNAMED and key not in pairs]
        if len(pairs) < 30:
            wrong.append(f"only {len(pairs)} were found")
        passed, failed = (passed, failed + 1) if wrong else (passed + 1, failed)
        for line in wrong:
            print(f"{page}: {line}")
    # A code and a reason that the standard doesn't have.
    for refusal in (("error", 2, 255), ("reject", 200), ("abort", 200)):
        meaning = meaning_told(device, refusal)
        passed, failed = (passed + 1, failed) if meaning == UNNAMED else (passed, failed + 1)
        if meaning != UNNAMED:
            print(f"{refusal}: {meaning}")
    print(f"{passed} passed, {failed} failed")
    sys.exit(failed != 0)


if __name__ == "__main__":
    main()
