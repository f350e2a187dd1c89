#!/usr/bin/env python3
"""Plays the talks of this folder: `bac` speaks to sockets that say what the files say.

    examples/check/talk.py PROGRAM [FILE..]

Each FILE, or each *.talk of this folder, has talks of these lines:

    # a comment, as an empty line is
    $ bac WORDS    a talk begins: the program's words; ADDRESS stands for the address of a socket of
                   this machine, and OTHER for that of another one
    > OCTETS       a datagram that comes to ADDRESS, with these octets and no others
    >2 OCTETS      the same to OTHER
    < OCTETS       ADDRESS answers it
    <2 OCTETS      OTHER sends this to where the last datagram came from
    | TEXT         a line of the output
    .              the lines of the output above have come by now
    ! TEXT         a line on standard error
    = STATUS       the exit status, at the end of the talk

OCTETS are hexadecimal digits, with blanks if they help. `N times OCTETS` is N such datagrams one
after the other, and `OCTETS up to N` has zeros behind them up to N octets. A talk with a line
`< each front of OCTETS / OCTETS` is played once for each answer that is cut off behind the slash, and
whose frame says its length. The last line is `N passed, M failed`.
"""

import os
import re
import select
import shlex
import socket
import subprocess
import sys
from concurrent.futures import ThreadPoolExecutor

WAIT = 10  # seconds that a datagram or the end may take


class Mismatch(Exception):
    pass


def datagrams(text):
    """The datagrams that the octets of a line stand for."""
    times, text = re.fullmatch(r"(?:(\d+) times )?(.*)", text).groups()
    octets, size = re.fullmatch(r"([0-9a-fA-F ]*?)(?: up to (\d+))?", text).groups()
    datagram = bytes.fromhex(octets)
    return [datagram.ljust(int(size or 0), b"\0")] * int(times or 1)


def talks(file):
    """Each talk of a file: its first line's number, its words, and its other lines."""
    found = []
    with open(file, encoding="utf-8") as lines:
        for number, line in enumerate(lines, 1):
            line = line.rstrip("\n")
            if line.startswith("$ bac "):
                found.append((number, line[len("$ bac ") :], []))
            elif line and not line.startswith("#"):
                mark, _, text = line.partition(" ")
                if mark not in (">", ">2", "<", "<2", "|", ".", "!", "="):
                    sys.exit(f"{file}:{number}: no line of a talk")
                found[-1][2].append((mark, text))
    return [(number, words, cut) for number, words, lines in found for cut in cuts(lines)]


def cuts(lines):
    """The talk's lines, or for each cut of its answer the lines with that one."""
    for place, (mark, text) in enumerate(lines):
        whole = re.fullmatch(r"each front of (.*) / (.*)", text)
        if whole:
            head, rest = (bytes.fromhex(it) for it in whole.groups())
            for size in range(len(rest)):
                octets = bytearray(head + rest[:size])
                octets[2:4] = len(octets).to_bytes(2, "big")
                yield [*lines[:place], (mark, octets.hex()), *lines[place + 1 :]]
            return
    yield lines


def heard(peer, wanted):
    """Receives one datagram, which must be the wanted one; answers where it came from."""
    try:
        octets, sender = peer.recvfrom(4096)
    except socket.timeout:
        raise Mismatch(f"no datagram came; wanted: {wanted.hex()}") from None
    if octets != wanted:
        raise Mismatch(f"sent: {octets.hex()}\nwanted: {wanted.hex()}")
    return sender


def read_more(output, size):
    """So many octets of the output, while the program goes on."""
    found = b""
    while len(found) < size:
        if not select.select([output], [], [], WAIT)[0]:
            raise Mismatch(f"the output isn't there yet, but {found!r}")
        more = os.read(output.fileno(), size - len(found))
        if not more:
            break
        found += more
    return found


def play(program, words, lines):
    peers = [socket.socket(socket.AF_INET, socket.SOCK_DGRAM) for _ in range(2)]
    for peer in peers:
        peer.bind(("127.0.0.1", 0))
        peer.settimeout(WAIT)
    at, other = ("127.0.0.1:%d" % peer.getsockname()[1] for peer in peers)

    def named(text):
        return text.replace("ADDRESS", at).replace("OTHER", other)

    def printed(lines):
        return "".join(named(text) + "\n" for mark, text in lines if mark == "|").encode()

    with subprocess.Popen(
        [program, *shlex.split(named(words))],
        stdin=subprocess.DEVNULL,
        stdout=subprocess.PIPE,
        stderr=subprocess.PIPE,
    ) as run:
        try:
            sender, begun = None, b""
            for place, (mark, text) in enumerate(lines):
                if mark == ".":
                    begun += read_more(run.stdout, len(printed(lines[:place])) - len(begun))
                elif mark[0] == ">":
                    for wanted in datagrams(text):
                        sender = heard(peers[mark == ">2"], wanted)
                elif mark[0] == "<":
                    for datagram in datagrams(text):
                        peers[mark == "<2"].sendto(datagram, sender)
            output, errors = run.communicate(timeout=60)
            output = begun + output
        except subprocess.TimeoutExpired:
            raise Mismatch("it doesn't end") from None
        finally:
            run.kill()
    for peer in peers:
        peer.setblocking(False)
        try:
            raise Mismatch(f"one datagram more was sent: {peer.recv(4096).hex()}")
        except BlockingIOError:
            peer.close()
    told = printed(("|", text) for mark, text in lines if mark == "!")
    for name, got, wanted in (("output", output, printed(lines)), ("standard error", errors, told)):
        if got != wanted:
            raise Mismatch(f"{name}: {got!r}\nwanted: {wanted!r}")
    wanted = [int(text) for mark, text in lines if mark == "="]
    if [run.returncode] != wanted:
        raise Mismatch(f"status {run.returncode}; wanted: {wanted}")


def played(program, file, number, words, lines):
    """Plays a talk; what was wrong with it, or None."""
    try:
        play(program, words, lines)
    except Mismatch as mismatch:
        return f"{os.path.basename(file)}:{number}: bac {words}\n{mismatch}"


def main(program, *files):
    folder = os.path.dirname(os.path.abspath(__file__))
    every = sorted(os.path.join(folder, it) for it in os.listdir(folder) if it.endswith(".talk"))
    found = [(program, file, *talk) for file in files or every for talk in talks(file)]
    # Most of a talk's time is waiting.
    with ThreadPoolExecutor(8) as pool:
        wrong = [it for it in pool.map(lambda talk: played(*talk), found) if it]
    print(*wrong, f"{len(found) - len(wrong)} passed, {len(wrong)} failed", sep="\n")
    return 1 if wrong or not found else 0


if __name__ == "__main__":
    sys.exit(main(*sys.argv[1:]))
