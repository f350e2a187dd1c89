#!/usr/bin/env python3
"""Gives a device changed datagrams through `bac replay`, and reads all of it behind them.

    examples/check/hostile.py PROGRAM [SEED]

The datagrams are those of the `rx` lines of the scripts of ../scripts: each prefix of each, each change
of one octet, and 100,000 with random changes (the seed is printed; give it again for the same run).
Each must be answered by nothing or by a whole frame, and the program must go on. One that no
SimpleACK answers must leave the device as it was, and an accepted write must change no object but
its own. The last line is `N passed, M failed`.
"""

import os
import random
import subprocess
import sys
from concurrent.futures import ThreadPoolExecutor

SCRIPTS = os.path.join(os.path.dirname(os.path.abspath(__file__)), "../scripts")
LONGEST = 1501  # octets of a datagram
MANY = 100_000  # random datagrams
TOGETHER = 6_000  # datagrams of one script

LINES = b"""device 123 plant 0 1476 2024-05-06T07:08:09.10
binary 1 pump 0
multistate 1 mode 3 2
integer 1 level -5
log 1 trend binary 1 3 6000 0
log 2 second integer 1 3 0 4294967293
sample 1
sample 1
sample 1
sample 1
sample 2
sample 2
sample 2
sample 2
"""
SAMPLES = LINES.count(b"sample")


class Wrong(Exception):
    pass


def scripts():
    return sorted(it for it in os.listdir(SCRIPTS) if it.endswith(".script"))


def datagrams_of(*names):
    """The datagrams of the scripts with these names, each once."""
    found = {}
    for name in names:
        with open(os.path.join(SCRIPTS, name), "rb") as lines:
            for line in lines:
                if line.startswith(b"rx "):
                    found[bytes.fromhex(line[3:].decode())] = None
    return list(found)


# ReadProperty of every property of the device and its objects (two Trend Logs), and all records.
READINGS = [it for it in datagrams_of("properties.script", "log-properties.script") if it[9] == 12]
READINGS += [it.replace(b"\x05\0\0\1", b"\x05\0\0\2") for it in READINGS if it[11:13] == b"\5\0"]
READINGS += [bytes.fromhex(f"810a001101040005011a0c0500000{log}1983") for log in (1, 2)]


def replies(program, datagrams):
    """What the device of LINES answers to each: the octets, or none."""
    script = LINES + b"".join(b"rx %s\n" % it.hex().encode() for it in datagrams)
    run = subprocess.run([program, "replay"], input=script, capture_output=True, timeout=120)
    lines = run.stdout.splitlines()[SAMPLES:]
    if run.returncode or run.stderr or len(lines) != len(datagrams):
        raise Wrong(f"status {run.returncode}, {len(lines)} answers to {len(datagrams)}: {run.stderr}")
    return [bytes.fromhex(line.split()[1].decode()) if line != b"none" else b"" for line in lines]


def apdu(frame):
    """What stands behind the network header of a frame, which is a whole one."""
    if len(frame) > LONGEST or frame[0] != 0x81 or int.from_bytes(frame[2:4], "big") != len(frame):
        raise Wrong(f"no frame: {frame.hex()}")
    if frame[1] == 0:
        return b""
    # 01 00, or 01 20, a network, the length of an address, the address and the hops.
    return frame[6:] if frame[5] == 0 else frame[6 + 3 + frame[8] + 1 :]


def is_accepted(frame):
    return frame != b"" and apdu(frame)[:1] == b"\x20"


def in_parts(items, size):
    return [items[place : place + size] for place in range(0, len(items), size)]


def accepted_of(program, datagrams):
    """Those that a SimpleACK answers; the others leave the device as it was."""
    answered = list(zip(datagrams, replies(program, datagrams)))
    accepted = [it for it, frame in answered if is_accepted(frame)]
    refused = [it for it, frame in answered if not is_accepted(frame)]
    # Also backwards, since one may undo what another did.
    for order in (refused, refused[::-1]):
        frames = replies(program, order + READINGS)
        if any(is_accepted(frame) for frame in frames):
            raise Wrong("a write is accepted that was refused before")
        if frames[len(refused) :] != replies(program, READINGS):
            raise Wrong(f"refused datagrams changed the device; one of {len(refused)}")
    return accepted


def check_accepted(program, datagrams):
    """Between two readings an accepted write changes at most the object that it names."""
    frames = replies(program, READINGS + [it for one in datagrams for it in (one, *READINGS)])
    before, rest = frames[: len(READINGS)], frames[len(READINGS) :]
    for datagram, answers in zip(datagrams, in_parts(rest, 1 + len(READINGS))):
        changed = {
            reading[10:15]
            for reading, old, new in zip(READINGS, before, answers[1:])
            if old != new
        }
        if len(changed) > 1 or any(it not in datagram for it in changed):
            raise Wrong(f"{datagram.hex()} changed {[it.hex() for it in changed]}")
        before = answers[1:]


def check(program, name, datagrams):
    """Plays the datagrams of one kind; whether all was right."""
    datagrams = [it for it in dict.fromkeys(datagrams) if 0 < len(it) <= LONGEST]
    try:
        with ThreadPoolExecutor(2) as pool:
            parts = in_parts(datagrams, TOGETHER)
            accepted = sum(pool.map(lambda part: accepted_of(program, part), parts), [])
            list(pool.map(lambda part: check_accepted(program, part), in_parts(accepted, 150)))
    except Wrong as wrong:
        print(f"{name}: {wrong}")
        return False
    print(f"{name}: {len(datagrams)} datagrams, {len(accepted)} writes accepted", file=sys.stderr)
    return True


def changed_octets(datagram):
    """Each change of one octet."""
    for place in range(len(datagram)):
        for octet in range(256):
            if octet != datagram[place]:
                yield datagram[:place] + bytes([octet]) + datagram[place + 1 :]


def changed_at_random(chance, base):
    """One to eight changes: octets set, inserted, taken out, doubled; and mostly a true length."""
    octets = bytearray(chance.choice(base))
    for _ in range(chance.randint(1, 8)):
        place = chance.randrange(len(octets) + 1)
        change = chance.randrange(5)
        if change == 0:
            octets[place:place] = bytes([chance.randrange(256)])
        elif change == 1:
            del octets[place : place + chance.randint(1, 4)]
        elif change == 2:
            octets[place:place] = chance.choice(base)[4:][-chance.randint(1, 20) :]
        else:
            octet = chance.choice((0, 1, 0x7F, 0xFF, chance.randrange(256)))
            octets[place : place + 1] = bytes([octet])
    if len(octets) >= 4 and chance.random() < 0.8:
        octets[2:4] = len(octets).to_bytes(2, "big")
    return bytes(octets)


def main(program, seed=None):
    base = datagrams_of(*scripts())
    seed = int(seed) if seed else random.SystemRandom().randrange(10**9)
    print(f"seed {seed}", file=sys.stderr)
    chance = random.Random(seed)
    kinds = {
        "prefixes": [it[:length] for it in base for length in range(1, len(it))],
        "one octet changed": [changed for it in base for changed in changed_octets(it)],
        f"changed at random, seed {seed}": [changed_at_random(chance, base) for _ in range(MANY)],
    }
    done = [check(program, name, datagrams) for name, datagrams in kinds.items()]
    print(f"{sum(done)} passed, {len(done) - sum(done)} failed")
    return 0 if all(done) else 1


if __name__ == "__main__":
    sys.exit(main(*sys.argv[1:]))
