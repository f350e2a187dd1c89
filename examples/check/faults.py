#!/usr/bin/env python3
"""Refuses memory, reads, writes and sockets to the built programs, one call after the other; sees how
long their receives wait, and sets the clock that they look at.

    examples/check/faults.py PROGRAM [VECTORS]

faults.c, which `$CC` or `cc` compiles, is loaded into the program and refuses its k-th call: for
every k until a run has no k-th one. VECTORS is a built `bac_vectors`, crates/bac_vectors/out's if it
is left out: its rows that make a trend log are played in the same way. The last line is `N passed, M
failed`.
"""

import errno
import os
import random
import socket
import subprocess
import sys
import tempfile
import threading
import time
from concurrent.futures import ThreadPoolExecutor

FOLDER = os.path.dirname(os.path.abspath(__file__))
EXAMPLES = os.path.dirname(FOLDER)
EVERY = 10**9  # calls refused, from the k-th on
MEMORY = b"out of memory\n"
SCRIPTS = ("walk", "resumed-walk", "source-of-each-kind")


class Wrong(Exception):
    pass


def text_of(name):
    with open(os.path.join(EXAMPLES, name), "rb") as file:
        return file.read()


class Ended:
    """How a run ended, and how many of its calls were refused."""

    def __init__(self, program, words, given=b"", **refusal):
        reads, tells = os.pipe()
        refused = {name: str(value) for name, value in refusal.items()}
        run = subprocess.run(
            [program, *words],
            input=given,
            capture_output=True,
            env={"LD_PRELOAD": LIBRARY, "TOLD": str(tells), **refused},
            pass_fds=[tells],
            timeout=60,
        )
        os.close(tells)
        with open(reads, "rb") as told:
            self.refused = len(told.read())
        self.status, self.output, self.errors = run.returncode, run.stdout, run.stderr

    def must(self, status, output, errors):
        if (self.status, self.output, self.errors) != (status, output, errors):
            raise Wrong(
                f"status {self.status}, output {self.output!r}, standard error {self.errors!r}\n"
                f"wanted: {status}, {output!r}, {errors!r}"
            )


def each(judge, *run, **refusal):
    """Refuses the first call, the second and so on, until there is none; how many there were."""
    for at in range(1, 100_000):
        ended = Ended(*run, **refusal, AT=at)
        if not ended.refused:
            return at - 1
        try:
            judge(at, ended)
        except Wrong as wrong:
            raise Wrong(f"{refusal}, call {at}: {wrong}") from None
    raise Wrong("no end of calls")


# ---- memory


def without_memory(program, words, given=b"", status=0, output=b"", errors=b"", judge=None, again=False):
    """Each allocation refused, alone and with all behind it; `again` if what was refused alone may be
    asked for once more, and all be done."""
    done = (status, output, errors)

    def judged(_, ended):
        # Nothing is asked for beyond need, so nothing is done as if there had been memory.
        if (ended.status, ended.output, ended.errors) == done:
            if again and ended.refused == 1:
                return
            raise Wrong("all was done without it")
        if judge:
            judge(ended)
        else:
            ended.must(5, front(output, ended.output), MEMORY)

    Ended(program, words, given).must(*done)
    run = (program, words, given)
    found = [each(judged, *run, CALL="malloc", MANY=many, ERROR=errno.ENOMEM) for many in (1, EVERY)]
    if min(found) < 20:
        raise Wrong(f"only {found} allocations were refused")
    return f"{found[0]} allocations"


def front(whole, printed):
    """What was printed, if that is a front part of the whole that ends with a line."""
    if not whole.startswith(printed) or printed[-1:] not in (b"", b"\n"):
        raise Wrong(f"output {printed!r}\nwanted: a front part of {whole!r}")
    return printed


def script_without_memory(program, name):
    """The output ends behind an event: without memory nothing of a walk is written."""
    script, output = text_of(f"scripts/{name}.script"), text_of(f"scripts/{name}.out")
    ends = [at for at, octet in enumerate(script, 1) if octet == ord("\n")]
    fronts = {b"", *(lines_before(script, output, at) for at in ends)}

    def judge(ended):
        if ended.output not in fronts:
            raise Wrong(f"output {ended.output!r}\nwanted: a front part, up to an event, of {output!r}")
        ended.must(5, ended.output, MEMORY)

    return without_memory(program, ["replay"], script, 0, output, b"", judge)


def words_without_memory(program):
    usage = Ended(program, ["rp"])
    rp = ["rp", "10.0.0.1"]
    bad = b"bad value\nTYPE: a number from 0 to 1023\n"
    served = ["serve", "127.77.77.77:47813", "--count=0"]
    up = b"serving 127.77.77.77:47813\n"
    return [
        ("memory of help", without_memory, program, ["log", "--help"], b"", 0, text_of("check/log.help")),
        ("memory of a mistake", without_memory, program, ["rp"], b"", 1, b"", usage.errors),
        ("memory of a bad value", without_memory, program, [*rp, "1024", "1", "77"], b"", 1, b"", bad),
        ("memory of a server", without_memory, program, served, text_of("use/plant.conf"), 0, b"", up),
    ]


def walk_without_memory(program, words, whole):
    """A walk prints whole lines, and as the last one the number behind them, if there is memory for it."""
    *records, _ = whole.splitlines(keepends=True)
    resumed = []

    def judge(ended):
        printed = ended.output.splitlines(keepends=True)
        lines = [line for line in printed if line in records]
        if lines != records[: len(lines)]:
            raise Wrong(f"output {ended.output!r}\nwanted: a front part of {whole!r}")
        end = b"out of memory, next %d\n" % (len(lines) + 1)
        if printed[len(lines) :] == [end]:
            resumed.append(len(lines))
            ended.must(5, b"".join([*lines, end]), b"")
        else:
            ended.must(5, b"".join(lines), MEMORY)

    # Lines that found no memory while an answer was on its way are made again once it is there.
    found = without_memory(program, words, b"", 0, whole, b"", judge, again=True)
    if not any(resumed):
        raise Wrong("memory has never ended a walk behind its first records")
    return found


def rows_without_memory(vectors):
    """A row that makes a log is answered by its fault where memory is refused; or the program ends."""
    rows = [it for it in text_of("vectors/logs.vectors").splitlines() if it and not it.startswith(b"#")]
    made = []
    for call, answer in (row.split(b" -> ") for row in rows):
        # The rows that make a log, alone: the calls after one would answer of the log before it.
        if call.split()[0] in (b"log", b"replay", b"replay_nothing") and answer != b"BadCapacity":
            made.append((call, answer))

    told = []

    def judge(_, ended):
        if (ended.status, ended.output) == (0, b"Memory\n"):
            told.append(ended)
        elif not ended.status or ended.output:
            raise Wrong(f"status {ended.status}, output {ended.output!r}")

    count = 0
    for call, answer in made:
        told.clear()
        Ended(vectors, [], call + b"\n").must(0, answer + b"\n", b"")
        count += each(judge, vectors, [], call + b"\n", CALL="malloc", MANY=1, ERROR=errno.ENOMEM)
        if not told:
            raise Wrong(f"{call}: that memory ran out is never told")
    if not made:
        raise Wrong("no row makes a log")
    return f"{len(made)} rows, {count} allocations"


# ---- standard streams


def lines_before(script, output, size):
    """What the lines say whose line feeds are among so many octets of a script, from the output of all."""
    lines = output.splitlines(keepends=True)
    said = b""
    for line in script[:size].splitlines(keepends=True):
        word = line.split(b" ")[0]
        if not line.endswith(b"\n") or word not in (b"rx", b"sample", b"clock", b"walk"):
            continue
        # A walk has all lines up to that of its end, the other events one each.
        while word == b"walk" and b", next " not in lines[0] and lines[0] != b"no walk\n":
            said += lines.pop(0)
        said += lines.pop(0)
    return said


def reads_refused(program, name):
    """Each read refused, where each brings an octet and where it brings what it can; and interrupted."""
    script, output = text_of(f"scripts/{name}.script"), text_of(f"scripts/{name}.out")
    if lines_before(script, output, len(script)) != output:
        raise Wrong("the script and its output don't belong together")
    run = (program, ["replay"], script)

    def refused(at, ended):
        ended.must(2, lines_before(script, output, at - 1), b"read fault\n")

    def interrupted(_, ended):
        ended.must(0, output, b"")

    found = each(refused, *run, CALL="read", MANY=1, ERROR=errno.EIO, SHORT=1)
    # An octet each, and the end.
    if found != len(script) + 1:
        raise Wrong(f"{found} reads of {len(script)} octets")
    each(refused_whole(script, output), *run, CALL="read", MANY=1, ERROR=errno.EIO)
    # A bad line is the fault, though a read behind it was refused.
    bad = (program, ["replay"], b"device 123 plant 0 1476 2024-05-06T07:08:09.10\nrx 8\n")
    told = b"line 2: bad line\nword 2: 2 to 3002 hexadecimal digits, an even number\n"
    Ended(*bad, CALL="read", AT=2, MANY=1, ERROR=errno.EIO).must(1, b"", told)
    each(interrupted, *run, CALL="read", MANY=1, ERROR=errno.EINTR)
    return f"{found} reads"


def refused_whole(script, output):
    """The first read takes all of a small script, and the next one finds its end."""

    def judge(at, ended):
        ended.must(2, lines_before(script, output, len(script) if at > 1 else 0), b"read fault\n")

    return judge


def writes_refused(program, name):
    """Each write refused, where each takes an octet: the output ends there, whatever was left to write."""
    script, output = text_of(f"scripts/{name}.script"), text_of(f"scripts/{name}.out")
    run = (program, ["replay"], script)

    def refused(at, ended):
        ended.must(2, output[: at - 1], b"write fault\n")

    def interrupted(_, ended):
        ended.must(0, output, b"")

    found = each(refused, *run, CALL="write", MANY=1, ERROR=errno.ENOSPC, SHORT=1)
    if found != len(output):
        raise Wrong(f"{found} writes of {len(output)} octets")
    each(lambda _, ended: ended.must(2, b"", b"write fault\n"), *run, CALL="write", MANY=1, ERROR=errno.EIO)
    each(interrupted, *run, CALL="write", MANY=1, ERROR=errno.EINTR)
    return f"{found} writes"


def tool_writes_refused(program, at, peer):
    """The same of what the tools print."""
    found = f"I-Am 123 {at} max-apdu 1476 segmentation 3 vendor 0\n".encode()
    counts = []
    for words, whole in (
        (["rp", at, "8", "123", "77"], b'"plant"\n'),
        (["log", peer, "1", "1"], WALKED),
        (["wi", at, "--timeout=100"], found),
    ):

        def refused(call, ended, whole=whole):
            ended.must(2, whole[: call - 1], b"write fault\n")

        counts.append(each(refused, program, words, CALL="write", MANY=1, ERROR=errno.ENOSPC, SHORT=1))
        if counts[-1] != len(whole):
            raise Wrong(f"{words}: {counts[-1]} writes of {len(whole)} octets")
    return f"{counts} writes"


def version_refused(program):
    whole = Ended(program, ["--version"]).output
    run = (program, ["--version"])

    def refused(at, ended):
        ended.must(2, whole[: at - 1], b"write fault\n")

    return f"{each(refused, *run, CALL='write', MANY=1, ERROR=errno.EIO, SHORT=1)} writes"


def lines_refused(program):
    """What is told of a fault, and that a server is up, is one write; if that is refused the status stays."""
    for words, given, status in (
        (["rp", "10.0.0.1", "1024", "1", "77"], b"", 1),
        (["rp", "127.77.77.77:9", "8", "123", "77", "--timeout=1", "--retries=0"], b"", 2),
        (["replay"], b"rx 8\n", 1),
        (["serve", "127.77.77.77:47816", "--count=0"], text_of("use/plant.conf"), 0),
    ):
        run = (program, words, given)
        if not Ended(*run).errors:
            raise Wrong(f"{words}: nothing is told")
        found = each(lambda _, it: it.must(status, b"", b""), *run, CALL="tell", MANY=1, ERROR=errno.EIO)
        if found != 1:
            raise Wrong(f"{words}: {found} writes on standard error")
    return "one write each"


def configuration_refused(program):
    configuration = b"".join(text_of("use/plant.conf").splitlines(keepends=True)[2:4])
    run = (program, ["serve", "127.77.77.77:47813", "--count=0"], configuration)
    Ended(*run).must(0, b"", b"serving 127.77.77.77:47813\n")

    def refused(_, ended):
        ended.must(2, b"", b"read fault\n")

    return f"{each(refused, *run, CALL='read', MANY=1, ERROR=errno.EIO, SHORT=1)} reads"


# ---- sockets


class Server:
    """A device that is served, perhaps with refused calls."""

    def __init__(self, program, configuration, words=(), **refusal):
        for _ in range(50):
            self.at = f"127.0.0.1:{random.randrange(20000, 50000)}"
            self.run = subprocess.Popen(
                [program, "serve", self.at, *words],
                stdin=subprocess.PIPE,
                stdout=subprocess.PIPE,
                stderr=subprocess.PIPE,
                env={"LD_PRELOAD": LIBRARY, "TOLD": "2", **{name: str(it) for name, it in refusal.items()}},
            )
            self.run.stdin.write(configuration)
            self.run.stdin.close()
            for _ in range(50):
                if Ended(program, ["wi", self.at, "--timeout=200"]).status == 0:
                    return
                if self.run.poll() is not None:
                    break
            self.ended()
        raise Wrong("no server")

    def __enter__(self):
        return self

    def ended(self):
        self.run.kill()
        self.run.wait()
        self.run.stdout.close()
        self.run.stderr.close()

    def __exit__(self, *_):
        self.ended()


# The moment 2024-05-06 07:08:09.10, a Monday, in its tags 0e and 0f.
MOMENT = "0e a47c050601 b40708090a 0f"
SHORT = MOMENT + "1e 3900 1f 2a0400"
LONG = MOMENT + "1e 6d050080000001 1f"
# What is asked, and the log's answer: two records each time, and the text of the second two is longer.
ASKED = {
    "6e 2101 3164 6f": f"3a05a0 4902 5e {SHORT} {SHORT} 5f 6901",
    "6e 2103 3164 6f": f"3a0540 4902 5e {LONG} {LONG} 5f 6903",
    "6e 2105 3164 6f": "3a0500 4900 5e 5f",
    "7e a400010101 b400000000 3164 7f": f"3a05a0 4902 5e {SHORT} {SHORT} 5f 6901",
}
WALKED = b"""1 2024-05-06T07:08:09.10 enum(0) 0000
2 2024-05-06T07:08:09.10 enum(0) 0000
3 2024-05-06T07:08:09.10 bits(10000000000000000000000000000001) -
4 2024-05-06T07:08:09.10 bits(10000000000000000000000000000001) -
caught up, next 5
"""


class Peer:
    """Answers for Trend Log 1 what ASKED says."""

    def __init__(self):
        self.socket = socket.socket(socket.AF_INET, socket.SOCK_DGRAM)
        self.socket.bind(("127.0.0.1", 0))
        self.at = "127.0.0.1:%d" % self.socket.getsockname()[1]
        threading.Thread(target=self.answer, daemon=True).start()

    def answer(self):
        answers = {bytes.fromhex(asked): bytes.fromhex(said) for asked, said in ASKED.items()}
        log = bytes.fromhex("0c05000001 1983")
        while True:
            octets, sender = self.socket.recvfrom(4096)
            # BVLC, NPDU, four octets of the request's head, of which the third is the invoke ID.
            if octets[10:17] == log and octets[17:] in answers:
                said = b"\x30" + octets[8:9] + b"\x1a" + log + answers[octets[17:]]
                size = len(said) + 6
                self.socket.sendto(b"\x81\x0a" + size.to_bytes(2, "big") + b"\1\0" + said, sender)


UNANSWERED = (
    b"no answer\naddresses asked: 1; devices that answer by broadcast are only heard with --local=0.0.0.0:47808\n"
)


def tools_without_memory(program, at, peer):
    write = ["wp", at, "5", "1", "85", "16", "9", "--value=1"]
    silent = ["wi", "127.77.77.77:9", "--timeout=1"]
    return [
        ("memory of rp", without_memory, program, ["rp", at, "8", "123", "77"], b"", 0, b'"plant"\n'),
        ("memory of wp", without_memory, program, write, b"", 0, b"written\n"),
        ("memory of wi", without_memory, program, silent, b"", 2, b"", UNANSWERED),
        ("memory of log", walk_without_memory, program, ["log", peer, "1", "1"], WALKED),
        ("memory of log oldest", walk_without_memory, program, ["log", peer, "1", "oldest"], WALKED),
    ]


def lost_at(at):
    return f"lost\nno reply from {at}\n".encode()


def unsent_to(at):
    return f"lost\nnothing could be sent to {at}\n".encode()


FORBIDDEN = b"socket fault\nthe system doesn't permit it\n"


def no_socket(_, ended):
    ended.must(2, b"", FORBIDDEN)


def sockets_refused(program, at):
    """A socket that can't be had, bound or set; sends and receives that fail once, or each time."""
    asked = (program, ["rp", at, "8", "123", "77", "--timeout=200"])
    whole = b'"plant"\n'

    def unset(call, ended):
        # The second one asks for room for what comes at once: it goes on without.
        if call == 2:
            ended.must(0, whole, b"")
        else:
            no_socket(call, ended)

    for call, judge in (("socket", no_socket), ("bind", no_socket), ("setsockopt", unset)):
        for many in (1, EVERY):
            each(judge, *asked, CALL=call, MANY=many, ERROR=errno.EPERM)
    for call, lost in (("sendto", unsent_to(at)), ("recvfrom", lost_at(at))):
        # Asked again after a failure; after as many as there are asks, lost.
        for many in (1, 2, 3):
            Ended(*asked, CALL=call, AT=1, MANY=many, ERROR=errno.ENETDOWN).must(0, whole, b"")
        for many in (4, EVERY):
            ended = Ended(*asked, CALL=call, AT=1, MANY=many, ERROR=errno.ENETDOWN)
            ended.must(2, b"", lost)
            if ended.refused != 4:
                raise Wrong(f"{ended.refused} {call} refused, and 4 are wanted")
    # A send that took fewer octets than it was given has failed, whatever is answered to it.
    Ended(*asked, CALL="sendto", AT=1, MANY=EVERY, ERROR=0).must(2, b"", unsent_to(at))
    # What a search has printed stays where a receive fails behind it.
    search = (program, ["wi", at, "--timeout=200"])
    found = f"I-Am 123 {at} max-apdu 1476 segmentation 3 vendor 0\n".encode()
    # Of the two receives before it one brings the answer: a look at what waits, or the wait behind it.
    Ended(*search, CALL="recvfrom", AT=3, MANY=1, ERROR=errno.EIO).must(2, found, b"socket fault\n")
    # A receive that a signal interrupts is made again, however many do: nothing is asked anew.
    once = (program, [*asked[1], "--retries=0"])
    for many in (1, 2, 3, 4, 5, 6, 300):
        Ended(*once, CALL="recvfrom", AT=1, MANY=many, ERROR=errno.EINTR).must(0, whole, b"")
    return "done"


def waits(program, configuration):
    """Each receive waits as long as the words say, to the microsecond. None is waited for: the system says at once
    that nothing came."""

    def waited(words, given, refusal, wanted):
        reads, writes = os.pipe()
        env = {"LD_PRELOAD": LIBRARY, "TOLD": "2", "WAITS": str(writes), "CALL": "recvfrom", "AT": "1"}
        subprocess.run(
            [program, *words],
            input=given,
            capture_output=True,
            env={**env, "MANY": str(EVERY), "ERROR": str(refusal)},
            pass_fds=[writes],
            timeout=60,
        )
        os.close(writes)
        with open(reads) as told:
            found = [int(line) for line in told]
        if found != wanted:
            raise Wrong(f"{words}: receives that wait {found} microseconds, and {wanted} are wanted")

    at = "127.77.77.77:9"
    for timeout in (1, 7, 99, 101, 150, 200, 999, 1001, 2999, 30001, 59999, 60000):
        option, wanted = f"--timeout={timeout}", timeout * 1000
        for tool in (["rp", at, "8", "123", "77"], ["wp", at, "5", "1", "85", "8", "0"], ["log", at, "1", "1"]):
            waited([*tool, option, "--retries=1"], b"", errno.EAGAIN, [wanted] * 2)
        waited(["wi", at, option], b"", errno.EAGAIN, [wanted])
    waited(["rp", at, "8", "123", "77"], b"", errno.EAGAIN, [3_000_000] * 4)
    waited(["wi", at], b"", errno.EAGAIN, [3_000_000])
    served = ["serve", "127.77.77.77:47817", "--count=1"]
    waited(served, text_of("use/plant.conf"), errno.EIO, [200_000])
    waited(served, configuration, errno.EIO, [0])
    return "done"


def looks_at_the_clock(program, configuration):
    """A device's time is the clock's when it was looked at last, to a hundredth: one look for each datagram."""
    with Server(program, configuration, STEP=123) as server:
        found = [Ended(program, ["rp", server.at, "8", "123", "57"]).output.decode() for _ in range(12)]
    moments = []
    for line in found:
        hours, minutes, seconds = line.removeprefix("time(").removesuffix(")\n").split(":")
        moments.append(round(100 * (3600 * int(hours) + 60 * int(minutes) + float(seconds))))
    begin = 100 * (3600 * 7 + 60 * 8 + 9)
    wanted = [moments[0] + 123 * turn for turn in range(12)]
    if moments != wanted or (moments[0] - begin) % 123 or moments[0] <= begin:
        raise Wrong(f"the device says {found}")
    return "done"


def server_refused(program, configuration):
    """A reply that can't be sent is dropped, and serving goes on; a receive that fails ends the server."""
    with Server(program, configuration, CALL="sendto", AT=2, MANY=1, ERROR=errno.EPERM) as server:
        asked = ["rp", server.at, "8", "123", "77"]
        Ended(program, [*asked, "--retries=0", "--timeout=300"]).must(2, b"", lost_at(server.at))
        Ended(program, asked).must(0, b'"plant"\n', b"")
    # What was written stays written though its acknowledgement can't be sent.
    with Server(program, configuration, CALL="sendto", AT=2, MANY=1, ERROR=errno.EPERM) as server:
        write = ["wp", server.at, "5", "1", "85", "8", "9", "--value=1", "--retries=0", "--timeout=300"]
        Ended(program, write).must(2, b"", lost_at(server.at))
        Ended(program, ["rp", server.at, "5", "1", "85"]).must(0, b"enum(1)\n", b"")
    run = (program, ["serve", "127.77.77.77:47814", "--count=1"], configuration)
    # It was up before that.
    failed = b"serving 127.77.77.77:47814\nsocket fault\n"
    Ended(*run, CALL="recvfrom", AT=1, MANY=1, ERROR=errno.EIO).must(2, b"", failed)
    for call in ("socket", "bind"):
        Ended(*run, CALL=call, AT=1, MANY=1, ERROR=errno.EPERM).must(2, b"", FORBIDDEN)
    return "done"


def served_without_memory(program, configuration):
    """Once it serves, a server takes no memory: each allocation behind its start would be refused."""
    start = (program, ["serve", "127.77.77.77:47815", "--count=0"], configuration)
    taken = each(lambda *_: None, *start, CALL="malloc", MANY=1, ERROR=errno.ENOMEM)
    refused = {"CALL": "malloc", "AT": taken + 1, "MANY": EVERY, "ERROR": errno.ENOMEM}
    with Server(program, configuration, **refused) as server:
        enable = ["wp", server.at, "20", "2", "133", "0", "1"]
        for value in (1, 0, 1):
            Ended(program, [*enable, f"--value={value}"]).must(0, b"written\n", b"")
        ended = Ended(program, ["log", server.at, "2", "1"])
        if ended.status or not ended.output.endswith(b"\ncaught up, next 3\n"):
            raise Wrong(f"the log is read as {ended.output!r}")
        Ended(program, ["rp", server.at, "8", "123", "77"]).must(0, b'"plant"\n', b"")
        for octets in datagrams():
            with socket.socket(socket.AF_INET, socket.SOCK_DGRAM) as stranger:
                stranger.sendto(octets, ("127.0.0.1", int(server.at.split(":")[1])))
        Ended(program, ["rp", server.at, "8", "123", "77"]).must(0, b'"plant"\n', b"")
        if server.run.poll() is not None:
            raise Wrong("the server has ended")
        os.set_blocking(server.run.stderr.fileno(), False)
        if server.run.stderr.read() != f"serving {server.at}\n".encode():
            raise Wrong("the server has asked for memory")
    return f"{taken} allocations before it serves"


def datagrams():
    sys.dont_write_bytecode = True
    sys.path.insert(0, FOLDER)
    import hostile

    return hostile.datagrams_of(*hostile.scripts())


# ---- all of them


def played(name, check, *words):
    began = time.monotonic()
    try:
        found = check(*words)
    except (Wrong, OSError, subprocess.TimeoutExpired) as wrong:
        print(f"{name}: {wrong}")
        return False
    print(f"{name}: {found} ({time.monotonic() - began:.1f} s)", file=sys.stderr)
    return True


def main(program, vectors=os.path.join(FOLDER, "../../crates/bac_vectors/out/bac_vectors")):
    program, vectors = os.path.realpath(program), os.path.realpath(vectors)
    configuration = text_of("use/plant.conf").replace(b" 100 0\n", b" 0 0\n")
    with Server(program, configuration) as server, ThreadPoolExecutor(4) as pool:
        checks = [
            *tools_without_memory(program, server.at, Peer().at),
            *((f"memory of {name}", script_without_memory, program, name) for name in SCRIPTS),
            *words_without_memory(program),
            ("reads", reads_refused, program, "walk"),
            ("writes", writes_refused, program, "walk"),
            ("writes of the tools", tool_writes_refused, program, server.at, Peer().at),
            ("the version", version_refused, program),
            ("lines on standard error", lines_refused, program),
            ("a configuration", configuration_refused, program),
            ("sockets", sockets_refused, program, server.at),
            ("the socket of a server", server_refused, program, configuration),
            ("waits", waits, program, configuration),
            ("looks at the clock", looks_at_the_clock, program, configuration),
            ("memory of a server that serves", served_without_memory, program, configuration),
            ("memory of trend logs", rows_without_memory, vectors),
        ]
        done = list(pool.map(lambda it: played(*it), checks))
    print(f"{sum(done)} passed, {len(done) - sum(done)} failed")
    return 0 if all(done) else 1


if __name__ == "__main__":
    with tempfile.TemporaryDirectory() as room:
        LIBRARY = os.path.join(room, "faults.so")
        compiler = [os.environ.get("CC", "cc"), "-shared", "-fPIC", "-o", LIBRARY]
        if subprocess.run([*compiler, os.path.join(FOLDER, "faults.c")]).returncode:
            print("faults.c isn't compiled", "0 passed, 1 failed", sep="\n")
            sys.exit(1)
        sys.exit(main(*sys.argv[1:]))
