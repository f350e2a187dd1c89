"""A limit on the size of files (`ulimit -f`), for kept.py. A write beyond it would end a program by a signal; a run tells
that the file is full."""
import os
import re
import resource

from kept_apart import in_file
from kept_devices import Device, Log, serve
from kept_parts import FULL, begun, fill, names, octets, together, whole
from kept_rounds import said

ITEMS = "SELECT id, last, stamp, value, datum, flags FROM items ORDER BY id"
LONG = "--timeout=5000"


def at_most(size):
    """Called before a program that may make no file longer. The signal does what it does by itself."""
    return lambda: resource.setrlimit(resource.RLIMIT_FSIZE, (size, size))


def is_full(file):
    """How a run ends whose file would get longer than it may, and what it tells."""
    return 6, f"file fault\n{file}: database or disk is full\n"


def file_limits(judge, _runs):
    """What fits under a limit is kept, and a run without one goes on with exactly the rest."""
    device, file = Device([Log(1, 40000)], "limited"), f"{judge.room}/limited.db"
    serve([device])
    device.logs[1].log(300)
    judge.same("without a limit", judge.ran(["keep", file, device.address, "1", LONG]), (0, said(device, 300, 0, "caught up, next 301"), ""))
    device.logs[1].log(16000)
    judge.judge("before the limits", file, [device])
    before = in_file(f"{file}.copy", ITEMS)
    # A step takes some 40 kB of the log beside the file, where its frames stay until the run ends.
    for more in (0, 16384, 200000, 400000, 600000):
        most = os.path.getsize(file) + more
        status, _, errors = judge.ran(["keep", file, LONG], preexec_fn=at_most(most))
        judge.same(f"at most {most} octets", (status, errors), is_full(file))
        judge.judge(f"at most {most} octets, the rows", file, [device])
        kept = in_file(f"{file}.copy", ITEMS)
        judge.is_right(f"at most {most} octets, the rows of before", kept[: len(before)] == before, f"{len(before)} and {len(kept)} rows")
        before = kept
    judge.is_right("what fits is kept", 300 < len(before) < 16300, len(before))
    device.questions.clear()
    device.fits = (45,)
    rest = said(device, 16300 - len(before), 0, "caught up, next 16301")
    judge.same("without a limit the rest", judge.ran(["keep", file, LONG]), (0, rest, ""))
    # It is asked from the first of the three newest that are kept on, then each time from the last that came, and never for its
    # oldest ones.
    judge.is_right("nothing is asked for twice", device.questions == sorted(set(device.questions)) and device.questions[0] == len(before) - 2,
                   (len(before), device.questions))
    judge.judge("all of it", file, [device], True)


def part_limits(judge, _runs):
    """The next part of a folder is begun under a limit: the part before stays as it is, and a run without one goes on."""
    device, folder = begun(judge, "limited_parts")
    first, second = f"{folder}/000001.db", f"{folder}/000002.db"
    judge.ran(["keep", folder, device.address, LONG])
    fill(first)
    device.logs[1].log(16000)
    before, merged = octets(first), f"{judge.room}/merged.db"
    size = os.path.getsize(first)
    for most in (4096, 40960, 200000, size, size + 100000):
        status, _, errors = judge.ran(["keep", folder, *FULL, LONG], preexec_fn=at_most(most))
        judge.same(f"a part of at most {most} octets", (status, errors), is_full(second))
        judge.same(f"a part of at most {most} octets, the first", octets(first) == before, True)
        judge.judge(f"a part of at most {most} octets, the rows", together(folder, merged), [device])
    kept = in_file(merged, "SELECT count(*) FROM items WHERE last IS NULL")[0][0]
    judge.is_right("what fits is kept in the next part", 24 < kept < 16024, kept)
    # It may be full by now: it is the usual size at which no further one is begun.
    status, out, errors = judge.ran(["keep", folder, LONG])
    records = sum(int(count) for count in re.findall(r" (\d+) records? ", out))
    judge.same("without a limit the rest", (status, errors, records), (0, "", 16024 - kept))
    judge.same("it is in the next part", (names(folder), octets(first) == before), (["000001.db", "000002.db"], True))
    whole(judge, "both parts", folder, [device])
