"""Logs that aren't asked any more, for kept.py."""
import os

from kept_apart import in_file
from kept_judge import no_use
from kept_rounds import one, said


def stopped(judge, _runs):
    """Logs that are stopped stay in the file and aren't asked; what `--stop` doesn't find changes nothing. Its lines are of what it
    stops, by their ids: of a device that is named without its logs that, and each of them."""
    (first, log), (second, other) = one(count=3), one(count=2)
    far, _ = one(way=(5, b"\x07"), count=1)
    file = f"{judge.room}/a.db"
    for device in (first, second):
        judge.ran(["keep", file, device.address, "1"])
    judge.ran(["keep", file, far.address, "1", "--dnet=5", "--dadr=07"])
    asked = first.asked + second.asked + far.asked
    judge.same("stopped", judge.ran(["keep", file, "--stop", first.address]), (0, f"{first.address} stopped\n{first.address} 1 stopped\n", ""))
    judge.same("stopped again", judge.ran(["keep", file, first.address, "1", "--stop"]), (0, "", ""))
    judge.same("no device is at the router", judge.ran(["keep", file, "--stop", far.address]), no_use(file, "it has no such device"))
    judge.same("behind the router", judge.ran(["keep", file, "--stop", far.address, "--dnet=5", "--dadr=07"]),
               (0, f"{far.address}/5/07 stopped\n{far.address}/5/07 1 stopped\n", ""))
    judge.same("one that isn't there", judge.ran(["keep", file, "--stop", second.address, "1", "2"]), no_use(file, "it has no such trend log"))
    judge.same("nobody is asked", first.asked + second.asked + far.asked, asked)
    log.log(1)
    other.log(1)
    judge.same("the others go on", judge.ran(["keep", file]), (0, said(second, 1, 0, "caught up, next 4"), ""))
    lines = judge.ran(["kept", file])[1].splitlines()
    judge.same("kept tells it", [line for line in lines if line.startswith("127.")],
               [f"{first.address} 1 stopped", f"{second.address} 1", f"{far.address}/5/07 1 stopped"])
    judge.same("what was kept stays", len(lines), 10)
    judge.same("by its instance", judge.ran(["keep", file, "--stop", second.address, "1"]), (0, f"{second.address} 1 stopped\n", ""))
    judge.same("none is left", judge.ran(["keep", file]), (0, "", ""))
    rows = "SELECT l.id, d.address, d.stopped, l.instance, l.stopped FROM logs l JOIN devices d ON d.id = l.device ORDER BY l.id"
    judge.same("their rows", in_file(file, rows), [(1, first.address, 1, 1, 1), (2, second.address, 0, 1, 1), (3, far.address, 1, 1, 1)])
    # One that is named again is polled again, and so is its device.
    log.log(1)
    judge.same("named again", judge.ran(["keep", file, first.address, "1"]), (0, said(first, 2, 0, "caught up, next 6"), ""))
    judge.same("named again: its row", in_file(file, rows)[0], (1, first.address, 0, 1, 0))
    absent = f"{judge.room}/none.db"
    judge.same("no file", judge.ran(["keep", absent, "--stop", first.address]), no_use(absent, "there is no such file"))
    judge.is_right("none is made", not os.path.exists(absent))
    judge.same("--stop beside two", judge.ran(["keep", file, "--stop", first.address, second.address]),
               (1, "", "bad value\n--stop: an option without a value, beside one ADDRESS\n"))
    judge.same("--stop alone", judge.ran(["keep", file, "--stop"]),
               (1, "", "bad value\n--stop: an option without a value, beside one ADDRESS\n"))
