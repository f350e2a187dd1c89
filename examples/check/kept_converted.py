"""Archives of format 2 of which convert.sh made ones of format 3, for kept.py: `bac keep` goes on in them."""
import os
import subprocess

from kept_apart import in_file, line
from kept_devices import LAST, Device, Log, serve
from kept_judge import no_use
from kept_parts import begun, fill, names, whole
from warehouse_files import older

CONVERT = os.path.realpath(os.path.join(os.path.dirname(__file__), "../use/convert.sh"))
EARLIER = "it is an archive of format 1 or 2: examples/use/convert.sh converts format 2"


def converted(judge, old, new):
    ran = subprocess.run([CONVERT, old, new], stdin=subprocess.DEVNULL, capture_output=True, text=True, timeout=60)
    judge.same(f"{os.path.basename(old)} is converted", (ran.returncode, ran.stdout, ran.stderr), (0, "", ""))


def converted_files(judge, _runs):
    """A file, with a gap, numbers that came round, an empty log and a stopped one; and the parts of a folder."""
    device = Device([Log(1, 50), Log(2, 50), Log(3, 50), Log(4, 50)], "converted")
    serve([device])
    first, second, third, fourth = device.logs.values()
    second.begin(LAST - 5)
    for log, count in ((first, 20), (second, 9), (fourth, 4)):
        log.log(count)
    three, two, new = (f"{judge.room}/{name}.db" for name in ("three", "two", "new"))
    judge.ran(["keep", three, device.address, *map(str, device.logs)])
    first.log(70)
    judge.ran(["keep", three])
    judge.ran(["keep", three, "--stop", device.address, "4"])
    older(three, two)
    for tool in ("keep", "kept", "check"):
        judge.same(f"{tool} of format 2", judge.ran([tool, two]), no_use(two, EARLIER))
    converted(judge, two, new)
    for log, count in ((first, 7), (second, 3), (third, 2), (fourth, 5)):
        log.log(count)
    new_ones = [line(device, at, count, f"caught up, next {device.logs[at].total + 1}") for at, count in ((1, 7), (2, 3), (3, 2))]
    judge.tells("it goes on", judge.ran(["keep", new]), 0, *new_ones)
    fourth.log(1)
    judge.tells("the stopped one is named", judge.ran(["keep", new, device.address, "4"]), 0,
                *(line(device, at, 6 * (at == 4), f"caught up, next {device.logs[at].total + 1}") for at in (1, 2, 3, 4)))
    judge.judge("it goes on", new, [device], True)
    judge.same("its device is known again", in_file(new, "SELECT instance FROM devices"), [(device.number,)])
    converted_parts(judge)


def converted_parts(judge):
    device, folder = begun(judge, "parts", 30)
    judge.ran(["keep", folder, device.address])
    fill(f"{folder}/000001.db")
    device.logs[1].log(20)
    judge.ran(["keep", folder, "--part=1"])
    old, new = f"{judge.room}/old", f"{judge.room}/new"
    os.mkdir(old)
    for name in names(folder):
        older(f"{folder}/{name}", f"{old}/{name}")
    converted(judge, old, new)
    device.logs[1].log(5)
    device.logs[3].log(2)
    judge.same("parts go on", (judge.ran(["keep", new])[0], names(new)), (0, ["000001.db", "000002.db"]))
    whole(judge, "parts that were converted", new, [device])
    judge.same("parts that were converted are whole", judge.ran(["check", new])[0], 0)
