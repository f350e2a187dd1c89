"""What nobody could tell afterwards if a device's word were taken at the wrong moment, for kept.py."""
from kept_apart import in_file, line, new_logs
from kept_devices import Device, Log, serve
from kept_rounds import one, said
from kept_words import HOUR, MORNING, told


def emptied(judge, _runs):
    """A log that began anew and holds nothing any more: what comes then is no record of the life before."""
    device, log = one(count=20)
    file = f"{judge.room}/emptied.db"
    told(device, MORNING, 1)
    judge.ran(["keep", file, device.address, "1"])
    told(device, MORNING + HOUR, 1)
    log.begin(0)
    log.log(30)
    log.purge()
    judge.same("nothing is held", judge.ran(["keep", file])[0], 0)
    log.clock -= HOUR
    log.log(2)
    judge.same("and then something", judge.ran(["keep", file])[0], 0)
    judge.judge("behind a life that was purged", file, [device], True)


def never_begun(judge, _runs):
    """A log that holds its first record went on from its beginning, however often its device was started."""
    device, log = one()
    file = f"{judge.room}/never.db"
    told(device, MORNING, 1)
    judge.ran(["keep", file, device.address, "1"])
    told(device, MORNING + HOUR, 1)
    log.log(3)
    judge.same("started, and its first record", judge.ran(["keep", file]), (0, said(device, 3, 0, "caught up, next 4"), ""))


class Overwriting(Device):
    """A full log: its first replies have one record and later ones thirty, and behind some of them it logs one more."""

    replies = 0

    def range_of(self, log, asked):
        self.replies += 1
        self.fits = (1,) if self.replies <= 5 else (30,)
        said = super().range_of(log, asked)
        log.log(5 <= self.replies < 9)
        return said


def overwritten(judge, _runs):
    """What follows the newest known record, where that was shown alone, is kept once it is shown again. It is overwritten by then:
    the log has gone on, and nothing tells of another life."""
    device, file = Overwriting([Log(1, 30)], "overwriting"), f"{judge.room}/overwritten.db"
    serve([device])
    device.logs[1].log(47)
    status, out, errors = judge.ran(["keep", file, device.address, "1"])
    judge.is_right("overwritten meanwhile", status == 0 and out.endswith(" caught up, next 52\n"), (status, out, errors))
    judge.lacks("overwritten", "overwritten meanwhile", ": began anew\n" not in errors)
    kept = in_file(file, "SELECT id & 4294967295 FROM items WHERE last IS NULL ORDER BY 1")
    judge.same("overwritten meanwhile: what is held is kept", [number for number, in kept], [18, 19, *range(21, 52)])


def told_at_once(judge, _runs):
    """Two devices that refused their instance tell the same one in one run: each is kept at its own address. So it is in a file
    that is new."""
    (first, _), (second, _) = one(count=1), one(count=1)
    file, number = f"{judge.room}/at_once.db", first.number
    first.number = second.number = None
    quick = ("--timeout=1000", "--retries=0")
    for device in (first, second):
        judge.ran(["keep", file, device.address, "1", *quick])
    first.number = second.number = number
    numbers = "SELECT instance FROM devices ORDER BY id"

    def kept(name, words, lines, wanted):
        ran = judge.ran(["keep", *words])
        judge.tells(name, ran, 0, *lines)
        judge.lacks("two", name, ran[0] == 3 or str(number) in ran[1] + ran[2])
        judge.same(f"{name}: on record", in_file(words[0], numbers), [(one,) for one in wanted])

    for name in ("told at once", "and again"):
        kept(name, [file], [line(device, 1, 0, "caught up, next 2") for device in (first, second)], [number, number])
    third, _ = one(count=1)
    site = [first, second, third]
    kept("a new file", [f"{judge.room}/new.db", *[device.address for device in site]],
         [new_logs(*site), *[line(device, 1, 1, "caught up, next 2") for device in site]], [number, number, third.number])
