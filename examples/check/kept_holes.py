"""Cases of `bac keep` over an archive in which numbers are missing, for kept.py: another program deleted rows. A run goes on as it
would without that and tells nothing of it, and `bac check` tells each stretch."""
from checked import HOLES, change, checks, lines, told
from kept_devices import Device, Log, serve
from kept_parts import FULL, ITEMS, begun, copied, fill, names, read, together
from kept_rounds import anew, dropped

OF_LOG = "id >> 47 = (SELECT id FROM logs WHERE instance = {})"


def row(instance, epoch, numbers):
    """The rows of an epoch of a log with these numbers."""
    return f"{OF_LOG.format(instance)} AND (id >> 32) & 32767 = {epoch} AND id & 4294967295 {numbers}"


def deleted(file, *which):
    change(file, *(f"DELETE FROM items WHERE {rows}" for rows in which))


def goes_on(judge, name, file, words, text):
    """A run over an archive that lacks rows is as one over the same archive with all its rows, which lies at `file`.whole; it has
    these words. This text is of what `bac check` tells then."""
    whole = judge.ran(["keep", f"{file}.whole", *words])
    judge.is_right(f"{name}: nothing is told of a whole one", whole[0] == 0 and whole[2] == "" and "caught up" in whole[1], whole)
    lacking, = read(copied(file, f"{file}.read"), ITEMS)
    judge.same(name, judge.ran(["keep", file, *words]), whole)
    both = [set(read(copied(each, f"{each}.read"), ITEMS)[0]) for each in (file, f"{file}.whole")]
    judge.is_right(f"{name}: what is new is kept", both[0] - set(lacking) and both[0] < both[1]
                   and max(both[0]) == max(both[1]), [len(each) for each in both])
    wanted = lines(file)
    judge.is_right(f"{name}: what is wanted", text in wanted, wanted)
    checks(judge, f"{name}, and it is told", [file], wanted, told(file, HOLES))


def holes(judge, _runs):
    """A file: rows in the middle of an epoch, from its beginning on, a gap, and rows of another epoch are deleted."""
    device = Device([Log(1, 400), Log(2, 50), Log(4, 50)], "holes")
    serve([device])
    file, copy = f"{judge.room}/holes.db", f"{judge.room}/lacking.db"
    device.logs[1].log(300)
    device.logs[2].log(20)
    device.logs[4].log(1)
    judge.same("a whole file", judge.ran(["keep", file, device.address])[::2], (0, ""))
    device.logs[2].log(10)
    device.logs[2].purge()
    device.logs[2].log(5)
    device.logs[4].begin(0)
    device.logs[4].log(9)
    judge.same("that has a gap and another epoch", judge.ran(["keep", file])[::2], (0, dropped(device, 21, 30, 2) + anew(device, 4)))
    judge.same("is still whole", judge.ran(["keep", file])[::2], (0, ""))
    cases = (
        ("one in the middle", [row(1, 0, "= 100")], "\nmissing 100-100\n"),
        ("two stretches", [row(1, 0, "IN (7, 8, 9, 250)")], "\nmissing 7-9\nmissing 250-250\n"),
        ("the first", [row(1, 0, "= 1")], "\nmissing 1-1\n"),
        ("a gap", [f"{OF_LOG.format(2)} AND last IS NOT NULL"], "\nmissing 21-30\n"),
        ("the first of another epoch", [row(4, 1, "< 3")], "\nmissing 1-2\n"),
        ("an epoch", [row(4, 0, "> 0")], " 4 epoch 0: gone\n"),
        ("those of several logs", [row(1, 0, "BETWEEN 40 AND 49"), row(4, 1, "= 4"), row(2, 0, "= 2")], "\nmissing 4-4\n"),
    )
    for name, which, text in cases:
        deleted(copied(file, copy), *which)
        copied(file, f"{copy}.whole")
        for log in device.logs.values():
            log.log(1)
        goes_on(judge, f"{name} is deleted", copy, (), text)
        judge.same(f"{name}: of one log", judge.ran(["keep", copy, device.address, "1"])[::2], (0, ""))
        judge.ran(["keep", file])
    # What is gone behind the last row can't be seen: it is fetched again.
    deleted(copied(file, copy), row(1, 0, "> 290"))
    judge.same("the last are deleted", judge.ran(["keep", copy])[::2], (0, ""))
    judge.same("they are kept again", read(copied(copy, f"{copy}.read"), ITEMS), read(copied(file, f"{copy}.read"), ITEMS))
    deleted(copied(file, copy), row(1, 0, "= 100"))
    judge.same("nothing is told where logs are stopped", judge.ran(["keep", copy, "--stop", device.address, "1"]), (0, f"{device.address} 1 stopped\n", ""))
    checks(judge, "a stopped log is told, too", [copy], lines(copy), told(copy, HOLES))


def holes_in_parts(judge, _runs):
    """The newest part of a folder: what the part before it has isn't missing."""
    device, folder = begun(judge, "lacking", 30)
    judge.ran(["keep", folder, device.address])
    fill(f"{folder}/000001.db")
    device.logs[1].log(20)
    judge.same("a part that follows on another", judge.ran(["keep", folder, *FULL])[::2], (0, ""))
    device.logs[1].log(20)
    device.logs[2].begin(0)
    device.logs[2].log(9)
    device.logs[3].log(4)
    judge.same("with another epoch", judge.ran(["keep", folder])[::2], (0, anew(device, 2)))
    judge.same("it is whole", (judge.ran(["keep", folder])[::2], names(folder)), ((0, ""), ["000001.db", "000002.db"]))
    newest, whole, merged = f"{folder}/000002.db", f"{judge.room}/newest.db", f"{judge.room}/merged.db"
    cases = (
        ("one in the middle", [row(1, 0, "= 45")], "\nmissing 45-45\n"),
        ("those behind what was taken over", [row(1, 0, "IN (31, 32, 50)")], "\nmissing 31-32\n"),
        ("the first of another epoch", [row(2, 1, "< 4")], " 2 epoch 1: 4 to 9, 6 records, 0 gaps\nmissing 1-3\n"),
        ("one of a log that had none", [row(3, 0, "= 2")], "\nmissing 2-2\n"),
    )
    copied(newest, whole)
    for name, which, text in cases:
        deleted(copied(whole, newest), *which)
        device.logs[1].log(1)
        judge.same(f"{name} is deleted", (judge.ran(["keep", folder])[::2]), (0, ""))
        wanted = lines(together(folder, merged))
        judge.is_right(f"{name}: what is wanted", text in wanted, wanted)
        checks(judge, f"{name}, and it is told", [folder], wanted, told(folder, HOLES))
        judge.ran(["keep", whole, device.address, "1"])
    # What a part took over is missing in none: the one before it has it.
    deleted(copied(whole, newest), row(1, 0, "= 29"))
    judge.same("one that was taken over is deleted", judge.ran(["keep", folder])[::2], (0, ""))
    checks(judge, "one that was taken over is deleted, and it is there", [folder], lines(together(folder, merged)))
    # One is gone in the part before.
    copied(whole, newest)
    deleted(f"{folder}/000001.db", row(1, 0, "= 5"))
    judge.same("one is gone in the part before", judge.ran(["keep", folder])[::2], (0, ""))
    checks(judge, "one is gone in the part before, and it is told", [folder], lines(together(folder, merged)), told(folder, HOLES))
