"""Files that the machine doesn't open, for kept.py: what is told of each, and that nothing is made."""
import os
import resource
import shutil
import tempfile

from checked import NOTHING
from kept_judge import no_use
from kept_rounds import one

DENIED = "permission denied"


def barred(judge, _runs):
    """A folder, one that isn't there, files that are open elsewhere in number, and files of others."""
    device, _log = one(count=2)
    folder, file = f"{judge.room}/plant", f"{judge.room}/a.db"
    os.mkdir(folder)
    judge.same("kept of an empty folder", judge.ran(["kept", folder]), no_use(folder, NOTHING))
    # An archive in parts, of which one isn't a file.
    part = f"{folder}/000001.db"
    os.mkdir(part)
    for words in (["keep", folder, device.address, "1"], ["keep", folder]):
        judge.same("keep of a folder for a part", judge.ran(words), no_use(part, "it is a folder"))
    judge.same("kept of a folder for a part", judge.ran(["kept", folder]), no_use(part, "it is a folder"))
    away = f"{judge.room}/away/a.db"
    judge.same("in no folder", judge.ran(["keep", away, device.address, "1"]), no_use(away, "there is no such folder"))
    judge.is_right("none is made", not os.path.exists(os.path.dirname(away)))
    # The program's own library takes the fourth, and gives it back: the log beside the file is one too many.
    few = judge.ran(["keep", file, device.address, "1"], preexec_fn=lambda: resource.setrlimit(resource.RLIMIT_NOFILE, (4, 4)))
    judge.same("of too many", few, no_use(file, "too many files are open"))
    judge.same("with one more", judge.ran(["keep", file, device.address, "1"])[0], 0)
    of_others(judge, file, device.address)
    judge.same("nobody else was asked", judge.ran(["kept", file])[0], 0)


def of_others(judge, file, address):
    """The same where another user, if this one may all, or the modes of files permit less."""
    room = tempfile.mkdtemp()
    try:
        program, closed = f"{room}/bac", f"{room}/closed"
        shutil.copyfile(judge.program, program)
        os.mkdir(closed)
        for name, mode in ((program, 0o755), (room, 0o755), (closed, 0o555)):
            os.chmod(name, mode)
        other = {"user": 65534, "group": 65534} if os.geteuid() == 0 else {}
        for name, mode in (("none", 0o000), ("read", 0o444), ("written", 0o222)):
            path = f"{room}/{name}.db"
            shutil.copyfile(file, path)
            os.chmod(path, mode)
            for words in (["keep", path, address, "1"], ["kept", path]):
                judge.same(f"{words[0]}, {name}", judge.ran_by(program, words, **other), no_use(path, DENIED))
        path = f"{closed}/a.db"
        judge.same("in a closed folder", judge.ran_by(program, ["keep", path, address, "1"], **other), no_use(path, DENIED))
    finally:
        shutil.rmtree(room)
