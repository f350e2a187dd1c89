"""How many questions of a run are open at once, and in which order devices are asked, for kept.py."""
import threading
import time

from kept_apart import line, timed
from kept_devices import Device, Log, serve
from kept_rounds import silent


class Counted:
    """How many questions of a site were open at most that had come less than 0.2 seconds before, since one of 0.25 seconds doesn't
    count any more; and which devices were asked, in order; each answer goes out `wait` seconds after its question came."""

    def __init__(self):
        self.lock, self.open, self.most, self.order, self.wait = threading.Lock(), [], 0, [], 0.1

    def come(self, device):
        with self.lock:
            now = time.monotonic()
            self.open.append(now)
            self.most = max(self.most, sum(now - since < 0.2 for since in self.open))
            self.order.append(device)
            return now

    def go(self, since):
        with self.lock:
            # (none of a run before, whose device answers behind its end)
            self.open = [other for other in self.open if other != since]

    def begin(self):
        with self.lock:
            self.open, self.most, self.order = [], 0, []


class Watched(Device):
    """Its answers are counted, and go out late; a device that is gone never answers, and has no question open."""

    def __init__(self, logs, name, site):
        super().__init__(logs, name)
        self.site, self.is_gone = site, False

    def answer(self, port, request, asker):
        if self.is_gone:
            with self.site.lock:
                self.site.order.append(self)
            return
        since = self.site.come(self)
        threading.Timer(self.site.wait, self.late, (port, request, asker, since)).start()

    def late(self, port, request, asker, since):
        self.site.go(since)
        super().answer(port, request, asker)


def lines_of(site, gone=None):
    """The lines of a run with nothing new, of which one device gives no answer."""
    return "".join(silent(device) if device is gone else line(device, 1, 0, "caught up, next 6") for device in site)


def window(judge, _runs):
    """So many questions are open as --at-once says; each device is asked once before any is asked twice; a silent one holds nobody up
    for longer than a quarter of a second."""
    counted = Counted()
    site = [Watched([Log(1, 50)], f"watched{n}", counted) for n in range(12)]
    serve(site)
    for device in site:
        device.logs[1].log(5)
    file = f"{judge.room}/a.db"
    words = [word for device in site for word in (device.address, "1")]
    judge.same("a first run", judge.ran(["keep", file, *words])[0], 0)
    # Those that may be open together have to come before the first of them is answered, and that before the first gives up its place.
    for most, counted.wait in ((1, 0.1), (3, 0.2), (5, 0.2), (64, 0.6)):
        counted.begin()
        judge.tells(f"{most} at once", judge.ran(["keep", file, f"--at-once={most}"]), 0, lines_of(site))
        judge.same(f"{most} at once: open at most", counted.most, min(most, len(site)))
        # Each device's first question goes out before anybody's second. Those that are open together may come in any order;
        # were the first devices asked again as they answer, the last ones would come behind all of theirs.
        judge.same(f"{most} at once: each once before any twice", len(set(counted.order[: len(site) + most - 1])), len(site))
    # The first device is silent: with one question at a time the others wait for a quarter of a second, and not for its repeats.
    site[0].is_gone, counted.wait = True, 0.1
    counted.begin()
    ran, took, asking = timed(site, judge.ran, ["keep", file, "--at-once=1", "--timeout=3000", "--retries=3"])
    judge.tells("one is silent", ran, 2, lines_of(site, site[0]))
    others = [at for at, device in enumerate(counted.order) if device is not site[0]]
    repeats = [at for at, device in enumerate(counted.order) if device is site[0]]
    judge.same("it is asked four times", len(repeats), 4)
    # It is asked at 0, 3, 6 and 9 seconds. Eleven first questions of 100 ms begin at 0.25 seconds.
    judge.is_right("its repeats hold nobody up", all(any(counted.order[at] is device for at in others if at < repeats[2]) for device in site[1:]), counted.order)
    # What the others are asked, some 6 seconds where a machine isn't busy, lies in its wait of 12; those of a second wait would be
    # asked up to 21.
    judge.is_right("one wait for it", took > 11.9 and asking < 20, (took, asking))
    judge.is_right("it gives its place up before it is asked again", repeats[0] == 0 and repeats[1] > 1 and len(others) == len(counted.order) - 4, counted.order)
    # Beside its waits the others are asked all that they are asked, what their logs begin with too: some 0.6 seconds of 10.
    counted.begin()
    judge.tells("one is silent, the others beside", judge.ran(["keep", file, "--timeout=5000", "--retries=1"]), 2, lines_of(site, site[0]))
    others = [at for at, device in enumerate(counted.order) if device is not site[0]]
    repeats = [at for at, device in enumerate(counted.order) if device is site[0]]
    judge.same("it is asked twice", len(repeats), 2)
    judge.is_right("the others are asked while it is waited for", max(others) < repeats[1], counted.order)
    site[0].is_gone = False
    judge.tells("it is back", judge.ran(["keep", file]), 0, lines_of(site))
