"""A site of 50 devices for kept_fifty.py, of one to four logs each: in a run each device answers in its own manner."""
import collections
import datetime
import heapq
import itertools
import random
import select
import threading
import time

from kept_changes import changed, started
from kept_devices import LAST, Device, Log, chance, lock

DEVICES = 50
# How many devices are behind each of two routers: there are more than are asked at once, and fewer.
ROUTERS = (6, 3)
# The share of logs whose numbers come round in these runs.
ROUND = 0.15


class Manner:
    """How a device answers in a run: an answer goes out so long after its question, at least and at most, in waits of
    the run; each so many times, of which the first is in time and the others are later; behind the answer before it, or
    not. `loses` is the share of questions without an answer; `logs` how often one of its logs goes on at a question; `fits` how
    many records its replies have."""

    def __init__(self, share, after=(0, 0), times=1, before=False, loses=0.0, logs=0.0, fits=(1, 7, 30, 45)):
        self.share, self.after, self.times, self.before = share, after, times, before
        self.loses, self.logs, self.fits = loses, logs, fits


WELL = Manner(0)
# The share of each kind in a run; the others are well. Another device answers at the address of one that is `other`.
MANNERS = {
    "dead": Manner(0.10, loses=1.0),
    "slow": Manner(0.08, after=(0.1, 0.7)),
    "late": Manner(0.05, after=(1.05, 1.9)),
    "uneven": Manner(0.05, after=(0.0, 1.6)),
    "again": Manner(0.06, after=(0.0, 0.5), times=3),
    "before": Manner(0.06, before=True),
    "lossy": Manner(0.06, loses=0.3),
    # A reply of one record is asked for once more behind what follows it. A full log has that overwritten by then, and is taken
    # for one that began anew.
    "busy": Manner(0.06, logs=0.2, fits=(7, 30, 45)),
    "other": Manner(0.06),
}


class Answering:
    """A socket of a device over which its answers go in its manner."""

    def __init__(self, site, port, device, invoke):
        self.site, self.port, self.device, self.invoke = site, port, device, invoke

    def sendto(self, octets, asker):
        self.site.answers(self, octets, asker)


class Site:
    """`manners` has how each device answers in a run, with a word for it; `wait` how many seconds the run waits for an
    answer. `asked` counts its questions: the process `victim` is killed at the one with the number `kills_at`.
    `counts` has how many answers went out `late`, when the run had asked their device something else, and how many
    `again`. Each device is at an address of its own, by `host`, or at that of its router: nobody else's late answer
    seems its own."""

    def __init__(self, seed, host):
        self.asked, self.victim, self.kills_at = 0, None, None
        self.counts, self.due, self.wait = collections.Counter(), [], 0.02
        self.newest, self.last, self.strangers, self.order = {}, {}, {}, itertools.count()
        self.devices = [made(seed, at, host) for at in range(DEVICES - sum(ROUTERS))]
        for many in ROUTERS:
            first = None
            for _ in range(many):
                at = len(self.devices)
                self.devices.append(made(seed, at, host, (5, bytes([at])), first and first.socket))
                first = first or self.devices[-1]
        self.at = {}
        for device in self.devices:
            self.at.setdefault(device.socket, []).append(device)
        self.are_well()
        threading.Thread(target=self.serve, daemon=True).start()

    def are_well(self):
        """All devices are well from now on."""
        with lock:
            self.manners = {device: ("well", WELL) for device in self.devices}
            for device in self.devices:
                device.loses, device.fits = 0.0, WELL.fits

    def manner(self, device):
        return self.manners[device][0]

    def logs(self):
        """All logs, by the text that names each in lines."""
        return {f"{device.place()} {number}": log for device in self.devices for number, log in device.logs.items()}

    def goes_on(self, known):
        """Between two runs: logs go on, devices are started or begin anew, and each has a manner in the next run;
        another one answers only for one whose number is known."""
        with lock:
            for device in self.devices:
                what = chance.random()
                if what < 0.06:
                    begins_anew(device)
                elif what < 0.12:
                    started(device)
                for log in device.logs.values():
                    if chance.random() < 0.3:
                        changed(device, log)
                self.manners[device] = self.next_manner(device, device.number in known)
                device.loses, device.fits = self.manners[device][1].loses, self.manners[device][1].fits

    def next_manner(self, device, is_known):
        """The manner of a device in the next run: one that was dead, or another one, may still be."""
        old = self.manners[device]
        if old[0] in ("dead", "other") and chance.random() < 0.5:
            return old
        what = chance.random()
        for word, manner in MANNERS.items():
            what -= manner.share
            if what < 0:
                return ("well", WELL) if word == "other" and not is_known else (word, manner)
        return "well", WELL

    def begins(self, wait):
        """A run begins that waits so many seconds."""
        with lock:
            self.asked, self.victim, self.kills_at, self.wait = 0, None, None, wait

    def kill_at(self, process, number):
        """This process is killed at this question of its run."""
        with lock:
            self.kills_at, self.victim = number, process

    def who(self, device):
        """Which device answers where this one is."""
        if self.manner(device) != "other":
            return device
        if device not in self.strangers:
            way = (int.from_bytes(device.way[:2], "big"), device.way[3:]) if device.way else None
            logs = [Log(number, 50, datetime.datetime(2023, 1, 1), device.chance) for number in device.logs]
            self.strangers[device] = Device(logs, "another", way, device.socket, device.host, device.chance)
            for log in logs:
                log.log(30)
        return self.strangers[device]

    def is_asked(self, port, request, asker):
        """A datagram comes: the run may end with it. A device is asked, if it is a question for one."""
        with lock:
            self.asked += 1
            if self.victim and self.asked >= self.kills_at:
                self.victim.kill()
                self.victim = None
            device = next((device for device in self.at[port] if request[6 : 6 + len(device.way)] == device.way), None)
            at = 8 + len(device.way) + bool(device.way) if device else 0
            # A question that expects a reply, or a Who-Is.
            if not device or len(request) < at or not (request[5] & 4 or request[at - 2 : at] == b"\x10\x08"):
                return
            manner = self.manners[device][1]
            if manner.logs and device.chance.random() < manner.logs:
                log = device.chance.choice(list(device.logs.values()))
                # One that began anew keeps all until a run has seen it, as in kept_changes.py.
                log.log(0 if log.fresh else device.chance.randrange(1, 4))
            # A Who-Is has no invoke ID.
            invoke = request[at] if request[5] & 4 else None
            self.newest[device] = asker, invoke
            it = self.who(device)
        it.answer(Answering(self, port, device, invoke), request, asker)

    def answers(self, way, octets, asker):
        """A device answers in its manner."""
        manner, device, now = self.manners[way.device][1], way.device, time.monotonic()
        if manner.before and device in self.last:
            self.counts["again"] += 1
            self.send(now, way, *self.last[device])
        self.last[device] = octets, asker
        self.counts["again"] += manner.times - 1
        for turn in range(manner.times):
            after = device.chance.uniform(*manner.after) if turn or manner.times == 1 else 0.0
            self.send(now + after * self.wait, way, octets, asker)

    def send(self, at, way, octets, asker):
        heapq.heappush(self.due, (at, next(self.order), way, octets, asker))

    def send_due(self):
        while self.due and self.due[0][0] <= time.monotonic():
            _, _, way, octets, asker = heapq.heappop(self.due)
            newest = self.newest[way.device]
            self.counts["late"] += newest[0] == asker and newest[1] != way.invoke
            way.port.sendto(octets, asker)

    def serve(self):
        poll, ports = select.epoll(), {port.fileno(): port for port in self.at}
        for number in ports:
            poll.register(number, select.EPOLLIN)
        while True:
            wait = max(0.0, self.due[0][0] - time.monotonic()) if self.due else 1.0
            for number, _ in poll.poll(wait, 64):
                request, asker = ports[number].recvfrom(2000)
                self.is_asked(ports[number], request, asker)
            self.send_due()


def made(seed, at, host, way=None, port=None):
    """A device of one to four logs. Some tell both when they were started and their revision, some one of them, some
    neither; and some don't tell their number, of which some announce it, some tell their name, and some neither."""
    draws = random.Random(f"{seed} {at}")
    # No two logs have records of one moment.
    day = datetime.datetime(2024, 1, 1) + datetime.timedelta(days=at)
    logs = [Log(number, draws.choice((30, 60, 150)), day + datetime.timedelta(hours=6 * number), draws)
            for number in range(1, 1 + draws.choice((1, 2, 2, 3, 4)))]
    device = Device(logs, f"site {at}", way, port, host.format(at + 1), draws)
    device.restart = datetime.datetime(2024, 1, 1) if at % 4 < 2 else None
    device.revision = at if at % 3 < 2 else None
    if at % 7 == 6:
        number, device.number = device.number, None
        device.i_am = number if at % 3 == 0 else None
        device.title = b"\x00" + f"site {at}".encode() if at % 3 == 1 else None
    for log in logs:
        # The numbers of some come round in these runs.
        if draws.random() < ROUND:
            log.begin(LAST - draws.randrange(300))
            log.fresh = False
        log.log(draws.randrange(100))
    return device


def begins_anew(device):
    """A device is started, and its logs begin anew, but for those that did so and weren't seen since, and those behind
    a large number: nobody could tell these from logs whose numbers came round."""
    tells = started(device)
    for log in device.logs.values():
        if not log.fresh and log.total <= LAST // 2:
            kept = log.total
            log.begin(0)
            log.log(chance.choice((0, 1, 5, kept + 100 if tells else min(kept + 3, log.room_for - 5))))
