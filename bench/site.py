#!/usr/bin/env python3
"""site.py PROGRAM ROOM DEVICES LOGS RECORDS DELAY OBJECTS: how long `PROGRAM keep` takes over a site whose devices answer
after DELAY milliseconds, with up to 45 records, and have OBJECTS other objects beside their logs, for site.sh."""
import heapq
import os
import resource
import select
import subprocess
import sys
import threading
import time

program, room = sys.argv[1:3]
devices, logs, records, delay, objects = map(int, sys.argv[3:8])
sys.path.insert(0, os.path.join(os.path.dirname(os.path.abspath(__file__)), "..", "examples", "check"))
from kept_devices import Device, Log, answering, application  # noqa: E402


class Full(Device):
    """It has Analog Values beside its logs."""

    def objects(self):
        return super().objects() + [application(12, (2 << 22 | number).to_bytes(4, "big")) for number in range(objects)]


class Late:
    """A socket whose datagrams go out later."""

    def __init__(self, at, out, port):
        self.at, self.out, self.port = at, out, port

    def sendto(self, octets, to):
        heapq.heappush(self.out, (self.at, id(octets), self.port, octets, to))


def answer_late(sockets):
    """Each question is answered so long after it came."""
    out, by_number = [], {port.fileno(): port for port in sockets}
    poll = select.epoll()
    for number in by_number:
        poll.register(number, select.EPOLLIN)
    while True:
        wait = max(0.0, out[0][0] - time.monotonic()) if out else 1.0
        for number, _ in poll.poll(wait, 256):
            port = by_number[number]
            request, asker = port.recvfrom(2000)
            answering[port].answer(Late(time.monotonic() + delay / 1000, out, port), request, asker)
        while out and out[0][0] <= time.monotonic():
            _, _, port, octets, to = heapq.heappop(out)
            port.sendto(octets, to)


def ran(name, *words, lines=None):
    """A run, with what it took."""
    before = resource.getrusage(resource.RUSAGE_CHILDREN)
    start = time.monotonic()
    run = subprocess.run([program, "keep", *words], input=lines, capture_output=True, text=True)
    took = time.monotonic() - start
    after = resource.getrusage(resource.RUSAGE_CHILDREN)
    told = run.stdout.splitlines() + run.stderr.splitlines()
    ends = [line.split(" gaps ")[1].split(",")[0] for line in told if " gaps " in line]
    ends += [end for line in told for end in ("not asked", "no answer") if line.endswith(end)]
    counts = ", ".join(f"{ends.count(end)} {end}" for end in sorted(set(ends)))
    print(f"{name}: {took:.2f} s, {after.ru_utime + after.ru_stime - before.ru_utime - before.ru_stime:.2f} s of processor, "
          f"{after.ru_maxrss // 1024} MB at most so far; {counts}", flush=True)
    others = [line for line in run.stderr.splitlines() if not line.endswith(("not asked", "no answer"))]
    if others:
        print("  " + others[0])


def main():
    site = [Full([Log(number, 1000) for number in range(1, logs + 1)], f"device {at}") for at in range(devices)]
    for device in site:
        device.fits = (45,)
    threading.Thread(target=answer_late, args=([device.socket for device in site],), daemon=True).start()
    for device in site:
        for log in device.logs.values():
            log.log(records)
    print(f"{devices} devices, {logs} logs each, answers after {delay} ms", flush=True)
    lines = "".join(device.address + "".join(f" {number}" for number in device.logs) + "\n" for device in site)
    file = f"{room}/site.db"
    # A device's instances stand behind its address.
    words = [word for line in lines.splitlines() for word in line.split(" ")]
    ran(f"a first run of {records} records a log", file, *words)
    ran("nothing new", file)
    for device in site:
        for log in device.logs.values():
            log.log(8)
    ran("8 new a log", file)
    for told, is_whole in (("whole", True), ("place by place", False)) if objects else ():
        for device in site:
            device.is_whole = is_whole
        ran(f"a first run by Object_Lists, told {told}", f"{room}/{is_whole}.db", *[device.address for device in site])
    for device in site[:: 10]:
        device.answers = 0
    ran("nothing new, a tenth silent", file, "--timeout=1000", "--retries=1")
    ran("nothing new, a tenth silent, nothing said of waits", file)
    for device in site[::2]:
        device.answers = 0
    ran("nothing new, a half silent, nothing said of waits", file)


if __name__ == "__main__":
    main()
