#!/usr/bin/env python3
"""routers.py PROGRAM ROOM DEVICES ROUTERS BEHIND TAKES: how long `PROGRAM keep` takes over DEVICES devices of four logs, where
BEHIND of them stand behind each of so many ROUTERS, whose lines take TAKES milliseconds for a question, one after the
other, for routers.sh. The others answer at once."""
import heapq
import itertools
import os
import select
import subprocess
import sys
import threading
import time

program, room = sys.argv[1:3]
devices, routers, behind, takes = map(int, sys.argv[3:7])
sys.path.insert(0, os.path.join(os.path.dirname(os.path.abspath(__file__)), "..", "examples", "check"))
from kept_devices import Device, Log  # noqa: E402


def made(at, way=None, port=None):
    device = Device([Log(number, 1000) for number in range(1, 5)], f"device {at}", way, port)
    device.fits = (45,)
    for log in device.logs.values():
        log.log(8)
    return device


class Later:
    """A socket whose datagrams go out at a time."""

    def __init__(self, at, out, port):
        self.at, self.out, self.port = at, out, port

    def sendto(self, octets, to):
        heapq.heappush(self.out, (self.at, next(order), self.port, octets, to))


order = itertools.count()


def answer(at_port, lines):
    """A question to a device behind a router waits until the line is free."""
    out, free, poll = [], dict.fromkeys(lines, 0.0), select.epoll()
    by_number = {port.fileno(): port for port in at_port}
    for number in by_number:
        poll.register(number, select.EPOLLIN)
    while True:
        wait = max(0.0, out[0][0] - time.monotonic()) if out else 1.0
        for number, _ in poll.poll(wait, 256):
            port, now = by_number[number], time.monotonic()
            request, asker = port.recvfrom(2000)
            device = next((one for one in at_port[port] if request[6 : 6 + len(one.way)] == one.way), None)
            if port in free:
                now = free[port] = max(now, free[port]) + takes / 1000
            if device:
                device.answer(Later(now, out, port), request, asker)
        while out and out[0][0] <= time.monotonic():
            _, _, port, octets, to = heapq.heappop(out)
            port.sendto(octets, to)


def main():
    at_port, lines, words = {}, [], []
    for at in range(devices - routers * behind):
        device = made(at)
        at_port[device.socket] = [device]
        words.append(device.address)
    for router in range(routers):
        port = None
        for at in range(behind):
            device = made(f"{router} {at}", (5, bytes([at + 1])), port)
            port = device.socket
            at_port.setdefault(port, []).append(device)
            words.append(f"I-Am {device.number} {device.address} net 5 mac {at + 1:02x} max-apdu 480 segmentation 3 vendor 0")
        lines.append(port)
    threading.Thread(target=answer, args=(at_port, lines), daemon=True).start()
    for name, *more in (("a first run of 8 records a log", "-"), ("nothing new",)):
        start = time.monotonic()
        run = subprocess.run([program, "keep", f"{room}/site.db", *more], input="\n".join(words) + "\n", capture_output=True, text=True)
        took = time.monotonic() - start
        print(f"{name}: {took:.2f} s; {run.stdout.count('caught up')} of {devices * 4} caught up", flush=True)
        if run.stderr:
            print("  " + run.stderr.splitlines()[0])


if __name__ == "__main__":
    main()
