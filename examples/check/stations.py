#!/usr/bin/env python3
"""stations.py COUNT MS TIMES SILENT: stations at COUNT addresses of the loopback interface, each at a free
port. Each answers a request MS milliseconds later with an I-Am, TIMES times; its instance is its place, from
1. The first SILENT of them don't answer. Writes the addresses, one a line, then serves until its input
ends.

Stations send each on its own. Here one process stands in for all: when the machine lets it wait, all that is late by
then would go out at once, 400 answers and more, and the asker's socket has room for some 270; the system drops the
rest (seen as `drops` in /proc/net/udp, on a machine with three times as much to do as it can). So it never sends more
than BURST answers without a pause."""
import heapq
import select
import socket
import sys
import time

count, ms, times, silent = (int(word) for word in sys.argv[1:])


def i_am(place):
    device = (8 << 22) + place
    return bytes.fromhex("810a001401001000c4") + device.to_bytes(4, "big") + bytes.fromhex("2205c491032100")


sockets = {}
for place in range(1, count + 1):
    station = socket.socket(socket.AF_INET, socket.SOCK_DGRAM)
    station.bind((f"127.1.{place // 250}.{place % 250 + 1}", 0))
    print("%s:%d" % station.getsockname())
    sockets[station.fileno()] = (station, place)
poll = select.epoll()
for number in sockets:
    poll.register(number, select.EPOLLIN)
poll.register(sys.stdin.fileno(), select.EPOLLIN)
sys.stdout.flush()

BURST = 25
PAUSE = 0.005

due = []
sent = 0
while True:
    wait = max(0.0, due[0][0] - time.monotonic()) if due else None
    for number, _ in poll.poll(wait):
        if number == sys.stdin.fileno():
            sys.exit()
        station, place = sockets[number]
        _, asker = station.recvfrom(2000)
        if place > silent:
            for _ in range(times):
                heapq.heappush(due, (time.monotonic() + ms / 1000, place, number, asker))
    while due and due[0][0] <= time.monotonic():
        _, place, number, asker = heapq.heappop(due)
        sockets[number][0].sendto(i_am(place), asker)
        sent += 1
        if sent % BURST == 0:
            time.sleep(PAUSE)
