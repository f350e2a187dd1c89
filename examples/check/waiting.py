#!/usr/bin/env python3
"""waiting.py PORT PROCESS COUNT: sends COUNT Who-Is to a server at 127.0.0.1 while its process is stopped, lets it
go on, and prints how many I-Am come back: as many as its socket held."""
import os
import signal
import socket
import sys

port, process, count = (int(word) for word in sys.argv[1:])
asker = socket.socket(socket.AF_INET, socket.SOCK_DGRAM)
asker.setsockopt(socket.SOL_SOCKET, socket.SO_RCVBUF, 1 << 20)
asker.bind(("127.0.0.1", 0))
asker.settimeout(2)
os.kill(process, signal.SIGSTOP)
try:
    for _ in range(count):
        asker.sendto(bytes.fromhex("810a000801001008"), ("127.0.0.1", port))
finally:
    os.kill(process, signal.SIGCONT)
heard = 0
try:
    while heard < count:
        heard += asker.recv(2000)[6:8] == bytes.fromhex("1000")
except TimeoutError:
    pass
print(heard)
