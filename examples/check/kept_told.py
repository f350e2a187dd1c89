"""What `bac keep` tells beside the line of a log whose walk failed, for kept.py."""
import socket

from kept_devices import Device, Log, serve
from kept_rounds import said, silent, why

SOON = ("--timeout=1000", "--retries=1")

# What comes in place of each answer: Reject-Message-To-Network for reason 1 and network 5, an I-Am, and nothing.
ROUTER = bytes.fromhex("018003010005")
I_AM = bytes.fromhex("01001000c4020000072205c491032103")
STRAYS = (("a router", ROUTER), ("an I-Am", I_AM))
# Whole datagrams: a BVLC-Result, an Error that is cut, and one that is whole.
RESULT = bytes.fromhex("810000060030")
CUT = bytes.fromhex("810a000801005001")
ERROR = bytes.fromhex("810a000d010050010c9102911f")


class Twisted(Device):
    """`stray` is the NPDU that is sent in place of each answer that isn't given, and `twist` makes another of each ReadRange-ACK;
    `whole` is a datagram that is sent in its place, from another socket or this one."""

    def __init__(self):
        super().__init__([Log(1, 50)], "twisted")
        self.stray = self.twist = self.whole = None
        serve([self])

    def answer(self, port, request, asker):
        if self.whole:
            self.asked += 1
            (self.whole[0] or port).sendto(self.whole[1], asker)
        elif self.stray is None or self.answers:
            super().answer(port, request, asker)
        else:
            port.sendto(b"\x81\x0a" + (len(self.stray) + 4).to_bytes(2, "big") + self.stray, asker)

    def ack(self, apdu):
        ack = super().ack(apdu)
        return self.twist(ack) if self.twist and apdu[3] == 26 else ack


class Router(Device):
    """A device of network 6, and in front of it a router that rejects what is asked of network 5, for a reason."""

    def __init__(self):
        super().__init__([Log(1, 50)], "near", (6, b"\x08"))
        self.reason, self.rejected = 1, 0
        serve([self])

    def answer(self, port, request, asker):
        if request[5] & 0x20 and request[6:8] == b"\x00\x05":
            self.rejected += 1
            port.sendto(bytes.fromhex("810a000a018003") + bytes([self.reason]) + b"\x00\x05", asker)
        else:
            super().answer(port, request, asker)


def no_route(judge, _runs):
    """That a router has no route to a device's network is told, and the device isn't asked again; any other rejection may be of
    another device, and is none. A device of another network behind that router is polled beside it."""
    router, file = Router(), f"{judge.room}/a.db"
    router.logs[1].log(3)
    far = f"{router.address}/5/07"
    judge.tells("a near one", judge.ran(["keep", file, router.address, "1", "--dnet=6", "--dadr=08", *SOON]), 0,
                said(router, 3, 0, "caught up, next 4").replace(router.address, router.place()))
    near = said(router, 0, 0, "caught up, next 4").replace(router.address, router.place())
    judge.tells("no route", judge.ran(["keep", file, router.address, "1", "--dnet=5", "--dadr=07", *SOON]), 2,
                f"{far}: the router has no route to network 5\n", f"{far} 1 not asked\n", near)
    judge.same("no route: it is asked once", router.rejected, 1)
    for router.reason in (0, 2, 3, 4, 5, 6):
        router.rejected = 0
        judge.tells(f"reason {router.reason}", judge.ran(["keep", file, *SOON]), 2, f"{far} 1 not asked\n{far}: no answer\n", near)
        judge.same(f"reason {router.reason}: it is asked as often as a lost one", router.rejected, 2)


def told_beside(judge, _runs):
    """What comes in place of an answer is none, what a refusal means, and of a bad reply who tells what is wrong with it."""
    device = Twisted()
    device.logs[1].log(3)
    file = f"{judge.room}/a.db"
    for name, device.stray in STRAYS:
        device.asked = 0
        judge.tells(name, judge.ran(["keep", file, device.address, "1", *SOON]), 2, silent(device))
    device.stray = None
    # The last octet of the object is another: an ACK of log 0.
    device.twist = lambda ack: ack[:7] + bytes([ack[7] ^ 1]) + ack[8:]
    judge.tells("an ACK of another log", judge.ran(["keep", file, device.address, "1"]), 4, said(device, 0, 0, "bad reply, next 1"),
                why(device, 1, "the reply isn't as asked for: bac log tells what is wrong with it"))
    status, out, errors = judge.ran(["log", device.address, "1", "1"])
    judge.is_right("log tells it", (status, out) == (4, "bad reply, next 1\n") and "object 20 0" in errors, (status, out, errors))
    # A refusal is told in the words of `log`.
    for name, reply, end in (("an Abort", lambda ack: bytes([0x71, ack[1], 4]), "refused: abort 4, next 1"),
                             ("an Error", lambda ack: bytes([0x50, ack[1], ack[2], 0x91, 1, 0x91, 31]), "refused: error 1 31, next 1")):
        device.twist = reply
        status, out, errors = judge.ran(["log", device.address, "1", "1"])
        judge.same(f"{name}, log", (status, out), (3, f"{end}\n"))
        judge.tells(name, judge.ran(["keep", file, device.address, "1"]), 3, said(device, 0, 0, end), f"{device.address} 1: {errors}")
        judge.is_right(f"{name} has words", len(errors) > 5, errors)
    device.twist = None
    judge.same("and all of it", judge.ran(["keep", file, device.address, "1"]), (0, said(device, 3, 0, "caught up, next 4"), ""))
    judge.judge("and all of it", file, [device], True)
    # One that had answered what it is asked of itself, and then doesn't.
    for name, device.stray in (("lost on the way", None), *STRAYS):
        device.logs[1].log(1)
        device.answers = 3
        judge.tells(f"{name}, on the way", judge.ran(["keep", file, *SOON]), 2, said(device, 0, 0, "lost, next 4"))
    device.answers = device.stray = None
    judge.same("and what is new", judge.ran(["keep", file]), (0, said(device, 3, 0, "caught up, next 7"), ""))


def told_among_others(judge, _runs):
    """The same of a device that others are asked beside: what is sent in place of its answer is none, an answer that comes from
    another address is told, and it is waited for no longer than one that sends nothing."""
    twisted, dead, alive = Twisted(), Device([Log(1, 50)], "silent"), Device([Log(1, 50)], "alive")
    serve([dead, alive])
    file = f"{judge.room}/a.db"
    for device in (twisted, dead, alive):
        device.logs[1].log(2)
        judge.ran(["keep", file, device.address])
    dead.answers = 0
    sockets = {host: socket.socket(socket.AF_INET, socket.SOCK_DGRAM) for host in (twisted.host, "127.0.0.1")}
    for host, other in sockets.items():
        other.bind((host, 0))
    for name, other, content in (("a BVLC-Result", None, RESULT), ("an Error that is cut", None, CUT),
                                 *((f"an answer from {host}", other, ERROR) for host, other in sockets.items())):
        twisted.whole = other, content
        before = twisted.asked, dead.asked
        # It may be the answer of either.
        told = [f"{device.address}: no answer, but one from {'%s:%d' % other.getsockname()}\n" for device in (twisted, dead) if other]
        judge.tells(name, judge.ran(["keep", file, *SOON]), 2, *told, silent(twisted), silent(dead), said(alive, 0, 0, "caught up, next 3"))
        judge.same(f"{name}: who was asked", (twisted.asked - before[0], dead.asked - before[1]), (2, 2))
    for other in sockets.values():
        other.close()
    twisted.whole = dead.answers = None
    judge.same("both are back", judge.ran(["keep", file])[0], 0)
    judge.judge("both are back", file, [twisted, dead, alive], True)
