#!/usr/bin/env python3
"""A router for two networks over UDP (clause 6 of ANSI/ASHRAE 135), for the checks of the tools.

    router.py AT NET DEVICE MAC

At AT (A.B.C.D:PORT) it stands between the tools and network NET, on which the device that is served at
DEVICE has the address MAC (hexadecimal digits). It prints its address once it is there, and each
NPDU that it hands on, and runs until it is ended.

A datagram from elsewhere with DNET NET, or FFFF, goes on to the device from network 1, on which its
sender has six octets of address; an answer with DNET 1 goes back to there from network NET.
"""
import socket
import sys

NEAR = 1


def address_of(text):
    host, port = text.rsplit(":", 1)
    return host, int(port)


def place_of(octets):
    """A network and an address on it at the front, and the rest."""
    net, size = int.from_bytes(octets[:2], "big"), octets[2]
    return net, octets[3 : 3 + size], octets[3 + size :]


def placed(net, mac):
    return net.to_bytes(2, "big") + bytes([len(mac)]) + mac


def npdu_of(datagram):
    """The NPDU of an Original-Unicast-NPDU of BACnet/IP; None where the frame is none."""
    if len(datagram) < 6 or datagram[:2] != b"\x81\x0a" or datagram[4] != 1:
        return None
    return datagram[4:] if int.from_bytes(datagram[2:4], "big") == len(datagram) else None


def read(npdu):
    """The control octet, the destination, the source, the hop count and the APDU."""
    control, rest = npdu[1], npdu[2:]
    dest = source = hops = None
    if control & 0x20:
        net, mac, rest = place_of(rest)
        dest = net, mac
    if control & 0x08:
        net, mac, rest = place_of(rest)
        source = net, mac
    if control & 0x20:
        hops, rest = rest[0], rest[1:]
    return control, dest, source, hops, rest


def sent(port, to, npdu):
    print(npdu.hex(), flush=True)
    frame = b"\x81\x0a" + (len(npdu) + 4).to_bytes(2, "big") + npdu
    port.sendto(frame, to)


def handed_in(port, npdu, sender, net, device, mac):
    """A request for the network goes to the device, with where it comes from as its source."""
    control, dest, source, hops, apdu = read(npdu)
    if dest is None or source is not None or dest[0] not in (net, 0xFFFF) or dest[1] not in (mac, b""):
        return
    # A message that has passed too many routers goes no further (6.2.3).
    if not hops or hops < 2:
        return
    near = socket.inet_aton(sender[0]) + sender[1].to_bytes(2, "big")
    sent(port, device, bytes([1, control & ~0x20 | 0x08]) + placed(NEAR, near) + apdu)


def handed_out(port, npdu, net, mac):
    """An answer goes to where its request came from, with the device's place as its source."""
    control, dest, source, hops, apdu = read(npdu)
    if dest is None or source is not None or dest[0] != NEAR or len(dest[1]) != 6 or hops != 255:
        return
    to = socket.inet_ntoa(dest[1][:4]), int.from_bytes(dest[1][4:], "big")
    sent(port, to, bytes([1, control & ~0x20 | 0x08]) + placed(net, mac) + apdu)


def main():
    at, net, device, mac = sys.argv[1:]
    net, device, mac = int(net), address_of(device), bytes.fromhex(mac)
    port = socket.socket(socket.AF_INET, socket.SOCK_DGRAM)
    port.bind(address_of(at))
    print("%s:%d" % port.getsockname(), flush=True)
    while True:
        datagram, sender = port.recvfrom(2048)
        npdu = npdu_of(datagram)
        if npdu is None:
            continue
        if sender == device:
            handed_out(port, npdu, net, mac)
        else:
            handed_in(port, npdu, sender, net, device, mac)


main()
