#!/usr/bin/env python3
"""silent.py PROGRAM ROOM DEVICES SILENT: how long `PROGRAM keep` takes over a site, for silent.sh."""
import os
import subprocess
import sys
import time

program, room, devices, silent = sys.argv[1], sys.argv[2], int(sys.argv[3]), int(sys.argv[4])
sys.path.insert(0, os.path.join(os.path.dirname(os.path.abspath(__file__)), "..", "examples", "check"))
from kept_devices import Device, Log, serve  # noqa: E402

LOGS = ("1", "2", "3", "4")


def ran(*words):
    """Seconds of a run, and its lines."""
    start = time.monotonic()
    run = subprocess.run([program, "keep", f"{room}/site.db", *words], capture_output=True, text=True)
    took = time.monotonic() - start
    return took, run.stdout + run.stderr


def main():
    site = [Device([Log(int(number), 50) for number in LOGS], f"device {at}") for at in range(devices)]
    serve(site)
    for device in site:
        for log in device.logs.values():
            log.log(2)
    ran(*[word for device in site for word in (device.address, *LOGS)])
    took, told = ran()
    print(f"{devices} devices, {told.count(' caught up,')} logs caught up: {took:.2f} s")
    for device in site[:silent]:
        device.answers = 0
    took, told = ran()
    print(f"{silent} of them silent, {told.count(' caught up,')} logs caught up, {told.count(' not asked')} not asked, "
          f"{told.count(': no answer')} devices without an answer: {took:.2f} s")


if __name__ == "__main__":
    main()
