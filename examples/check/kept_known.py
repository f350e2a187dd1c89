"""What `bac keep` and `bac kept` are known to lack, for kept.py. Each row of a check that fails for one of these stands where it
stood, and is given to `lacks` of kept_judge.py: it passes as long as that lacks, fails once it is mended, and is counted."""
KNOWN = {
    "moved": "a device that has moved isn't told, and its logs don't follow it",
    "two": "that two devices tell one instance isn't told",
    "goes on": "that a log goes on at a number, or began anew, stands in no row",
    "other text": "a device is polled whose address stands in another text than its own",
    "count": "no count of records is on a terminal",
    "overwritten": "a log that overwrites its newest known record while it is asked for it again is told to have begun anew",
}
