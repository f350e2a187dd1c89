"""Names of trend logs in the character sets that a device may have, for kept.py."""
import csv
import io

from kept_apart import in_file
from kept_devices import Device, Log, serve

# The character set, the octets, and the text in Unicode, or None where they are no text that can be read.
NAMES = ((0, "Kühler Ω 😀".encode(), "Kühler Ω 😀"), (4, "Zähler Ω".encode("utf-16-be"), "Zähler Ω"), (5, "Kälte, \"alt\" ÿ".encode("latin-1"), "Kälte, \"alt\" ÿ"),
         (4, b"", ""),
         (4, "😀".encode("utf-16-be"), None), (4, b"\x00A\x00", None), (0, b"\xff", None), (3, "A".encode("utf-32-be"), None), (5, b"", ""))


def names(judge, _runs):
    """A name in UCS-2 or ISO 8859-1 is text in `logs` and in CSV, as one in UTF-8 is; what can't be read is no name."""
    device = Device([Log(number, 50) for number in range(1, len(NAMES) + 1)], "names")
    for number, (which, octets, _text) in enumerate(NAMES, 1):
        device.names[number] = bytes([which]) + octets
        device.logs[number].log(1)
    serve([device])
    file = f"{judge.room}/a.db"
    judge.same("names", judge.ran(["keep", file, device.address])[::2], (0, ""))
    judge.same("names in the file", in_file(file, "SELECT name FROM logs ORDER BY instance"), [(text,) for _, _, text in NAMES])
    table = list(csv.DictReader(io.StringIO(judge.ran(["kept", file, "--csv"])[1], newline="")))
    judge.same("names in CSV", [row["name"] for row in table], [text or "" for _, _, text in NAMES])
