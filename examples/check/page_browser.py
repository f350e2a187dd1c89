"""The browser of page.py: what Chromium makes of a page, as text and as a picture."""
import collections
import html.parser
import os
import re
import shutil
import struct
import subprocess
import zlib

# How far a pixel may be from a colour, since edges are smoothed.
NEAR = 24


def installed():
    """Why there is no Chromium; nothing if there is. Where it isn't there, it is installed."""
    if shutil.which("chromium"):
        return None
    for words in (["update"], ["install", "-y", "--no-install-recommends", "chromium"]):
        try:
            ran = subprocess.run(["apt-get", *words], capture_output=True, text=True, timeout=900, check=False,
                                 env={**os.environ, "DEBIAN_FRONTEND": "noninteractive"})
        except (OSError, subprocess.TimeoutExpired) as error:
            return str(error)
        if ran.returncode:
            return f"apt-get {' '.join(words)}: {(ran.stderr or ran.stdout).strip()[-300:]}"
    return None if shutil.which("chromium") else "apt-get installed no program chromium"


class Browser:
    """Chromium without a window. Its profile lies in `room`."""

    def __init__(self, room):
        self.room = room

    def ran(self, page, *words):
        words = ["chromium", "--headless=new", "--no-sandbox", "--disable-gpu", "--hide-scrollbars", "--no-first-run", "--disable-dev-shm-usage",
                 f"--user-data-dir={self.room}/profile", *words, f"file://{page}"]
        ended = subprocess.run(words, capture_output=True, timeout=300, check=False)
        if ended.returncode:
            raise SystemExit(f"{' '.join(words)}: status {ended.returncode}: {ended.stderr.decode()[-500:]}\n0 passed, 1 failed")
        return ended.stdout

    def dom(self, page):
        return self.ran(page, "--dump-dom").decode()

    def picture(self, page, size, is_dark):
        file = f"{self.room}/picture.png"
        dark = ["--blink-settings=preferredColorScheme=0"] if is_dark else ["--blink-settings=preferredColorScheme=1"]
        self.ran(page, *dark, f"--window-size={size[0]},{size[1]}", f"--screenshot={file}")
        return Picture(file)

    def sheets(self, page):
        """How many sheets of paper it has."""
        self.ran(page, "--no-pdf-header-footer", f"--print-to-pdf={self.room}/page.pdf")
        with open(f"{self.room}/page.pdf", "rb") as file:
            return len(re.findall(rb"/Type /Page\b", file.read()))


class Picture:
    """A PNG of eight bits a sample, three or four samples a pixel."""

    def __init__(self, file):
        with open(file, "rb") as it:
            octets = it.read()
        at, data = 8, b""
        while at < len(octets):
            length, kind = struct.unpack(">I4s", octets[at:at + 8])
            if kind == b"IHDR":
                width, height, depth, colour, *_, interlaced = struct.unpack(">IIBBBBB", octets[at + 8:at + 8 + length])
                assert depth == 8 and colour in (2, 6) and not interlaced, "a PNG of another kind"
            if kind == b"IDAT":
                data += octets[at + 8:at + 8 + length]
            at += length + 12
        self.size, self.samples = (width, height), 3 if colour == 2 else 4
        self.lines = list(unfiltered(zlib.decompress(data), width * self.samples, self.samples))

    def at(self, x, y):
        return tuple(self.lines[y][x * self.samples:x * self.samples + 3])

    def places(self, colour):
        """The columns and the lines that have a pixel of this colour, or near it."""
        columns, lines = set(), set()
        for y, line in enumerate(self.lines):
            reds = line[::self.samples]
            for x, red in enumerate(reds):
                if abs(red - colour[0]) <= NEAR and all(abs(a - b) <= NEAR for a, b in zip(self.at(x, y), colour)):
                    columns.add(x)
                    lines.add(y)
        return sorted(columns), sorted(lines)


def unfiltered(data, wide, samples):
    """The lines of a PNG, each undone by its filter."""
    before = bytearray(wide)
    for begin in range(0, len(data), wide + 1):
        kind, line = data[begin], bytearray(data[begin + 1:begin + 1 + wide])
        for at in range(wide if kind else 0):
            left = line[at - samples] if at >= samples else 0
            up, corner = before[at], before[at - samples] if at >= samples else 0
            if kind == 1:
                add = left
            elif kind == 2:
                add = up
            elif kind == 3:
                add = (left + up) // 2
            else:
                add = min((left, up, corner), key=lambda it: abs(left + up - corner - it))
            line[at] = (line[at] + add) & 255
        yield line
        before = line


class Row:
    """What the row of a log says."""

    def __init__(self, heading):
        self.heading, self.texts, self.shapes, self.flags, self.changes = heading, collections.defaultdict(str), [], [], []
        self.ends = []

    def count_of(self, element, kind):
        return self.shapes.count((element, kind))

    name = property(lambda self: self.texts["what b"])
    about = property(lambda self: self.texts["what small"])
    records = property(lambda self: re.search(r"([0-9,]+) records?", self.about)[1])
    stamp = property(lambda self: self.texts["now small"].strip())
    now = property(lambda self: (self.texts["now b"] + " " + self.texts["now"].strip()).strip())
    silence = property(lambda self: self.texts["silent"])
    marks = property(lambda self: self.texts["picture i"])


class Page(html.parser.HTMLParser):
    """A page as the browser has it: its rows, in their order, and the cells of its tables."""

    VOID = ("meta", "link", "br", "path", "rect")

    def __init__(self, text):
        super().__init__()
        self.rows, self.tables, self.text, self.title, self.heading = [], {}, "", "", ""
        self.stack, self.second, self.table = [], "", None
        self.feed(text)

    def handle_starttag(self, tag, attributes):
        kind = dict(attributes).get("class") or ""
        if tag == "h2":
            self.second = ""
        if tag == "article":
            self.rows.append(Row(self.second.strip()))
        if tag == "table":
            self.table = self.tables.setdefault(self.second, [])
        if tag == "tr" and self.table is not None:
            self.table.append([])
        if tag == "td":
            self.table[-1].append("")
        if self.is_in("article") and tag in ("path", "rect"):
            self.rows[-1].shapes.append((tag, kind))
        if self.is_in("article") and tag == "small":
            self.told(self.rows[-1], "\n", ["small"])
        if self.is_in("article") and tag in ("li", "em", "span"):
            {"li": self.rows[-1].changes, "em": self.rows[-1].flags, "span": self.rows[-1].ends}[tag].append("")
        if tag not in self.VOID:
            self.stack.append((tag, kind))

    def handle_endtag(self, tag):
        while self.stack and tag not in self.VOID and self.stack.pop()[0] != tag:
            pass
        if tag == "article":
            self.rows[-1].flags = [flag for flag in self.rows[-1].flags if flag != self.rows[-1].silence]
        if tag == "table":
            self.table[:] = [tuple(row) for row in self.table if row]
            self.table = None

    def is_in(self, tag):
        return any(name == tag for name, _ in self.stack)

    def handle_data(self, text):
        tags = [name for name, _ in self.stack]
        self.text += text
        if "title" in tags:
            self.title += text
        if "h1" in tags:
            self.heading += text
        if "h2" in tags and "small" not in tags:
            self.second = (self.second + text).strip()
        if "td" in tags and "small" not in tags:
            self.table[-1][-1] += text
        if "article" in tags:
            self.told(self.rows[-1], text, tags)

    def told(self, row, text, tags):
        """A text within the row of a log, by the cell in which it stands."""
        cell = next((kind for tag, kind in self.stack if tag == "div" and kind), "")
        inner = next((tag for tag in ("b", "small", "em", "i", "li", "span") if tag in tags), "")
        if "li" in tags:
            row.changes[-1] += text
        elif inner == "em":
            row.flags[-1] += text
            row.texts["silent"] += text if self.stack[-1][1] == "silent" else ""
        elif inner == "span" and cell == "ends":
            row.ends[-1] += text
        else:
            row.texts[f"{cell} {inner}".strip() if inner != "span" else cell] += text
