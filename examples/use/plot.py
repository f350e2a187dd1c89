#!/usr/bin/env python3
"""Draws the values of kept logs over time, as SVG:

    examples/use/plot.py ARCHIVE ADDRESS INSTANCE [ADDRESS INSTANCE ..] > logs.svg

Each log has a colour of its own. A line joins records that follow one another. None is drawn over a gap, over a
record without a number, or to the records of a device that began anew."""
import datetime
import math
import sqlite3
import sys
from xml.sax.saxutils import escape

WIDTH, HEIGHT = 1200, 480
LEFT, RIGHT, BOTTOM = 110, 30, 70
# The line of each title, and what lies above the drawing beside the titles.
TITLE, ABOVE = 18, 22
COLOURS = "#1f4e9c #b5400f #2f7d32 #7b3fa0 #8a6d00 #00737f".split()
# How far the marks of the axis of time may lie apart, in seconds, and how they are written.
STEPS = [(1, "%H:%M:%S"), (5, "%H:%M:%S"), (15, "%H:%M:%S"), (60, "%H:%M"), (300, "%H:%M"), (900, "%H:%M"),
         (3600, "%H:%M"), (3 * 3600, "%H:%M"), (6 * 3600, "%m-%d %H:%M"), (12 * 3600, "%m-%d %H:%M")]
DAY = 86400


def seconds(stamp):
    """A date and time of the archive as seconds, with no zone: the device's own clock."""
    return (datetime.datetime.strptime(stamp[:19], "%Y-%m-%dT%H:%M:%S") - datetime.datetime(1970, 1, 1)).total_seconds() \
        + int(stamp[20:]) / 100


def name_of(base, address, instance):
    row = base.execute("SELECT l.name FROM logs l JOIN devices d ON d.id = l.device WHERE d.address = ? AND l.instance = ?",
                       (address, instance)).fetchone()
    return row and row[0]


def lines_of(base, address, instance):
    """The points of each line of a log: seconds and values."""
    rows = base.execute(
        "SELECT epoch, number, NULL, stamp, value FROM records WHERE address = ?1 AND trend_log = ?2 UNION ALL "
        "SELECT epoch, first, last, NULL, NULL FROM gaps WHERE address = ?1 AND trend_log = ?2 ORDER BY 1, 2",
        (address, instance))
    lines, before = [[]], None
    for epoch, _number, last, stamp, value in rows:
        is_point = not last and value is not None and math.isfinite(value) and "*" not in stamp
        if epoch != before or not is_point:
            lines.append([])
        if is_point:
            lines[-1].append((seconds(stamp), value))
        before = epoch
    return [line for line in lines if line]


def round_step(span, most):
    """The least of 1, 2, 5 and their tenfolds by which a span has at most so many parts."""
    scale = 10.0 ** math.floor(math.log10(span / most))
    return next(scale * times for times in (1, 2, 5, 10, 20) if span / (scale * times) <= most)


def value_marks(least, greatest):
    """The values that are written at the axis, and how. Spans may be as wide as a REAL has numbers."""
    if least == greatest or not math.isfinite(greatest - least):
        return [(it, f"{it:.7g}") for it in sorted({least, greatest})]
    step = round_step(greatest - least, 5)
    count = math.floor(greatest / step) - math.ceil(least / step) + 1
    places = max(1, 1 + math.ceil(math.log10(max(abs(least), abs(greatest)) / step)))
    return [(mark, f"{mark:.{min(places, 15)}g}") for mark in ((math.ceil(least / step) + i) * step for i in range(count))]


def day_marks(first, last):
    """Midnights, or the first days of months or years, as many as there is room for."""
    start = datetime.datetime(1970, 1, 1)
    days = (last - first) / DAY
    if days <= 40:
        step = 1 if days <= 9 else 2 if days <= 18 else 5
        mark = math.ceil(first / DAY) * DAY
        return [(at, (start + datetime.timedelta(seconds=at)).strftime("%Y-%m-%d")) for at in range(mark, int(last) + 1, step * DAY)]
    months = next((it for it in (1, 2, 3, 6) if days / 30 / it <= 9), None)
    if months is None:
        months = 12 * max(1, math.ceil(days / 365 / 9))
    begin = start + datetime.timedelta(seconds=first)
    marks, year, month = [], begin.year, 1
    while (at := (datetime.datetime(year, month, 1) - start).total_seconds()) <= last:
        if at >= first:
            marks.append((at, f"{year:04}-{month:02}" if months < 12 else f"{year:04}"))
        year, month = year + (month - 1 + months) // 12, (month - 1 + months) % 12 + 1
    return marks


def time_marks(first, last):
    """The times that are written at the axis, and how."""
    span = last - first
    if span > 4 * DAY:
        return day_marks(first, last)
    step, form = next((it for it in STEPS if span / it[0] <= 8), STEPS[-1])
    start = datetime.datetime(1970, 1, 1)
    marks = range(math.ceil(first / step) * step, int(last) + 1, step)
    return [(at, (start + datetime.timedelta(seconds=at)).strftime(form)) for at in marks]


def days_of(first, last):
    """The day or days that the axis of time is of."""
    days = [(datetime.datetime(1970, 1, 1) + datetime.timedelta(seconds=at)).strftime("%Y-%m-%d") for at in (first, last)]
    return days[0] if days[0] == days[1] else " to ".join(days)


class Frame:
    """Where the drawing lies in the picture, and which times and values it has."""

    def __init__(self, logs, top):
        points = [point for _, lines in logs for line in lines for point in line]
        self.first, self.last = min(it for it, _ in points), max(it for it, _ in points)
        self.least, self.greatest = min(it for _, it in points), max(it for _, it in points)
        self.top, self.base = top, HEIGHT - BOTTOM

    def x(self, time):
        return LEFT + (time - self.first) / (self.last - self.first or 1) * (WIDTH - LEFT - RIGHT)

    def y(self, value):
        # Halves: the difference of two values of 3e38 is no REAL, but half of it is.
        span = self.greatest / 2 - self.least / 2
        return self.base - ((value / 2 - self.least / 2) / span if span else 0.5) * (self.base - self.top)


def axes(frame):
    """A mark for each value and time, and what the axis of time is of."""
    for value, text in value_marks(frame.least, frame.greatest):
        y = frame.y(value)
        yield f'<line x1="{LEFT}" y1="{y:.1f}" x2="{WIDTH - RIGHT}" y2="{y:.1f}" stroke="#dddddd"/>'
        yield f'<text x="{LEFT - 8}" y="{y + 4:.1f}" text-anchor="end">{text}</text>'
    for time, text in time_marks(frame.first, frame.last):
        x = frame.x(time)
        yield f'<line x1="{x:.1f}" y1="{frame.base}" x2="{x:.1f}" y2="{frame.base + 6}" stroke="black"/>'
        # A text at either end would be cut off in the middle.
        anchor = "start" if x < LEFT + 40 else "end" if x > WIDTH - RIGHT - 40 else "middle"
        yield f'<text x="{x:.1f}" y="{frame.base + 22}" text-anchor="{anchor}">{text}</text>'
    yield f'<path d="M{LEFT} {frame.top}V{frame.base}H{WIDTH - RIGHT}" fill="none" stroke="black"/>'
    middle = (LEFT + WIDTH - RIGHT) / 2
    days = days_of(frame.first, frame.last)
    yield f'<text x="{middle}" y="{frame.base + 48}" text-anchor="middle">time, {days}, by the clock of the device</text>'


def drawn(logs):
    """The picture: logs are titles with their lines."""
    frame = Frame(logs, ABOVE + TITLE * len(logs))
    yield f'<svg xmlns="http://www.w3.org/2000/svg" viewBox="0 0 {WIDTH} {HEIGHT}" font-family="sans-serif" font-size="12">'
    yield f'<rect width="{WIDTH}" height="{HEIGHT}" fill="white"/>'
    yield from axes(frame)
    for place, (title, lines) in enumerate(logs):
        colour = COLOURS[place % len(COLOURS)]
        yield f'<text x="{LEFT}" y="{ABOVE + TITLE * place}" font-size="14" fill="{colour}">{escape(title)}</text>'
        for line in lines:
            points = " ".join(f"{frame.x(time):.1f},{frame.y(value):.1f}" for time, value in line)
            yield f'<polyline points="{points}" fill="none" stroke="{colour}"/>'
            if len(line) == 1:
                x, y = points.split(",")
                yield f'<circle cx="{x}" cy="{y}" r="2" fill="{colour}"/>'
    yield "</svg>"


def main(archive, *words):
    if not words or len(words) % 2:
        sys.exit(__doc__)
    base, logs = sqlite3.connect(archive), []
    for address, instance in zip(words[::2], words[1::2]):
        lines = lines_of(base, address, int(instance))
        if not lines:
            sys.exit(f"plot.py: {archive} has no number of {address} {instance}")
        name = name_of(base, address, int(instance))
        logs.append((f"{address} trend log {instance}" + (f": {name}" if name else ""), lines))
    base.close()
    print("\n".join(drawn(logs)))


if __name__ == "__main__":
    main(*sys.argv[1:])
