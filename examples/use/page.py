#!/usr/bin/env python3
"""Draws an archive of `bac keep` as one page of HTML, for a screen, a phone or a wall:

    examples/use/page.py FILE [--days=N] [--title=TEXT] > site.html

FILE is an archive, or a folder of parts. Each trend log has a row: its newest value, when that was logged, and its curve,
open where records are missing. Tables of the gaps and of the epochs stand below. --days draws the newest N days alone.

FILE is read only, and let go as soon as it is copied into $TMPDIR, so a run of `bac keep` is hardly kept from it; one that
has it open is waited for, at most ten minutes. The page is one file: no script, no picture and no font from elsewhere."""
import argparse
import datetime
import html
import math
import os
import re
import sqlite3
import sys
import tempfile

# Nothing is left beside this script.
sys.dont_write_bytecode = True
from archive import Axis, Wrong, gathered, read

HOUR, DAY = 3600, 86400
# How far the marks of the axis of time lie apart, in seconds; those of years lie months apart.
TICKS = (1, 10, 60, 300, 900, HOUR, 2 * HOUR, 3 * HOUR, 6 * HOUR, 12 * HOUR, DAY, 2 * DAY, 5 * DAY, 10 * DAY)
# A curve is so high, in units of its own, and has so many columns; those of all curves are so many.
HEIGHT, MOST_COLUMNS, LEAST_COLUMNS, ALL_COLUMNS = 120, 600, 60, 360_000
# How many gaps the table has, at least one of each log.
LISTED = 2000

LOGS = {
    2: "SELECT id AS log, address, dnet, dadr, device AS device_instance, NULL AS device_name, NULL AS answered, NULL AS offset,"
       " instance, name, NULL AS source, NULL AS units, NULL AS description, stopped, 0 AS device_stopped FROM logs",
    3: "SELECT l.id AS log, d.address, d.dnet, d.dadr, d.instance AS device_instance, d.name AS device_name, d.answered, d.offset,"
       " l.instance, l.name, l.source, l.units, l.description, d.stopped OR ifnull(l.stopped, 0) AS stopped, d.stopped AS device_stopped"
       " FROM devices d LEFT JOIN logs l ON l.device = d.id",
}
BEGINNINGS = {2: "SELECT id, number, NULL FROM beginnings ORDER BY id", 3: "SELECT id, number, why FROM beginnings ORDER BY id"}
SPAN = ("SELECT strftime('%s', substr(min(stamp), 1, 19)), strftime('%s', substr(max(stamp), 1, 19)) FROM items"
        " WHERE last IS NULL AND instr(stamp, '*') = 0 AND stamp < ?")

# The units that are common, by their numbers in the standard.
UNITS = {"enum(62)": "°C", "enum(64)": "°F", "enum(63)": "K", "enum(98)": "%", "enum(95)": "", "enum(29)": "% RH", "enum(96)": "ppm",
         "enum(53)": "Pa", "enum(54)": "kPa", "enum(55)": "bar", "enum(47)": "W", "enum(48)": "kW", "enum(18)": "Wh", "enum(19)": "kWh",
         "enum(5)": "V", "enum(3)": "A", "enum(27)": "Hz", "enum(87)": "l/s", "enum(136)": "l/h", "enum(135)": "m³/h", "enum(80)": "m³",
         "enum(37)": "lx"}
OBJECTS = {0: "Analog Input", 1: "Analog Output", 2: "Analog Value", 3: "Binary Input", 4: "Binary Output", 5: "Binary Value",
           8: "Device", 12: "Loop", 13: "Multi-state Input", 14: "Multi-state Output", 19: "Multi-state Value",
           23: "Accumulator", 45: "Integer Value", 46: "Large Analog Value", 48: "Positive Integer Value"}
PRESENT_VALUE = 85
FLAGS = ("in alarm", "fault", "overridden", "out of service")
STATES = ("log disabled", "buffer purged", "log interrupted")

# ---- texts

def shown(text):
    """A text of a device: no markup, no control character, and no mark of direction that leaves its place."""
    if not text:
        return ""
    text = "".join("\N{REPLACEMENT CHARACTER}" if ord(it) < 32 or 127 <= ord(it) < 160 else it for it in text)
    return f"<bdi>{html.escape(text)}</bdi>"


def joined(*texts):
    """Those of the texts that say something, side by side."""
    return " · ".join(text for text in texts if text)


def counted(number, word):
    return f"{number:,} {word}{'' if number == 1 else 's'}"


def moment(stamp):
    """A stamp for people, to the minute; one that isn't whole as it is."""
    return html.escape(stamp) if "*" in stamp else stamp[:16].replace("T", " ")


def date_of(at):
    return datetime.datetime(1970, 1, 1) + datetime.timedelta(seconds=at)


def number_text(value):
    """A whole number is written whole, and of any other so much as one reads at a glance."""
    if value == int(value) and abs(value) < 1e10:
        return f"{value:,.0f}"
    return f"{value:,.1f}" if 1000 <= abs(value) < 1e9 else f"{value:.4g}"


def value_of(record):
    """The newest value, as a number or in words."""
    if record.value is not None and math.isfinite(record.value) and not record.datum.startswith(("true", "false")):
        return number_text(record.value)
    status = re.fullmatch(r"status\(([01]{3})\)", record.datum)
    if status:
        return ", ".join(word for word, bit in zip(STATES, status[1]) if bit == "1") or "log enabled"
    return html.escape(record.datum[:40])


def source_of(text):
    """`object(0,1).85` in the standard's names, where they are known."""
    found = re.fullmatch(r"object\(([0-9]+),([0-9]+)\)\.([0-9]+)(\[[0-9]+\])?(@[0-9]+)?", text or "")
    if not found or int(found[1]) not in OBJECTS:
        return html.escape(text or "")
    place = "" if int(found[3]) == PRESENT_VALUE else f", property {found[3]}"
    return f"{OBJECTS[int(found[1])]} {found[2]}{place}{found[4] or ''}" + (f" of device {found[5][1:]}" if found[5] else "")


def place_of(log):
    return log["address"] + (f"/{log['dnet']}/{log['dadr']}" if log["dnet"] else "")


def order_of(log):
    """Logs stand in the order of their devices' addresses, as numbers, and of their instances."""
    return [int(it) for it in re.findall("[0-9]+", log["address"])], log["dnet"], log["dadr"], log["instance"] or 0


def name_of(log):
    """What a log is called on the page: its name, or else that of its number."""
    return shown(log["name"]) if log["name"] else f"Trend Log {log['instance']}"


# ---- the drawing

def ticks_of(axis):
    """Where the axis has marks, in parts of its length, and what they say."""
    span = axis.last - axis.first or 1
    begin, marks = date_of(axis.first), []
    if span > 100 * DAY:
        months = next((it for it in (1, 2, 3, 6) if span / (30 * DAY) / it <= 10), 12 * math.ceil(span / (365 * DAY) / 10))
        month = begin.year * 12
        while (mark := datetime.datetime(month // 12, month % 12 + 1, 1)) <= date_of(axis.last):
            marks.append((mark, mark.strftime("%Y-%m")))
            month += months
    else:
        step = next(it for it in TICKS if span / it <= 10)
        midnight = datetime.datetime(begin.year, begin.month, begin.day)
        mark = midnight + (begin - midnight) // datetime.timedelta(seconds=step) * datetime.timedelta(seconds=step)
        while mark <= date_of(axis.last):
            is_day = step >= DAY or mark.time() == datetime.time()
            marks.append((mark, mark.strftime("%m-%d" if is_day else "%H:%M" if step >= 60 else "%H:%M:%S")))
            mark += datetime.timedelta(seconds=step)
    places = [(((mark - begin).total_seconds() / span), text) for mark, text in marks]
    return [(place, text) for place, text in places if 0 <= place <= 1]


def path_of(line, height_of, is_step):
    """The path of a line: within a column from its first to its least, greatest and last value."""
    x, y = line[0][0], height_of(line[0][1])
    words = [f"M{x} {y}"]
    for column, *values in line:
        for value in values:
            across, down = column - x, height_of(value) - y
            if across:
                words.append(f"h{across}" + (f"v{down}" if down else "") if is_step else f"l{across} {down}")
            elif down:
                words.append(f"v{down}")
            x, y = column, y + down
    return "".join(words) + ("h0" if len(words) == 1 else "")


def ends_of(least, greatest):
    """What stands at the upper and the lower end of a curve, with so many places that they can be told apart."""
    span = greatest - least
    if not span or max(abs(least), abs(greatest)) >= 1e9 or span < 1e-4:
        return [number_text(it) for it in sorted({least, greatest}, reverse=True)]
    places = 0 if least == int(least) and greatest == int(greatest) else max(0, 2 - math.floor(math.log10(span)))
    return [f"{it:,.{places}f}" for it in (greatest, least)]


def drawing_of(curve, ticks, title):
    """The curve of a log, stretched to the width that it gets, and the values at its upper and lower end."""
    columns, lines = curve.axis.columns, curve.points()
    least = min((point[2] for line in lines for point in line), default=0.0)
    greatest = max((point[3] for line in lines for point in line), default=0.0)
    span = greatest - least

    def height_of(value):
        return round(HEIGHT - 6 - (value - least) / span * (HEIGHT - 12)) if span else HEIGHT // 2

    marks = "".join(f"M{place * columns:.0f} 0v{HEIGHT}" for place, _ in ticks)
    parts = [f'<path class="tick" d="{marks}"/>']
    for left, right, is_doubtful in curve.bands:
        wide, kind = max(right - left, columns / 200), "doubt" if is_doubtful else "gap"
        parts.append(f'<rect class="{kind}" x="{min(left, columns - wide):g}" width="{wide:g}" height="{HEIGHT}"/>')
    for _epoch, record in curve.marks:
        if record.at is not None and curve.axis.first <= record.at <= curve.axis.last:
            parts.append(f'<path class="epoch" d="M{curve.column_of(record.at)} 0v{HEIGHT}"/>')
    parts.append('<path class="curve" d="' + "".join(path_of(line, height_of, curve.is_step) for line in lines) + '"/>')
    svg = f'<svg viewBox="0 0 {columns} {HEIGHT}" preserveAspectRatio="none" role="img" aria-label="{title}">{"".join(parts)}</svg>'
    doubts = [(left + right) / 2 / columns for left, right, is_doubtful in curve.bands if is_doubtful]
    svg += "".join(f'<i style="left:{place:.2%}">?</i>' for place in doubts)
    return svg, "".join(f"<span>{end}</span>" for end in ends_of(least, greatest))


def changes_of(curve):
    """What a log without numbers has instead of a curve."""
    rows = "".join(f"<li><time>{moment(it.stamp)}</time> {value_of(it)}</li>" for it in reversed(curve.changes))
    return f"<ol>{rows}</ol>"


# ---- the page

def silence_of(log, curve, site):
    """Since when nothing came: the device's last reply, where the archive has it, or else the newest record. As of `bac kept
    --last`, a device is silent whose last reply lies neither in the hour of the site's last one nor in the hour before."""
    if site.version == 3:
        if log["device_stopped"] or not site.answered:
            return ""
        if not log["answered"]:
            return "never answered"
        return f"silent since {log['answered'][:10]}" if site.answered // HOUR - seconds(log["answered"]) // HOUR > 1 else ""
    newest = curve and curve.newest and curve.newest.at
    is_behind = newest is not None and site.axis.last - newest > max(DAY, 4 * curve.spacing())
    return f"nothing since {curve.newest.stamp[:10]}" if is_behind else ""


def seconds(text):
    return (datetime.datetime.fromisoformat(text[:19].replace("T", " ")) - datetime.datetime(1970, 1, 1)).total_seconds()


def now_of(log, curve, site):
    """The newest value, when that was, and what is to be known of it."""
    newest, text = curve.newest, '<span class="none">no record yet</span>'
    if newest:
        unit = UNITS.get(log["units"], log["units"] or "") if newest.value is not None else ""
        text = f'<b>{value_of(newest)}</b> {html.escape(unit)}<small>{moment(newest.stamp)}</small>'
    flags = [word for word, bit in zip(FLAGS, newest and newest.flags or "") if bit == "1"] + ["stopped"] * log["stopped"]
    silence = "" if log["stopped"] else silence_of(log, curve, site)
    text += "".join(f'<em class="flag">{flag}</em>' for flag in flags)
    return text + (f'<em class="silent">{silence}</em>' if silence else "")


def row_of(log, curve, site):
    """The row of a log."""
    about = joined(log["name"] and f"Trend Log {log['instance']}", source_of(log["source"]), shown(log["description"]))
    count = joined(counted(curve.records, "record"), curve.gap_count and counted(curve.gap_count, "gap"))
    picture, ends = "", ""
    if curve.drawn or curve.bands:
        picture, ends = drawing_of(curve, site.ticks, html.escape(f"trend log {log['instance']} of {place_of(log)}", True))
    elif curve.records:
        picture = changes_of(curve)
    return (f'<article><div class="what"><b>{name_of(log)}</b><small>{about}</small><small>{count}</small></div>'
            f'<div class="now">{now_of(log, curve, site)}</div><div class="picture">{picture}</div><div class="ends">{ends}</div></article>\n')


def device_of(log, site):
    """The heading of a device."""
    known = log["device_instance"] is not None
    name = shown(log["device_name"]) if log["device_name"] else f"Device {log['device_instance']}" if known else place_of(log)
    ahead = log["offset"] or 0
    about = joined(known and log["device_name"] and f"device {log['device_instance']}", (known or log["device_name"]) and place_of(log),
                   log["answered"] and f"last reply {moment(log['answered'])} UTC",
                   abs(ahead) >= 60 and f"its clock is {counted(abs(ahead), 'second')} {'ahead of' if ahead > 0 else 'behind'} UTC")
    silence = site.version == 3 and silence_of(log, None, site)
    heading = f'<h2>{name} <small>{about}</small>' + (f' <small class="silent">{silence}</small>' if silence else "") + "</h2>\n"
    ticks = "".join(f'<span style="left:{place:.2%}">{text}</span>' for place, text in site.ticks)
    return [heading] + [f'<div class="axis"><div class="ticks">{ticks}</div></div>\n'] * (log["log"] is not None)


def cells(log, *texts, kind=""):
    """A row of a table about a log."""
    texts = (f'{name_of(log)}<small>{place_of(log)} {log["instance"]}</small>', *texts)
    return f'<tr class="{kind}">' + "".join(f"<td>{text}</td>" for text in texts) + "</tr>\n"


def gap_rows(log, curve):
    """The gaps of a log in the table."""
    for gap in curve.gaps:
        means = "dropped, or the log began anew" if gap.is_doubtful else "overwritten or purged before it was fetched"
        between = [moment(stamp) if stamp else "…" for stamp in (gap.before, gap.behind)]
        numbers = f"{gap.first}" if gap.first == gap.last else f"{gap.first}–{gap.last}"
        yield cells(log, numbers, f"{gap.last - gap.first + 1:,}", *between, means, kind="doubt" if gap.is_doubtful else "gap")
    if curve.gap_count > len(curve.gaps):
        yield cells(log, f"{counted(curve.gap_count - len(curve.gaps), 'older gap')}, not listed", "", "", "", "")


def epoch_rows(log, curve, beginnings):
    """The epochs of a log behind its first one."""
    first = dict(curve.marks)
    for at, number, why in beginnings.get(log["log"], ())[1:]:
        record = first.get(at & 32767)
        yield cells(log, at & 32767, number, moment(record.stamp) if record else "…",
                    html.escape(why or "began anew, or its numbers came round"))


class Site:
    """All that the page says, as it is read."""

    def __init__(self, base, version, file, days):
        base.row_factory, base.text_factory = sqlite3.Row, lambda octets: octets.decode("utf-8", "replace")
        self.version, self.base = version, base
        self.logs = sorted(base.execute(LOGS[version]), key=order_of)
        self.kept = sum(log["log"] is not None for log in self.logs)
        self.answered = max((seconds(log["answered"]) for log in self.logs if log["answered"]), default=0)
        self.beginnings = {}
        for row in map(tuple, base.execute(BEGINNINGS[version])):
            self.beginnings.setdefault(row[0] >> 15, []).append(row)
        # No clock is right that is more than a day ahead of the moment at which the file was written.
        latest = date_of(os.path.getmtime(file) + DAY).isoformat()
        first, last = (int(it) if it else 0 for it in base.execute(SPAN, (latest,)).fetchone())
        columns = max(LEAST_COLUMNS, min(MOST_COLUMNS, ALL_COLUMNS // (self.kept or 1)))
        self.axis = Axis(max(first, last - days * DAY) if days else first, last, columns)
        self.ticks = ticks_of(self.axis)
        self.rows, self.gaps, self.epochs = [], [], []
        self.records = self.thinned = self.undrawn = self.gap_count = self.doubtful = 0
        self.silent = set()
        base.row_factory, base.text_factory = None, str

    def read(self):
        place = None
        for log in self.logs:
            if place != place_of(log):
                self.rows += ["</section>\n"] * bool(place) + ["<section>\n", *device_of(log, self)]
                place = place_of(log)
            if log["log"] is None:
                self.rows.append('<p class="none">No trend log of it is on record.</p>\n')
                self.silent |= {place} if silence_of(log, None, self) else set()
                continue
            self.add(log, read(self.base, log["log"], self.axis, max(1, LISTED // self.kept)))
        self.rows += ["</section>\n"] * bool(place)

    def add(self, log, curve):
        self.rows.append(row_of(log, curve, self))
        self.gaps += gap_rows(log, curve)
        self.epochs += epoch_rows(log, curve, self.beginnings)
        for count in ("records", "undrawn", "gap_count", "doubtful"):
            setattr(self, count, getattr(self, count) + getattr(curve, count))
        self.thinned += curve.drawn > sum(map(len, curve.points()))
        if not log["stopped"] and silence_of(log, curve, self):
            self.silent.add(place_of(log) if self.version == 3 else log["log"])


def style():
    """The page's style, which lies beside this script."""
    with open(os.path.join(os.path.dirname(os.path.realpath(__file__)), "page.css"), encoding="utf-8") as file:
        return file.read()


def facts_of(site):
    """The figures at the head of the page, and which of them are bad."""
    devices = len({place_of(log) for log in site.logs})
    yield "", f"{devices:,}", "device" if devices == 1 else "devices"
    yield "", f"{site.kept:,}", "trend log" if site.kept == 1 else "trend logs"
    yield "", f"{site.records:,}", "record" if site.records == 1 else "records"
    silent, what = len(site.silent), "device" if site.version == 3 else "log"
    yield "bad" if silent else "", f"{silent:,}", f"silent {what}" + ("" if silent == 1 else "s")
    yield "bad" if site.gap_count else "", f"{site.gap_count:,}", "gap" if site.gap_count == 1 else "gaps"
    if site.doubtful:
        yield "bad", f"{site.doubtful:,}", "doubtful"


def notes_of(site):
    """How the page is to be read, and what it leaves out."""
    yield "Times are those of each device's own clock, but where UTC stands."
    yield (f"A curve has {site.axis.columns} columns; each shows the first, least, greatest and last value of its records. "
           f"{counted(site.thinned, 'curve')} had more records than that shows, and "
           f"{'was' if site.thinned == 1 else 'were'} thinned so: no peak is lost.")
    if site.undrawn:
        yield (f"{counted(site.undrawn, 'record')} without a full date, or dated more than a day behind the moment at which the archive "
               "was written, can't be drawn.")


def table_of(title, heads, rows):
    """A table with its title; nothing where it has no rows."""
    if rows:
        yield f'<h2>{title}</h2>\n<div class="wide"><table><tr>' + "".join(f"<th>{head}</th>" for head in heads) + "</tr>\n"
        yield from rows
        yield "</table></div>\n"


def legend_of(site):
    """What the marks of the curves mean, of those that are there."""
    marks = [("gap", "gap: overwritten or purged before it was fetched", site.gap_count > site.doubtful),
             ("doubt", "doubtful gap: overwritten or purged, or the log began anew", site.doubtful),
             ("epoch", "a new epoch: the log's numbers begin again", site.epochs)]
    return "".join(f'<span><i class="{mark}"></i>{text}</span>' for mark, text, is_there in marks if is_there)


def page_of(site, title):
    """The page, piece by piece."""
    first, last = (date_of(it).strftime("%Y-%m-%d %H:%M") for it in site.axis[:2])
    now = datetime.datetime.now(datetime.timezone.utc).strftime("%Y-%m-%d %H:%M")
    yield ('<!DOCTYPE html>\n<html lang="en"><head><meta charset="utf-8">'
           '<meta name="viewport" content="width=device-width, initial-scale=1">\n'
           f"<title>{html.escape(title)}</title>\n<style>\n{style()}</style></head>\n<body>\n<header><h1>{shown(title)}</h1>\n"
           f'<p class="about">{first} to {last} · page made {now} UTC</p>\n<dl class="facts">')
    for kind, number, word in facts_of(site):
        yield f'<div class="{kind}"><dt>{word}</dt><dd>{number}</dd></div>'
    yield f'</dl>\n<p class="legend">{legend_of(site)}</p></header>\n<main>\n'
    yield from site.rows
    yield from table_of("Gaps", ("Log", "Numbers missing", "Records", "After", "Before", "Means"), site.gaps)
    yield from table_of("Epochs", ("Log", "Epoch", "From number", "First record", "Why"), site.epochs)
    yield "</main>\n<footer>" + "".join(f"<p>{note}</p>" for note in notes_of(site)) + "</footer>\n</body></html>\n"


def main():
    words = argparse.ArgumentParser(description="Draws an archive of bac keep as one page of HTML.")
    words.add_argument("FILE")
    words.add_argument("--days", type=int, default=0, help="draw the newest DAYS days alone")
    words.add_argument("--title", help="the page's title, FILE where none is given")
    given = words.parse_args()
    try:
        with tempfile.TemporaryDirectory() as room:
            base, version = gathered(given.FILE, room)
            site = Site(base, version, given.FILE, max(0, given.days))
            site.read()
            base.close()
    except (Wrong, OSError, sqlite3.Error) as error:
        sys.exit(f"page.py: {given.FILE}: {error}")
    sys.stdout.reconfigure(encoding="utf-8")
    sys.stdout.writelines(page_of(site, given.title or os.path.splitext(os.path.basename(os.path.abspath(given.FILE)))[0]))


if __name__ == "__main__":
    main()
