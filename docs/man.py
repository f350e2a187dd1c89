#!/usr/bin/env python3
"""Prints the man page of `bac`, docs/bac.1, made of the tools' own help (examples/check/*.help).

    docs/man.py > docs/bac.1
"""
import os
import re

ROOT = os.path.dirname(os.path.dirname(os.path.abspath(__file__)))
TOOLS = ("wi", "rp", "wp", "log", "logs", "keep", "kept", "check", "serve", "replay")
# Options that several tools have are told once.
SHARED = ("--timeout", "--local", "--trace", "--retries", "--dnet", "--dadr")

HEAD = r""".\" Made by docs/man.py of the help of each tool.
.TH BAC 1 "" "Mantelanise" "User Commands"
.SH NAME
bac \- BACnet/IP tools: find devices, read and write properties, poll trend logs, simulate a device
.SH SYNOPSIS
"""

DESCRIPTION = r""".SH DESCRIPTION
Results go to standard output, faults to standard error, and the exit status tells which kind of fault it was.
Arguments are read first, then the input of
.BR serve ,
.B wi \-
or
.B keep
FILE
.B \-
to its end; the socket is opened last. Objects, types and properties are given as the numbers of the standard; see
NUMBERS.
"""

SCRIPTS = r""".SH SCRIPTS
A line is words with one space between two. An empty line, or one that begins with #, does nothing.
.SS The device, before anything happens
.TP
.BI device " INSTANCE NAME VENDOR REPLY STAMP"
The device; REPLY is the greatest size of a reply, 50 to 1476, and STAMP, as 2024-05-06T07:08:09.10, where its clock
begins.
.TP
.BI binary " INSTANCE NAME DEFAULT"
A Binary Value; DEFAULT is its Relinquish_Default, 0 or 1.
.TP
.BI multistate " INSTANCE NAME STATES DEFAULT"
A Multi-state Value.
.TP
.BI integer " INSTANCE NAME DEFAULT"
An Integer Value.
.TP
.BI log " INSTANCE NAME KIND SOURCE CAPACITY INTERVAL LOGGED"
A Trend Log of the Present_Value of object SOURCE of KIND device, binary, multistate, integer or log: how many records
it holds, its interval in hundredths of a second (0: none), how many records it logged before.
.SS What happens, which a configuration of serve doesn't have
.TP
.BI rx " HEX"
A datagram comes; prints
.B tx
HEX, the reply, or
.BR none .
.TP
.BI clock " STAMP"
The clock comes to STAMP; prints
.B sampled
N, how many records the logs took, or
.BR "clock back" .
.TP
.BI sample " INSTANCE"
The Trend Log takes a record; prints
.B number
K, or why it takes none.
.TP
.BI walk " LOG FROM STEPS"
A client fetches Trend Log LOG; prints what
.B log
prints.
"""

TAIL = r""".SH SEE ALSO
TOOLS.md, ARCHIVE.md, SECURITY.md and the folder examples, which the package puts into /usr/share/doc/mantelanise.
"""


def escaped(text):
    """A line of text as roff takes it."""
    text = text.replace("\\", "\\e").replace("-", "\\-")
    return "\\&" + text if text[:1] in (".", "'") else text


def blocks(text):
    """Paragraphs, and behind each whether it is to be printed as it is: its lines are indented."""
    for block in re.split(r"\n\n+", text.strip("\n")):
        lines = block.split("\n")
        shown = []
        for line in lines:
            if shown and line.startswith("  ") != shown[-1].startswith("  "):
                yield shown, shown[0].startswith("  ")
                shown = []
            shown.append(line)
        yield shown, shown[0].startswith("  ")


def prose(line):
    """A line of a paragraph. A command begins a line of its own, and so does what follows a line that is one alone."""
    alone = line.startswith("Example: ") or re.fullmatch(r"bac .*( -|\d)", line)
    return (".br\n" if line.startswith("bac ") else "") + escaped(line) + ("\n.br\n" if alone else "\n")


def body(text):
    """A text of paragraphs and indented blocks."""
    made = ""
    for lines, kept in blocks(text):
        made += ".PP\n" + (".nf\n" + "\n".join(map(escaped, lines)) + "\n.fi\n" if kept else "".join(map(prose, lines)))
    return made


def entries(section):
    """The words of a section of the help, each with what it says."""
    return re.findall(r"^ +(?:-., )?(\S.*?)  +(\S.*)$", section, re.M)


class Help:
    """The help of one tool: what it does, its words, and the text behind them."""

    def __init__(self, name):
        with open(f"{ROOT}/examples/check/{name}.help", encoding="utf-8") as file:
            text = file.read()
        self.about = text.split("\n", 1)[0]
        self.usage = re.search(r"^Usage: bac(?: \w+)?(.*)$", text, re.M).group(1)
        sections = re.split(r"^(Arguments|Options|Commands):\n", text, flags=re.M)
        words = dict(zip(sections[1::2], sections[2::2]))
        last, behind = (sections[-1].split("\n\n", 1) + [""])[:2]
        words[sections[-2]] = last
        self.arguments = entries(words.get("Arguments", ""))
        self.options = [entry for entry in entries(words["Options"]) if entry[0] not in ("--help", "--version")]
        self.behind = behind

    def without_numbers(self):
        """The text behind its words, without the lists that NUMBERS has."""
        return re.split(r"\s+'error'\s+is\s+printed|\s+The numbers in arguments", self.behind)[0]


def tagged(entry):
    """A word and what it says, as a paragraph with a tag."""
    return f".TP\n.B {escaped(entry[0])}\n{escaped(entry[1])}\n"


def is_own(tool, option):
    """Whether an option is told at its tool: it is no other's, or says something else there."""
    return option not in SHARED or (tool, option) == ("wi", "--dnet")


def numbers(text):
    """The lists of numbers in the help of `rp`."""
    made = ".SH NUMBERS\n"
    for name, items in re.findall(r"^  (TYPE|PROPERTY|error|reject|abort) +((?:.|\n {12})*)", text, re.M):
        tag = {"error": "error CLASS CODE", "reject": "reject REASON", "abort": "abort REASON"}.get(name, name)
        made += f".TP\n.B {tag}\n{escaped(' '.join(items.split()))}.\n"
    last = re.search(r"^After abort(?:.|\n)*\Z", text, re.M).group(0)
    return made + ".PP\n" + escaped(" ".join(last.split())) + "\n"


def main():
    helps = {tool: Help(tool) for tool in TOOLS}
    top = Help("bac")
    page = HEAD
    page += ".br\n".join(f".B bac {tool}{escaped(helps[tool].usage)}\n" for tool in TOOLS)
    page += DESCRIPTION + ".SH TOOLS\n"
    for tool, text in helps.items():
        page += f".SS {tool}\n{escaped(text.about)}.\n"
        page += "".join(map(tagged, text.arguments))
        page += "".join(tagged(option) for option in text.options if is_own(tool, option[0].split()[0]))
        page += body(text.without_numbers())
    page += ".SH OPTIONS OF SEVERAL TOOLS\n"
    page += "".join(tagged(option) for option in helps["log"].options if option[0].split()[0] in SHARED)
    page += SCRIPTS + numbers(helps["rp"].behind)
    status = top.behind.split("Exit status:\n")[1]
    page += ".SH EXIT STATUS\n"
    for number, meaning in re.findall(r"^  (\d)  (.*(?:\n     .*)*)", status, re.M):
        page += f".TP\n.B {number}\n{escaped(' '.join(meaning.split()))}.\n"
    print(page + TAIL, end="")


if __name__ == "__main__":
    main()
