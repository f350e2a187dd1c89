#!/usr/bin/env python3
"""What of crates/ a reader would have to count: a line for each definition of specs/ with more than seven arguments by
position (parameters of records are some, implicit ones aren't), and for each line over its columns, 100 in src/ and 120
in specs/. It prints nothing where all is well.

    shape.py [FOLDER]

FOLDER is the top of the repository.
"""
import pathlib
import re
import sys

MOST_ARGUMENTS = 7
OPENS, CLOSES = "({[", ")}]"
DEFINITION = re.compile(r"(?:(?:abbrev|unfoldable|opaque) )?(?:pub )?(?:abbrev |unfoldable )?(\S+) : (.*)")
RECORD = re.compile(r"pub record (\S+)\s*(.*)")
KEYWORDS = {"use", "mod", "record", "data", "module"}


def pieces(text, mark):
    """The text cut at each mark that stands in no bracket."""
    depth, found = 0, [""]
    for letter in text:
        depth += (letter in OPENS) - (letter in CLOSES)
        if letter == mark and depth == 0:
            found.append("")
        else:
            found[-1] += letter
    return found


def groups(text):
    """The bracketed groups of a text, and for the rest, if there is one, one empty group."""
    found, depth, begin, rest = [], 0, 0, ""
    for place, letter in enumerate(text):
        if letter in OPENS and depth == 0:
            begin = place
        depth += (letter in OPENS) - (letter in CLOSES)
        if letter in CLOSES and depth == 0:
            found.append(text[begin : place + 1])
        elif depth == 0:
            rest += letter
    return found + [""] * bool(rest.strip())


def names_in(group):
    """How many explicit arguments a binder has: `(a b : X)` two, `{A : X}` none, a type without names one."""
    if group.startswith("{"):
        return 0
    head = pieces(group[1:-1], ":")
    return len(head[0].split()) if group.startswith("(") and len(head) > 1 else 1


def arguments(line, following):
    """The name of the definition that begins in this line, and how many arguments it takes; or None."""
    record = RECORD.match(line)
    if record:
        text = record[2]
        for more in following:
            if re.search(r"\bwhere\s*$", text):
                break
            text += " " + more.strip()
        return record[1], sum(names_in(it) for it in groups(pieces(text, ":")[0]) if it)
    plain = DEFINITION.match(line)
    if not plain or plain[1] in KEYWORDS:
        return None
    text = plain[2]
    for more in following:
        if not more.startswith("  "):
            break
        text += " " + more.strip()
    count = 0
    for part in pieces(text, "→")[:-1]:
        binders = [it for it in groups(part) if it]
        named = [it for it in binders if len(pieces(it[1:-1], ":")) > 1]
        count += sum(map(names_in, named)) if named and len(named) == len(binders) else 1
    return plain[1], count


def main():
    top = pathlib.Path(sys.argv[1] if len(sys.argv) > 1 else ".")
    for file in sorted(top.glob("crates/*/specs/**/*.antt")) + sorted(top.glob("crates/*/src/**/*.rt")):
        most = 120 if file.suffix == ".antt" else 100
        lines = file.read_text(encoding="utf-8").splitlines()
        for place, line in enumerate(lines, 1):
            where = f"{file.relative_to(top)}:{place}"
            if len(line) > most:
                print(f"{where}: {len(line)} columns, and {most} are the most")
            taken = arguments(line, lines[place:]) if file.suffix == ".antt" else None
            if taken and taken[1] > MOST_ARGUMENTS:
                print(f"{where}: {taken[0]} takes {taken[1]} arguments by position, and {MOST_ARGUMENTS} are the most")


main()
