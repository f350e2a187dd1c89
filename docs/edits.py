#!/usr/bin/env python3
"""Writes the list of edits in WRONG-BODIES.md, between its two marks: of each crate the edits of must-fail/, by their names, with
a row of edits.rows where a name doesn't say all.

    edits.py            write the list
    edits.py --check    fail if the list isn't the one that would be written, or a row is of no edit
"""
import pathlib
import re
import sys

DOCS = pathlib.Path(__file__).resolve().parent
PAGE, ROWS, TOP = DOCS / "WRONG-BODIES.md", DOCS / "edits.rows", DOCS.parent
MARKS = re.compile(r"(<!-- of docs/edits\.py -->\n)[\s\S]*?(\n<!-- end -->)")


def rows():
    """What an edit does, by its crate and name."""
    lines = (line for line in ROWS.read_text().splitlines() if line and not line.startswith("#"))
    return {tuple(line.split(": ", 1)[0].split("/")): line.split(": ", 1)[1] for line in lines}


def edits():
    """The crates in the order of crates.txt, each with the names of its edits."""
    for line in (TOP / "crates.txt").read_text().splitlines():
        crate = re.match(r"(bac\w*):", line)
        names = sorted(file.stem for file in (TOP / "crates" / crate[1] / "must-fail").glob("*.edit")) if crate else []
        if names:
            yield crate[1], names


def listed(said):
    for crate, names in edits():
        texts = (f"`{name}`" + (f" ({said[crate, name]})" if (crate, name) in said else "") for name in names)
        yield f"- [{crate}](../crates/{crate}/must-fail): {', '.join(texts)}"


def main(words):
    said = rows()
    there = {(crate, name) for crate, names in edits() for name in names}
    strays = ["/".join(it) for it in said if it not in there]
    page = PAGE.read_text()
    made = MARKS.sub(lambda it: it[1] + "\n".join(listed(said)) + it[2], page)
    if words == ["--check"]:
        print("".join(f"docs/edits.rows: {it} is no edit\n" for it in strays), end="")
        if made != page:
            print("docs/WRONG-BODIES.md isn't what docs/edits.py makes of crates/*/must-fail")
        return int(bool(strays) or made != page)
    if words:
        print(__doc__)
        return 2
    PAGE.write_text(made)
    return 0


if __name__ == "__main__":
    sys.exit(main(sys.argv[1:]))
