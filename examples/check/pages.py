#!/usr/bin/env python3
"""Tells what is wrong with the pages of a repository: a link whose file, heading or name isn't there, a promise by a law or clause
that no source has, and more words or lines than a reader is to be asked for. Nothing is printed where nothing is wrong.

    examples/check/pages.py [TOP]
"""
import functools
import pathlib
import re
import sys

TOP = pathlib.Path(sys.argv[1] if len(sys.argv) > 1 else pathlib.Path(__file__).resolve().parent.parent.parent).resolve()
# All pages, the first page by lines, and those that say why and what, each by words.
WORDS, LINES, LIMITS = 45_000, 95, {"docs/DECISIONS.md": 9_000, "docs/PROMISES.md": 6_000}
# Pages that name laws and clauses.
BY_NAME = "README.md", "docs/PROMISES.md", "docs/SECURITY.md"


def bare(text):
    """A page without its blocks of code, in which nothing is a link or a heading."""
    return re.sub(r"^(?: {4}.*|```[\s\S]*?^```)$", "", text, flags=re.M)


@functools.cache
def headings(page):
    """What the headings of a page are called in links."""
    found = re.findall(r"^#+ +(.*)$", bare(page.read_text()), re.M)
    return {re.sub(r"[^\w\- ]", "", words.lower()).replace(" ", "-") for words in found}


def wrong_links(page):
    for words, link in re.findall(r"\[((?:[^\[\]]|\[[^\]]*\])*)\]\(([^)\s]+)\)", bare(page.read_text())):
        if re.match(r"[a-z]+:", link):
            continue
        path, _, heading = link.partition("#")
        file = (page.parent / path).resolve() if path else page
        if not file.exists():
            yield f"{link}: there is no such file"
        elif heading and heading not in headings(file):
            yield f"{link}: there is no such heading"
        elif file.suffix in (".antt", ".rt"):
            text = file.read_text()
            # A name is linked to the file that has it.
            for name in re.findall(r"`([^`]+)`", words):
                if not re.search(r"(?<!\w)" + re.escape(name.split("::")[-1].split(".")[-1]) + r"(?!\w)", text):
                    yield f"{link}: it has no {name}"


def missing_names():
    """The names of the pages that promise something which stand in no source."""
    files = [*TOP.glob("crates/*/src/**/*.rt"), *TOP.glob("crates/*/specs/**/*.antt"), *TOP.glob("examples/**/*.py"), *TOP.glob("examples/**/*.sh")]
    there = {word for file in files for word in re.findall(r"\w+", file.read_text())}
    for name in BY_NAME:
        for word in sorted(set(re.findall(r"`([a-z]+(?:_[a-z0-9]+)+)`", (TOP / name).read_text()))):
            if word not in there and not (TOP / "crates" / word).exists():
                yield f"{name}: no source has `{word}`"


def missing_crates():
    """The crates that neither ARCHITECTURE nor CONTRIBUTING has a line for."""
    text = (TOP / "docs/ARCHITECTURE.md").read_text() + (TOP / "CONTRIBUTING.md").read_text()
    for crate in re.findall(r"^(bac\w*):", (TOP / "crates.txt").read_text(), re.M):
        if f"`{crate}`" not in text:
            yield f"docs/ARCHITECTURE.md: it has no {crate}"


def missing_rooms():
    """The files of crates that CONTRIBUTING names and that aren't there; NAME stands for one that is to be made."""
    for line in (TOP / "CONTRIBUTING.md").read_text().splitlines():
        crate = None
        for named, pattern in re.findall(r"`(bac\w*)`|`((?:src|specs|proofs)/[^`]+)`", line):
            crate = named or crate
            head, braces, tail = re.match(r"([^{]*)(?:\{([^}]*)\}(.*))?", pattern).groups()
            for middle in braces.split(",") if braces else [""]:
                file = head + middle + (tail or "")
                if crate and pattern and "name" not in file.lower() and not (TOP / "crates" / crate / file).exists():
                    yield f"CONTRIBUTING.md: {crate} has no {file}"


def main():
    pages = [TOP / "README.md", TOP / "CONTRIBUTING.md", TOP / "CHANGELOG.md", *sorted((TOP / "docs").glob("*.md"))]
    count = {page: len(page.read_text().split()) for page in pages}
    for page in pages:
        for wrong in wrong_links(page):
            print(f"{page.relative_to(TOP)}: {wrong}")
    for wrong in [*missing_names(), *missing_crates(), *missing_rooms()]:
        print(wrong)
    for name, limit in LIMITS.items():
        if count[TOP / name] > limit:
            print(f"{name}: {count[TOP / name]} words, and {limit} are enough")
    if sum(count.values()) > WORDS:
        print(f"all pages: {sum(count.values())} words, and {WORDS} are enough")
    lines = len(pages[0].read_text().splitlines())
    if lines > LINES:
        print(f"README.md: {lines} lines, and {LINES} are enough")


if __name__ == "__main__":
    main()
