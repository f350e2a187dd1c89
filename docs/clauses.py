#!/usr/bin/env python3
"""Writes CLAUSES.md: of each crate the laws; and in the crates that the doors stand on the public calls that have clauses with
names, and of a law that PROMISES.md doesn't name the first sentence of its doc comment.

    clauses.py            write the page
    clauses.py --check    fail if the page isn't the one that would be written
    clauses.py --bare     list the public calls that have no doc comment

A call or a law is a `pub fn`, a function of a `pub trait`, or one with clauses of its own in an implementation of a
trait, if the crate gives its name to others. A law is a function that takes and gives nothing, or stands in a file of
laws."""
import pathlib
import re
import sys

TOP = pathlib.Path(__file__).resolve().parent.parent
PAGE, PROMISES = TOP / "docs" / "CLAUSES.md", TOP / "docs" / "PROMISES.md"
CRATES = TOP / "crates"
# What a caller of the libraries names: with all that it stands on, its laws have their sentences here.
DOORS, PROGRAM = ("bac_client", "bac_device", "bac_archive"), "bac_run"
# Crates of tests, of which nothing is promised; programs have no lib.rt.
TESTS = re.compile(r".*_tests$|bac_scripted_link$")

HEAD = """# Laws and calls, crate by crate

Made by `docs/clauses.py` of the comments and contracts in the sources. [PROMISES](PROMISES.md) has what a user needs, in order,
and says what most of the laws do that have no sentence here; the comments of the others stand above them. A law does nothing:
what it ensures holds. Behind *Calls* stand the public calls, of the crates that the doors `bac_client`, `bac_device` and
`bac_archive` reach and of the program, whose contract has clauses with names, and these: `found` says that what is read is
encoded so, `only` that what is encoded so is read, `exact` both as a function, which also tells the first fault; `ok`, `err` and
the names of faults when a call answers so.
"""


# ---- the text of a source


def blank(text):
    """The text with its comments, characters and strings blanked out, each letter by a space, so that places stay."""
    pattern = r'//[^\n]*|"(?:\\[\s\S]|[^"\\])*"|\'(?:\\.|[^\'\\\n])\''
    return re.sub(pattern, lambda found: re.sub(r"[^\n]", " ", found[0]), text)


def closing(text, place):
    """Behind the bracket that closes the one at a place."""
    depth = 0
    for at in range(place, len(text)):
        depth += (text[at] in "({[") - (text[at] in ")}]")
        if depth == 0:
            return at + 1
    raise SystemExit(f"no bracket closes {text[place : place + 60]!r}")


def comment_above(lines, row):
    """The words of the doc comment over a line, and of its attributes none."""
    found, row = [], row - 1
    while row >= 0 and re.match(r"\s*(///|#\[|//(?!/))", lines[row]):
        said = re.match(r"\s*/// ?(.*)", lines[row])
        if said:
            found.insert(0, said[1])
        row -= 1
    paragraph = "\n".join(found).split("\n\n")[0]
    return " ".join(paragraph.split())


def first_sentence(words):
    """Up to the first point that ends a sentence."""
    found = re.match(r"(.*?[.!?])(?=\s+[A-Z`\[(\"'0-9]|$)", words)
    return re.sub(r"\[(`[^`]*`)\](?:\([^)]*\))?", r"\1", found[1] if found else words).strip()


# ---- the calls of a crate


class Call:
    """A function: whose it is, its file, its comment, and the names of its clauses."""

    def __init__(self, owner, name, file, comment, clauses, is_law):
        self.owner, self.name, self.file = owner, name, file
        self.comment, self.clauses, self.is_law = comment, clauses, is_law

    def shown(self):
        return f"{self.owner}::{self.name}" if self.owner else self.name


def owners(bare):
    """Each `impl` and `trait` of a text: where its body begins and ends, whose it is, the trait that is implemented,
    and whether it is a trait itself."""
    found = []
    for head in re.finditer(r"^( *)(?:(pub(?:\([a-z]+\))?) )?(impl|trait)\b([^{;]*)\{", bare, re.M):
        words = re.sub(r"\bwhere\b.*", "", head[4], flags=re.S)
        while re.search(r"<[^<>]*>", words):
            words = re.sub(r"<[^<>]*>", "", words)
        words = words.replace("&", " ").replace("mut ", " ")
        body = head.end() - 1
        of_trait = None
        if head[3] == "trait":
            owner = words.split(":")[0].split()[0]
        else:
            first, _, second = words.partition(" for ")
            owner = (second or first).split()[0]
            of_trait = first.split()[0].split("::")[-1] if second else None
        found.append((body, closing(bare, body), owner.split("::")[-1], of_trait, head[3] == "trait"))
    return found


def clauses_at(bare, place):
    """The clauses of a function whose parameters begin at a place: their names, and whether there are any."""
    at, names, any_at_all = closing(bare, place), [], False
    while True:
        found = re.compile(r"[;{]|\b(ensures|requires)\b\*?(?:\s+(\w+))?\s*(?=\{)").search(bare, at)
        if not found or not found[1]:
            return names, any_at_all
        end = closing(bare, found.end())
        if found[1] == "ensures" and found[2]:
            names.append(found[2])
        at, any_at_all = end, True


def calls_of(file):
    """Every public function of a file, whoever may name it, in its order."""
    text = file.read_text()
    bare, lines = blank(text), text.split("\n")
    homes = owners(bare)
    for head in re.finditer(r"^( *)(?:(pub) )?(?:const )?fn (\w+)", bare, re.M):
        place = head.start()
        inside = [home for home in homes if home[0] < place < home[1]]
        owner, of_trait, is_trait = inside[-1][2:] if inside else (None, None, False)
        if not (head[2] or is_trait or of_trait):
            continue
        # The parameters stand behind the generic ones, which have no brackets of their own.
        opens = bare.index("(", head.end())
        named, said = clauses_at(bare, opens)
        if of_trait and not said:
            continue
        row = text[:place].count("\n")
        takes_nothing = not bare[opens : closing(bare, opens)].strip("() \n")
        gives_nothing = not bare[closing(bare, opens) :].lstrip().startswith("->")
        is_law = said and (file.stem == "laws" or takes_nothing and gives_nothing)
        yield Call(owner, head[3], file, comment_above(lines, row), named, is_law)


def given(crate):
    """The names that a crate gives to others, and the files of which it gives all."""
    source = crate / "src"
    names, files = set(), set()

    def visit(file, folder):
        text = blank(file.read_text())
        for listed in re.findall(r"^pub use [\w:]*?(?:\{([^}]*)\}|(\w+))(?: as \w+)?;", text, re.M | re.S):
            names.update(name.split(" as ")[0].split("::")[-1].strip() for part in listed for name in part.split(","))
        for inner in re.findall(r"^pub mod (\w+);", text, re.M):
            files.add(folder / f"{inner}.rt")
        for inner in re.findall(r"^(?:pub )?mod (\w+);", text, re.M):
            below = folder / f"{inner}.rt"
            if below.exists():
                visit(below, folder / inner)

    visit(source / "lib.rt", source)
    return names, files


# ---- the page


def link(name, path):
    return f"[`{name}`](../{path.relative_to(TOP)})"


def public_calls(crate):
    """The calls and laws that a crate gives to others."""
    names, files = given(crate)
    for file in sorted((crate / "src").glob("**/*.rt")):
        for call in calls_of(file):
            if (call.owner or call.name) in names or file in files:
                yield call


def reached(names):
    """These crates and all below them, by crates.txt."""
    below = {found[1]: found[2].split() for found in re.finditer(r"^(bac\w*):(.*)", (TOP / "crates.txt").read_text(), re.M)}
    there, waiting = set(), list(names)
    while waiting:
        name = waiting.pop()
        if name in below and name not in there:
            there.add(name)
            waiting += [word for word in below[name] if not word.startswith("#")]
    return there


def crate_page(crate, promised, with_sentences):
    """The lines of a crate: its laws that have a sentence here, the others, and its calls."""
    calls = list(public_calls(crate))
    laws = [call for call in calls if call.is_law]
    said = [law for law in laws if with_sentences and law.name not in promised]
    others = [link(law.shown(), law.file) for law in laws if law not in said]
    named = [f"{link(call.shown(), call.file)} ({', '.join(call.clauses)})" for call in calls
             if call.clauses and not call.is_law and (with_sentences or crate.name == PROGRAM)]
    if not laws and not named:
        return
    yield f"## {crate.name}"
    yield ""
    for law in said:
        yield f"- {link(law.shown(), law.file)}: {first_sentence(law.comment)}"
    if others:
        yield f"- *Laws:* {', '.join(others)}"
    if named:
        yield f"- *Calls:* {', '.join(named)}"
    yield ""


def crates():
    """The libraries in the order of crates.txt, from the encodings up."""
    for line in (TOP / "crates.txt").read_text().split("\n"):
        found = re.match(r"(bac\w*):", line)
        if found and not TESTS.match(found[1]) and (CRATES / found[1] / "src" / "lib.rt").exists():
            yield CRATES / found[1]


def page():
    lines = [HEAD]
    promised, behind_doors = set(re.findall(r"`(\w+)`", PROMISES.read_text())), reached(DOORS)
    for crate in crates():
        lines.extend(crate_page(crate, promised, crate.name in behind_doors))
    return "\n".join(lines).rstrip() + "\n"


def main(words):
    if words == ["--bare"]:
        for crate in crates():
            for call in public_calls(crate):
                if not call.comment:
                    print(f"{call.file.relative_to(TOP)}: {call.shown()}")
    elif words == ["--check"]:
        if not PAGE.exists() or PAGE.read_text() != page():
            print("docs/CLAUSES.md isn't what docs/clauses.py makes of the sources")
            return 1
    elif words:
        print(__doc__)
        return 2
    else:
        PAGE.write_text(page())
    return 0


if __name__ == "__main__":
    sys.exit(main(sys.argv[1:]))
