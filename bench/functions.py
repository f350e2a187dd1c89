#!/usr/bin/env python3
"""What each function of a crate costs the prover, by when the files of its proof were written.

    functions.py FOLDER [N]

FOLDER is an incremental one that a single check of one job filled from nothing: in the crate's folder,
`rm -rf out && rt check --jobs 1`, and then out/incremental. The N dearest functions and files of lemmas are printed, 20
if none is given, each with the seconds by the clock of its parts: Lts is the account of what each way out gives back,
Proof and Tie the goals that are found by search, Answers those that are proved by hand."""
import collections
import glob
import os
import sys

# The last words of the name of a module that the prover makes for a function.
PARTS = set(
    "Answers Code Given Goals Invariants Key Kinds Layout Link Lts Lts-drop Met Mir Named Proof Reads Statement Symbol"
    " TheLink Tie Trace View decls".split()
)


def modules(folder):
    """The seconds of each module: between its file and the one that was written before it."""
    files = sorted((os.stat(file).st_mtime, file) for file in glob.glob(f"{folder}/**/*.oantt", recursive=True))
    for (before, _), (written, file) in zip(files, files[1:]):
        yield os.path.basename(file).removesuffix(".oantt"), written - before


def parted(module):
    """The function that a module is of, and which part of its proof it is."""
    words = module.split(".")
    of = len(words)
    while of > 1 and words[of - 1] in PARTS:
        of -= 1
    return ".".join(words[:of]), next((word for word in words[of:] if word != "decls"), "own")


def main(folder, most):
    spent, parts = collections.Counter(), collections.defaultdict(collections.Counter)
    for module, seconds in modules(folder):
        function, part = parted(module)
        spent[function] += seconds
        parts[function][part] += seconds
    for function, seconds in spent.most_common(most):
        told = ", ".join(f"{part} {of_it:.1f}" for part, of_it in parts[function].most_common(3))
        print(f"{seconds:7.1f} {function}: {told}")
    print(f"{sum(spent.values()):7.1f} in all, of {len(spent)}")


if __name__ == "__main__":
    main(sys.argv[1], int(sys.argv[2]) if len(sys.argv) > 2 else 20)
