#!/usr/bin/env python3
# SPDX-License-Identifier: MIT
"""Finds what should stand in one place only: numbers and names of a layout outside the crate that owns it (layout.txt).

    scripts/layout.py [CRATE..]     shows each such place

floors.txt says how many there may be, none where it says nothing; scripts/floors compares.
"""
import re
import sys
from pathlib import Path

sys.dont_write_bytecode = True
sys.path.insert(0, str(Path(__file__).resolve().parent))
import sources
from sources import CRATES, ROOT


def places(text, pattern):
    for match in pattern.finditer(text):
        yield text.count("\n", 0, match.start()) + 1, sources.bare(match.group(0))


def proofs(crate):
    for file in sorted((CRATES / crate / "proofs").rglob("*.antt")):
        yield file, sources.plain_antt(file.read_text())


def rules():
    """The lines of layout.txt: owner, kind, words."""
    for line in sources.listed("layout.txt"):
        head, _, words = line.partition(":")
        owner, kind = head.split()
        yield owner, kind, words.split()


def numbers(crate):
    for owner, kind, words in rules():
        if kind == "numbers" and crate in sources.above(owner, sources.crates()):
            pattern = re.compile(r"(?<![^\s(){};,])(?:%s)(?![^\s(){};,])" % "|".join(words))
            for file, text in proofs(crate):
                for line, found in places(text, pattern):
                    yield file, line, f"the number {found} of {owner}'s layout"


def names(crate):
    """Names and constants of another crate's layout, by the lines that bring them and by their paths."""
    for owner, kind, words in rules():
        if crate == owner or kind == "numbers":
            continue
        if kind == "names":
            brings = re.compile(r"\buse Rattle\.%s\.[^;{]*\.\{([^}]*)\}" % owner)
            folders = ("src", "specs", "proofs")
        else:
            brings, folders = re.compile(r"\b%s::(?:\w+::)*(\w+)" % owner), ("src",)
        for folder in folders:
            for file in sorted((CRATES / crate / folder).rglob("*.rt" if folder == "src" else "*.antt")):
                text = file.read_text()
                for match in brings.finditer(text):
                    for word in re.findall(r"[^\s,]+", match.group(1)):
                        if word in words:
                            yield file, text.count("\n", 0, match.start()) + 1, f"`{word}` of {owner}'s layout"


def unknown():
    """Names in layout.txt that their owner no longer has."""
    for owner, kind, words in rules():
        have = set(sources.declared(owner)) if kind == "constants" else set()
        if kind == "names":
            for file in (CRATES / owner / "specs").rglob("*.antt"):
                have |= set(sources.module(file).items)
        for word in words:
            if kind != "numbers" and word not in have:
                yield f"layout.txt: crate {owner} has no `{word}`"


KINDS = (("layout numbers", numbers), ("layout names", names))


def counts():
    for crate in sources.crates():
        for what, find in KINDS:
            yield crate, what, sum(1 for _ in find(crate))


def main(arguments):
    if any(argument.startswith("-") for argument in arguments):
        sys.exit(__doc__)
    many = 0
    for crate in arguments or sources.crates():
        for _, find in KINDS:
            for file, line, found in find(crate):
                many += 1
                print(f"{file.relative_to(ROOT)}:{line}: {found}")
    print(f"{many} places")


if __name__ == "__main__":
    main(sys.argv[1:])
