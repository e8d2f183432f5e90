#!/usr/bin/env python3
# SPDX-License-Identifier: MIT
"""Brings the names of this repository's definitions and lemmas to the spelling of today's Rattle.

    tools/respell.py            rewrites the files, at the top of the checkout, once, after the toolchain's own script
    tools/respell.py --show     lists the names and what they become, and those that would fall together

The crate `sha2` has the name of one of the toolchain's libraries, and becomes `sha2_common`.
A word in camel case, as in `keyOf` or `sBox-lt`, becomes snake case: `key_of`, `s_box-lt`. A fact, a type and a module keep
their capitals, and a dash still joins two names. The folders `specs/inner` are modules, and become `specs/Inner`.
Functions of src/, strings and names that C sees are in snake case already, and no word of theirs is touched.
"""
import re
import subprocess
import sys
from pathlib import Path

CRATES = Path("crates")
HUMP = re.compile(r"(?<![\w'])[a-z][a-z0-9]*(?:[A-Z][a-z0-9]*)+(?![a-zA-Z0-9])")
WORD = re.compile(r"[A-Za-zℕ][\w'≢≡₀-₉-]*")
# Lemmas that would have the name of the definition that they speak of: such a one ends in `_lem`.
LEMMAS = re.compile(r"(?<![\w.'-])(front_of|in_order|left_over|pair_size|room_of|sub_word|tag_in|taken_in|with_pair)(?![\w.'-])")


def snake(word):
    return re.sub(r"(?<=[a-z0-9])([A-Z])", lambda m: "_" + m.group(1).lower(), word)


def files():
    for p in sorted(CRATES.rglob("*")):
        if "out" not in p.parts and p.is_file() and p.suffix in (".antt", ".rt", ".edit"):
            yield p


def turn(text):
    # A string keeps its words; a line comment speaks of the definitions by their names.
    parts = re.split(r'("(?:[^"\\\n]|\\.)*")', text)
    turned = [part if i % 2 else HUMP.sub(lambda m: snake(m.group()), part) for i, part in enumerate(parts)]
    text = re.sub(r"\bspecs\.inner\b", "specs.Inner", "".join(turned))
    return re.sub(r"\bsha2::", "sha2_common::", text.replace("Rattle.sha2.", "Rattle.sha2_common."))


def main():
    seen, words = {}, set()
    texts = {p: p.read_text() for p in files()}
    for text in texts.values():
        for m in HUMP.finditer(text):
            seen[m.group()] = snake(m.group())
        words.update(WORD.findall(text))
    if "--show" in sys.argv:
        for old, new in sorted(seen.items()):
            print(old, new, "TAKEN" if new in words else "")
        return
    for p, text in texts.items():
        if "proofs" in p.parts:
            text = LEMMAS.sub(r"\1_lem", text)
        if turn(text) != p.read_text():
            p.write_text(turn(text))
    for lib in sorted(CRATES.glob("*/specs/Lib.antt")):
        text = lib.read_text()
        lib.write_text(re.sub(r"(?m)^(pub )?mod inner$", lambda m: (m.group(1) or "") + "mod Inner", text))
    for root in sorted(CRATES.glob("*/specs/inner")):
        subprocess.run(["git", "mv", str(root), str(root.with_name("Inner"))], check=True)
    for root in sorted(CRATES.glob("*/specs/inner.antt")):
        subprocess.run(["git", "mv", str(root), str(root.with_name("Inner.antt"))], check=True)
    subprocess.run(["git", "mv", "crates/sha2", "crates/sha2_common"], check=True)
    lines = Path("crates.txt").read_text()
    Path("crates.txt").write_text(re.sub(r"(?m)(?<![\w])sha2(?!\w)", "sha2_common", lines))


if __name__ == "__main__":
    main()
