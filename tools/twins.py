#!/usr/bin/env python3
# SPDX-License-Identifier: MIT
"""Lists functions of crates/*/src that differ only in a type, a size, a constant or a name of one.

    tools/twins.py [COMMIT]     of that commit, or of the files as they stand

Two functions are twins where their texts, contracts included, are one once comments, their own names, numbers, the integer types and
the figures in names (sha256, Word512) are struck out.
"""
import re
import subprocess
import sys
from collections import defaultdict


def texts(commit):
    if commit:
        names = subprocess.run(["git", "ls-tree", "-r", "--name-only", commit, "crates"], capture_output=True, text=True, check=True).stdout.split()
    else:
        names = subprocess.run(["git", "ls-files", "crates"], capture_output=True, text=True, check=True).stdout.split()
    for name in names:
        if re.fullmatch(r"crates/\w+/src/\w+\.rt", name):
            if commit:
                yield name, subprocess.run(["git", "show", f"{commit}:{name}"], capture_output=True, text=True, check=True).stdout
            else:
                yield name, open(name, encoding="utf-8").read()


def functions(text):
    """Each function's name and text, from its first word to the brace in its own column."""
    for start in re.finditer(r"^( *)(?:pub(?:\(crate\))? )?(?:extern \"C\" )?fn (\w+)", text, re.M):
        end = re.compile(rf"^{start.group(1)}\}}", re.M).search(text, start.end())
        if end:
            yield start.group(2), text[start.start():end.end()]


def struck(name, text):
    text = re.sub(r"//.*", "", text)
    text = re.sub(rf"\b{name}\b", "F", text)
    text = re.sub(r"\b(?:0x[0-9a-f_]+|\d[\d_]*)(?:[ui]\d+|usize)?\b", "N", text)
    text = re.sub(r"\b[ui](?:8|16|32|64|size)\b", "U", text)
    text = re.sub(r"(?<=[A-Za-z_])(?:32|64|128|256|512)", "", text)
    return re.sub(r"\s+", " ", text)


def main():
    commit = sys.argv[1] if len(sys.argv) > 1 else None
    groups = defaultdict(list)
    for file, text in texts(commit):
        for name, body in functions(text):
            if body.count("\n") > 2 and 'extern "C"' not in body:
                groups[struck(name, body)].append(f"{file.split('/')[1]}::{name}")
    found = sorted(names for names in groups.values() if len(names) > 1)
    for names in found:
        print(", ".join(names))
    print(f"{len(found)} groups, {sum(len(n) for n in found)} functions, {sum(len(n) - 1 for n in found)} more than needed")


main()
