#!/usr/bin/env python3
# SPDX-License-Identifier: MIT
"""Extracts the test vectors of draft-ietf-sframe-enc-09, appendix D.

usage: extract.py DRAFT.txt   (writes the two tables beside this script, and prints the header vectors)
"""

import pathlib
import re
import sys

TABLES = {
    "aead_vectors.txt": "D.2",
    "sframe_vectors.txt": "D.3",
}


def section(text, number):
    """The lines of appendix `number`, without the page breaks."""
    lines = text.split(f"\n{number}.  ")[1]
    lines = re.split(r"\n(?:D\.\d\.  |Contributors\n)", lines)[0].splitlines()
    return [l for l in lines if not re.match(r"Omara, et al|Internet-Draft", l)]


def cases(lines):
    """Each case as a dict; a value that spans lines is joined."""
    case, name = {}, None
    for line in lines:
        field = re.fullmatch(r"   (\w+): (?:0x)?([0-9a-f]+)", line)
        more = re.fullmatch(r" {5,}([0-9a-f]+)", line)
        if field:
            name, value = field.groups()
            if name in case:
                yield case
                case = {}
            case[name] = value
        elif more and name:
            case[name] += more.group(1)
        elif line.strip():
            name = None
    yield case


def main():
    text = pathlib.Path(sys.argv[1]).read_text()
    for case in cases(section(text, "D.1")):
        kid, ctr, header = case.values()
        print(f"v {int(kid, 16):x} {int(ctr, 16):x} {header}")
    for file, number in TABLES.items():
        found = list(cases(section(text, number)))
        out = [f"# draft-ietf-sframe-enc-09, appendix {number}: {len(found)} cases, hex"]
        for c in found:
            out.append("")
            out += [f"{name} {value}" for name, value in c.items()]
        path = pathlib.Path(__file__).with_name(file)
        path.write_text("\n".join(out) + "\n")


main()
