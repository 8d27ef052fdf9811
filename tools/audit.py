#!/usr/bin/env python3
"""Counts what an auditor reads: the definitions in the table of docs/AUDIT.md, file by file.

usage: audit.py            says where the table's numbers, or those of the sentence above it, are not the files', and ends with 1
       audit.py --write    writes these numbers

A file of the table has to be there, and to be cited, directly or through others, by one of the contracts that the page names.
"""

import os
import re
import sys

sys.path.insert(0, os.path.dirname(os.path.realpath(__file__)))
sys.dont_write_bytecode = True
from crates import TOP, text_of  # noqa: E402

PAGE = "docs/AUDIT.md"
# Where the contracts of the headline stand.
CONTRACTS = ("lzk_cmd/src/top.rt", "lzk_verify/src/desk.rt", "lzk_verify/src/laws.rt", "lzk_ligero/src/works.rt", "lzk_ligero_proof/src/laws.rt")
# What these files cite for other functions, for invariants, for proofs or for claims outside the headline. A file that is
# reached and stands neither here nor in the table is a fault of the page.
LEFT_OUT = {
    "lzk_accept": "Factored Kept",
    "lzk_circuit": "Faults",
    "lzk_cmd": "Made RunSteps",
    "lzk_cmd_files": "Walks",
    "lzk_cmd_words": "Digits",
    "lzk_ligero_proof": "Refused",
    "lzk_gf128": "Inverse Linear Table",
    "lzk_goldilocks": "Pigeonhole Powers Primality",
    "lzk_layout": "Cursors",
    "lzk_level": "Levels Upgraded",
    "lzk_ligero": "Changes Lending",
    "lzk_ligero_steps": "Parts Rooms",
    "lzk_circuit_reduce": "Rows Targets",
    "lzk_sumcheck_rounds": "Orders Room",
    "lzk_ligero_tableau": "Filled Table",
    "lzk_verify": "Desk Extending",
}
ROW = re.compile(r"^(\|[^|]*)\| `(\w+)` \| ([\w, ]+) \| ([\d,]+) \|$", re.MULTILINE)
SUM = re.compile(r"\*\*([\d,]+) files of ([\d,]+) lines\*\*")


def file_of(crate, path):
    """The file of specs/ in which a path of modules stands, if there is one."""
    parts = path.split(".")
    for count in range(len(parts), 0, -1):
        name = f"crates/{crate}/specs/{'/'.join(parts[:count])}.antt"
        if os.path.exists(os.path.join(TOP, name)):
            return name
    return None


def cited(path):
    """The files of specs/ that a file names."""
    found = re.findall(r"use Rattle\.(lzk\w*)\.specs\.([A-Za-z_.]*[A-Za-z_])", text_of(path))
    return filter(None, (file_of(crate, name) for crate, name in found))


def reached():
    found, left = set(), [f"crates/{path}" for path in CONTRACTS]
    while left:
        for path in cited(left.pop()):
            if path not in found:
                found.add(path)
                left.append(path)
    return found


def paths_of(crate, names):
    return [f"crates/{crate}/specs/{name}.antt" for name in names.split(", ")]


def counted(page):
    """The page with the numbers that the files give."""
    files = lines = 0

    def row(found):
        nonlocal files, lines
        what, crate, names, _ = found.groups()
        count = sum(text_of(path).count("\n") for path in paths_of(crate, names))
        files, lines = files + len(names.split(", ")), lines + count
        return f"{what}| `{crate}` | {names} | {count:,} |"

    page = ROW.sub(row, page)
    return SUM.sub(f"**{files:,} files of {lines:,} lines**", page)


def faults():
    page, there = text_of(PAGE), reached()
    listed = {path for _, crate, names, _ in ROW.findall(page) for path in paths_of(crate, names)}
    aside = {path for crate, names in LEFT_OUT.items() for path in paths_of(crate, ", ".join(names.split()))}
    found = [f"{path} is cited by a contract of the headline: a row of the table, or a name in LEFT_OUT of tools/audit.py" for path in sorted(there - listed - aside)]
    found += [
        f"{path} is not there, or no contract of the headline cites it"
        for _, crate, names, _ in ROW.findall(page)
        for path in paths_of(crate, names)
        if path not in there
    ]
    if counted(page) != page:
        found.append("its table has other numbers than the files: tools/audit.py --write")
    return found


def main(words):
    if words == ["--write"]:
        text = counted(text_of(PAGE))
        with open(os.path.join(TOP, PAGE), "w", encoding="utf-8") as file:
            file.write(text)
    elif words:
        print(__doc__)
        return 0 if words[0] in ("-h", "--help") else 2
    found = faults()
    print("".join(f"{PAGE}: {text}\n" for text in found), end="")
    return 1 if found else 0


if __name__ == "__main__":
    sys.exit(main(sys.argv[1:]))
