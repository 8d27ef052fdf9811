#!/usr/bin/env python3
"""Compares docs/PROVED.md with the contracts that it quotes.

usage: claims.py    prints each quotation that is wrong, and ends with 1 if there is one

An entry names functions with their clauses, and the files where they stand. Each file has to be there, each function has to
stand in one of them, and its contract has to have the clauses of these names, or for `(one)` a clause without a name. A trait
or a struct that an entry names instead of a function is not looked at. Whether a claim says what its clause says, a reader
has to see.
"""

import os
import re
import sys

sys.path.insert(0, os.path.dirname(os.path.realpath(__file__)))
sys.dont_write_bytecode = True
from crates import TOP, text_of  # noqa: E402

PAGE = "docs/PROVED.md"
ENTRY = re.compile(r"^- \*\*(\w+)\.\*\* (.*?)\n  - (.*?)(?=\n(?:\n|- |#)|\Z)", re.MULTILINE | re.DOTALL)
QUOTATION = re.compile(r"(.*), in ((?:`[^`]+`(?:, )?)+)")
FUNCTION = re.compile(r'^ *(?:pub(?:\(\w+\))? )?(?:const )?(?:unsafe )?(?:extern "C" )?fn (\w+)', re.MULTILINE)


def contracts(text):
    """For each function of a file the names of its clauses, with (one) for a clause without a name."""
    found = {}
    starts = list(FUNCTION.finditer(text))
    for start, after in zip(starts, [*starts[1:], None]):
        whole = text[start.end() : after.start() if after else len(text)]
        contract = re.split(r"^ *\{", whole, maxsplit=1, flags=re.MULTILINE)[0]
        names = re.findall(r"^\s*ensures\*? (?:(\w+) )?\{", contract, re.MULTILINE)
        found.setdefault(start[1], set()).update(name or "(one)" for name in names)
    return found


def quoted(text):
    """The functions that a quotation names, each with the clauses: `a`, `b`: `one`, `other`; `c`: (one)."""
    for part in text.split(";"):
        head, _, tail = part.replace("::", "\0").partition(":")
        functions = [name.replace("\0", "::").split("::")[-1] for name in re.findall(r"`([^`<]+)(?:<[^`]*)?`", head)]
        clauses = re.findall(r"`(\w+)`|(\(one\))", re.sub(r"\((?!one\))[^()]*\)", "", tail))
        yield [name for name in functions if name[0].islower()], [name or one for name, one in clauses]


def faults():
    page, found = text_of(PAGE), []
    entries = ENTRY.findall(page)
    lost = set(re.findall(r"^- \*\*(\w+)\.\*\*", page, re.MULTILINE)) - {entry[0] for entry in entries}
    found += [f"{number} names no contract" for number in sorted(lost)]
    for number, _, quotation in entries:
        quote = QUOTATION.fullmatch(" ".join(quotation.split()))
        if not quote:
            found.append(f"{number}: its contract has not the form FUNCTIONS: CLAUSES, in FILES")
            continue
        contract, files = quote.groups()
        paths = [f"crates/{path}" for path in re.findall(r"`([^`]+)`", files)]
        found += [f"{number}: there is no {path}" for path in paths if not os.path.exists(os.path.join(TOP, path))]
        there = {}
        for path in paths:
            for name, clauses in contracts(text_of(path)).items():
                there.setdefault(name, set()).update(clauses)
        for functions, clauses in quoted(contract):
            for name in functions:
                if name not in there:
                    found.append(f"{number}: no function {name} in {', '.join(paths)}")
                found += [f"{number}: {name} has no clause {clause}" for clause in clauses if name in there and clause not in there[name]]
    return found


def main(words):
    if words:
        print(__doc__)
        return 0 if words[0] in ("-h", "--help") else 2
    found = faults()
    print("".join(f"{PAGE}: {text}\n" for text in found), end="")
    return 1 if found else 0


if __name__ == "__main__":
    sys.exit(main(sys.argv[1:]))
