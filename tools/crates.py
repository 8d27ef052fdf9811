#!/usr/bin/env python3
"""The crates of this repository: what crates.txt says of each, and in which order and layers crates/README.md has them.

usage: crates.py            one line a crate, lowest first: layer, crate, crates above it, minutes of the gate
       crates.py --order    brings crates.txt and crates/README.md into one order, and the numbers of the second up to date

The layers are the headings of crates/README.md that have a table of crates below them. `--order` keeps the order of that
page as far as each crate stands after what it stands on. A crate that is gone loses its row. A new one gets a row with
the first sentence of its root, in the layer whose crates its name is most like: move and reword it where you like, and
run it again. It names what it moved, added and dropped. docs/check tells where the two files differ.

For other scripts: `read()` gives the crates by name, each with `line`, `words` and `lower`; `needed` and `above` follow them.
"""

import os
import re
import sys

TOP = os.path.dirname(os.path.dirname(os.path.realpath(__file__)))
LIST, MAP, GATE = "crates.txt", "crates/README.md", "docs/GATE.md"
HEAD = "| crate | what it is | above | min | all |"
LIKE = len("lzk_") + 3
ROW = re.compile(r"^\| `(\w+)` \| (.*?) \|(?:[^|]*\|){3}$")


class Crate:
    """A line of crates.txt: the crate's name, the words behind it, and what it stands on, libraries of the kit too."""

    def __init__(self, line):
        head, _, lower = line.partition(":")
        self.line = line
        self.name, *self.words = head.split()
        if not re.fullmatch(r"[\w-]+", self.name):
            sys.exit(f"{LIST}: this is no crate's line: {line}")
        self.all = lower.split()
        self.lower = []


def text_of(path, top=None):
    path = os.path.join(top or TOP, path)
    if not os.path.exists(path):
        return ""
    with open(path, encoding="utf-8") as file:
        return file.read()


def read(top=None):
    """The crates of a repository by name, in the order of its crates.txt. `lower` has the repository's own ones."""
    bare = [line.split("#")[0].strip() for line in text_of(LIST, top).splitlines()]
    crates = {crate.name: crate for crate in map(Crate, filter(None, bare))}
    for crate in crates.values():
        crate.lower = [name for name in crate.all if name in crates]
    return crates


def needed(crates, names):
    """These crates and all that they stand on, each after what it stands on."""
    order = {}

    def visit(name):
        if name not in order:
            for low in crates[name].lower:
                visit(low)
            order[name] = True

    for name in names:
        visit(name)
    return list(order)


def above(crates):
    """For each crate the names of all that stand on it."""
    found = {name: set() for name in crates}
    for name in crates:
        for low in needed(crates, [name]):
            if low != name:
                found[low].add(name)
    return found


def layers_of(page):
    """The layers of the map: heading, and for each crate of its table what is said of it."""
    layers = []
    for line in page.splitlines():
        if line.startswith("## "):
            layers.append((line[3:], {}))
        elif row := ROW.match(line):
            layers[-1][1][row[1]] = row[2]
    return [layer for layer in layers if layer[1]]


def costs():
    """Processor seconds of the gate by crate: the last number but the budget of each row of the table in docs/GATE.md."""
    rows = re.findall(r"^\| (lzk\w*) \|.*\| *([\d,]+) *\| *[\d,]+ *\|$", text_of(GATE), re.MULTILINE)
    return {name: int(number.replace(",", "")) for name, number in rows}


def numbers_of(crates):
    """For each crate: how many stand on it, its minutes of the gate, and those of it and all above."""
    seconds, upper = costs(), above(crates)
    found = {}
    for name in crates:
        whole = sum(seconds.get(one, 0) for one in {name} | upper[name])
        own = f"{seconds[name] / 60:.1f}" if name in seconds else ""
        found[name] = (str(len(upper[name])), own, f"{whole / 60:.0f}")
    return found


def first_sentence(name):
    """The first sentence of a crate's root."""
    for root in ("lib", "main"):
        lines = re.findall(r"^//! ?(.*)$", text_of(f"crates/{name}/src/{root}.rt"), re.MULTILINE)
        if lines:
            return re.split(r"[.:](?: |$)", " ".join(lines).split("  ")[0])[0].replace("|", "\\|")
    return "not said"


def place(layers, crates, name):
    """The layer where a new crate goes: that of the last crate that it stands on, or a later one whose crates have a name like it."""
    place_of = {one: at for at, (_, rows) in enumerate(layers) for one in rows}
    first = max((place_of[low] for low in crates[name].lower if low in place_of), default=0)
    alike = {at: max(len(os.path.commonprefix([name, one])) for one in rows) for at, (_, rows) in enumerate(layers) if rows}
    best = max(range(first, len(layers)), key=lambda at: alike.get(at, 0))
    return best if alike.get(best, 0) >= LIKE else first


def ordered(layers, crates):
    """The layers without crates that are gone, with those that are new, each crate after what it stands on; and what was changed."""
    said = [f"dropped {name}" for _, rows in layers for name in rows if name not in crates]
    for name in needed(crates, crates):
        if not any(name in rows for _, rows in layers):
            at = place(layers, crates, name)
            layers[at][1][name] = first_sentence(name)
            said.append(f"added {name} to {layers[at][0]}")
    texts = {name: text for _, rows in layers for name, text in rows.items()}
    done, result = set(), []
    for head, rows in layers:
        own = {}
        for name in filter(crates.get, rows):
            for one in needed(crates, [name]):
                if one not in done:
                    own[one] = texts[one]
                    done.add(one)
        said += [f"moved {name} to {head}" for name in own if name not in rows]
        if own:
            result.append((head, own))
    return result, said


def row_of(name, text, numbers):
    return f"| `{name}` | {text} | {' | '.join(numbers)} |".replace("|  |", "| |")


def map_text(page, layers, crates):
    """The map with these layers' tables in the place of its own."""
    numbers, tables = numbers_of(crates), dict(layers)
    lines, head, done = [], None, False
    for line in page.splitlines():
        if line.startswith("## "):
            head, done = line[3:], False
        if head is None or not line.startswith("|") or head not in dict(layers_of(page)):
            lines.append(line)
        elif not done:
            done = True
            rows = [row_of(name, text, numbers[name]) for name, text in tables.get(head, {}).items()]
            lines += [HEAD, "|---|---|---|---|---|", *rows]
    return "\n".join(lines) + "\n"


def list_text(layers, crates):
    """crates.txt with these layers, each after a comment."""
    lines = ["# NAME: the crates that it stands on. Layers, lowest first, as in crates/README.md; `tools/crates.py --order` sorts both."]
    for head, rows in layers:
        lines += ["", f"# {head.lower()}", *(crates[name].line for name in rows)]
    return "\n".join(lines) + "\n"


def faults():
    """Where the two files differ, or have a crate before what it stands on: (file, what)."""
    crates, page = read(), text_of(MAP)
    layers = layers_of(page)
    mapped = [name for _, rows in layers for name in rows]
    there = {name for name in os.listdir(os.path.join(TOP, "crates")) if os.path.isdir(os.path.join(TOP, "crates", name, "src"))}
    found = [(LIST, f"{name} has no folder in crates/") for name in crates if name not in there]
    found += [(LIST, f"crates/{name} has no line") for name in sorted(there - set(crates))]
    found += [(MAP, f"{name} has no row") for name in crates if name not in mapped]
    found += [(MAP, f"{name} has a row and is no crate") for name in mapped if name not in crates]
    found += [(MAP, f"{name} has two rows") for name in crates if mapped.count(name) > 1]
    for path, names in ((LIST, list(crates)), (MAP, mapped)):
        at = {name: place for place, name in enumerate(names)}
        found += [
            (path, f"{name} stands before {low}, on which it stands")
            for name in names
            for low in (crates[name].lower if name in crates else [])
            if at.get(low, 0) > at[name]
        ]
    if not found:
        if text_of(LIST) != list_text(layers, crates):
            found.append((LIST, f"has another order or other layers than {MAP}: tools/crates.py --order"))
        if page != map_text(page, layers, crates):
            found.append((MAP, f"has other numbers than {LIST} and {GATE} give: tools/crates.py --order"))
    return found


def order():
    crates, page = read(), text_of(MAP)
    layers, said = ordered(layers_of(page), crates)
    for path, text in ((MAP, map_text(page, layers, crates)), (LIST, list_text(layers, crates))):
        with open(os.path.join(TOP, path), "w", encoding="utf-8") as file:
            file.write(text)
    print("\n".join([*said, f"{len(crates)} crates in {len(layers)} layers; the figure of them is drawn by tools/figures.py --draw"]))


def main(words):
    if words == ["--order"]:
        order()
    elif words:
        print(__doc__)
        return 0 if words[0] in ("-h", "--help") else 2
    else:
        crates = read()
        numbers = numbers_of(crates)
        for head, rows in layers_of(text_of(MAP)):
            for name in rows:
                if name in crates:
                    print(f"{head:28} {name:32} {numbers[name][0]:>4} {numbers[name][1]:>6}")
    return 0


if __name__ == "__main__":
    sys.exit(main(sys.argv[1:]))
