#!/usr/bin/env python3
"""Draws the figures of the pages, docs/*.svg, from what the pages and crates.txt say.

usage: figures.py           says which figures are not what this script draws, and ends with 1 if there is one
       figures.py --draw    draws them

layers.svg    the crates by layer, of crates.txt and crates/README.md
checks.svg    the eight checks of a verifier, of docs/PROTOCOL.md, section 9, and docs/FORMATS.md, section 5
accepted.svg  what lies between `accepted` and a true statement, of the first table of docs/SECURITY.md
"""

import os
import re
import sys
from xml.sax.saxutils import escape

sys.path.insert(0, os.path.dirname(os.path.realpath(__file__)))
sys.dont_write_bytecode = True
import crates  # noqa: E402

WIDTH = 940
SANS, MONO = "Helvetica, Arial, sans-serif", "Menlo, Consolas, 'DejaVu Sans Mono', monospace"
INK, PALE, LINE = "#1f2933", "#52606d", "#9aa5b1"
FILLS = ("#e3f0fb", "#e6f4ea", "#fdf3dc", "#f6e8f3", "#e9eef5")
PROVED, BELIEVED, YOURS = ("#d5efdc", "#2f855a"), ("#fdebd0", "#b7791f"), ("#e9eef5", "#52606d")


class Figure:
    """Shapes one after another, and how far down they reach."""

    def __init__(self, title, width=WIDTH):
        self.title, self.width, self.shapes, self.bottom = title, width, [], 0

    def box(self, x, y, width, height, fill, edge=LINE, dashes=""):
        dashed = f' stroke-dasharray="{dashes}"' if dashes else ""
        self.shapes.append(f'<rect x="{x}" y="{y}" width="{width}" height="{height}" rx="5" fill="{fill}" stroke="{edge}"{dashed}/>')
        self.bottom = max(self.bottom, y + height)

    def text(self, x, y, text, size=13, font=SANS, fill=INK, weight="normal"):
        self.shapes.append(f'<text x="{x}" y="{y}" font-family="{font}" font-size="{size}" font-weight="{weight}" fill="{fill}">{escape(text)}</text>')
        self.bottom = max(self.bottom, y)

    def arrow(self, x, y, length, edge, dashes="", right=False):
        dashed = f' stroke-dasharray="{dashes}"' if dashes else ""
        x2, y2 = (x + length, y) if right else (x, y + length)
        head = f"{x2},{y2} {x2 - 7},{y2 - 4} {x2 - 7},{y2 + 4}" if right else f"{x2},{y2} {x2 - 4},{y2 - 7} {x2 + 4},{y2 - 7}"
        self.shapes.append(f'<line x1="{x}" y1="{y}" x2="{x2}" y2="{y2}" stroke="{edge}" stroke-width="1.5"{dashed}/>')
        self.shapes.append(f'<polygon points="{head}" fill="{edge}"/>')
        self.bottom = max(self.bottom, y2)

    def drawn(self):
        height = self.bottom + 16
        size = f'width="{self.width}" height="{height}"'
        head = f'<svg xmlns="http://www.w3.org/2000/svg" {size} viewBox="0 0 {self.width} {height}" role="img">'
        ground = f'<rect {size} fill="#ffffff"/>'
        return "\n".join([head, f"<title>{escape(self.title)}</title>", ground, *self.shapes, "</svg>", ""])


def plain(text):
    """A cell or a line of a page without its marks."""
    return re.sub(r"`|\*\*", "", text).strip()


def lines_of(text, most):
    """A text in lines of so many characters at most."""
    lines = [""]
    for word in text.split():
        if lines[-1] and len(lines[-1]) + 1 + len(word) > most:
            lines.append("")
        lines[-1] = f"{lines[-1]} {word}".strip()
    return lines


def layers():
    """One band a layer, the lowest at the bottom, with a chip a crate."""
    figure = Figure("The crates of the repository in layers, the lowest at the bottom")
    figure.text(16, 24, "Each crate stands on crates to its left or below. Names without lzk_.", 12, fill=PALE)
    y, left, right = 38, 208, WIDTH - 16
    bands = crates.layers_of(crates.text_of(crates.MAP))
    for number, (head, rows) in reversed(list(enumerate(bands))):
        chips, x, row = [], left, 0
        for name in rows:
            label = re.sub("^lzk_", "", name)
            width = round(len(label) * 7.0) + 14
            if x + width > right - 8:
                x, row = left, row + 1
            chips.append((x, row, width, label))
            x += width + 6
        height = 28 * (row + 1) + 8
        figure.box(16, y, right - 16, height, FILLS[number % len(FILLS)])
        figure.text(28, y + 23, head, 14, weight="bold")
        for x, row, width, label in chips:
            figure.box(x, y + 6 + 28 * row, width, 22, "#ffffff")
            figure.text(x + 7, y + 21 + 28 * row, label, 11.5, MONO)
        y += height + 6
    return figure


def eight_checks():
    """The conditions in order, one below the other, and the line that is printed where one fails."""
    section = crates.text_of("docs/PROTOCOL.md").split("## 9.")[1]
    found = re.findall(r"^(\d)\. ([A-Z][\w ]+): (.*(?:\n   .*)*)$", section, re.MULTILINE)
    printed = dict(re.findall(r"^\| check (\d) \| `(.*?)`", crates.text_of("docs/FORMATS.md"), re.MULTILINE))
    figure = Figure("The eight checks of a verifier, in order")
    figure.text(16, 26, "The bytes of a proof", 14, weight="bold")
    figure.text(580, 26, "if it fails, the verdict is", 12, fill=PALE)
    y = 36
    for number, name, text in found:
        what = lines_of(plain(" ".join(text.split())).split("; ")[0].rstrip("."), 74)
        height = 32 + 16 * len(what)
        figure.arrow(60, y, 16, PALE)
        y += 16
        figure.box(16, y, 530, height, FILLS[0] if int(number) < 5 else FILLS[2])
        figure.text(28, y + 20, f"{number}  {name}", 13.5, weight="bold")
        for place, line in enumerate(what):
            figure.text(48, y + 38 + 16 * place, line, 12.5)
        figure.arrow(546, y + height // 2, 28, "#c05640", right=True)
        figure.text(580, y + height // 2 + 4, printed[number], 11.5, MONO)
        y += height
    figure.arrow(60, y, 16, PROVED[1])
    figure.box(16, y + 16, 530, 34, *PROVED)
    figure.text(28, y + 38, "accepted", 13.5, MONO, weight="bold")
    return figure


def accepted():
    """The steps from `accepted` to what a reader wants to know, each by whom it is vouched for."""
    table = crates.text_of("docs/SECURITY.md").split("| from | by | to |")[1].split("\n\n")[0]
    steps = [[plain(cell) for cell in line.strip("| ").split("|")] for line in table.strip().splitlines()[1:]]
    figure = Figure("What lies between the line accepted and a true statement", 592)
    kinds = {"proved": (PROVED, ""), "believed": (BELIEVED, "5 4"), "yours": (YOURS, "2 4")}
    y = 16
    for text in [steps[0][0], *(step[2] for step in steps)]:
        if y > 16:
            kind, _, why = steps[(y - 16) // 92 - 1][1].partition(":")
            (fill, edge), dashes = kinds[kind]
            figure.arrow(60, y - 52, 46, edge, dashes)
            figure.box(84, y - 44, 104, 26, fill, edge, dashes)
            figure.text(94, y - 26, kind.upper(), 12, fill=edge, weight="bold")
            figure.text(204, y - 26, why.strip(), 13)
        figure.box(16, y, 560, 36, "#ffffff")
        figure.text(30, y + 23, text, 14)
        y += 92
    return figure


FIGURES = {"docs/layers.svg": layers, "docs/checks.svg": eight_checks, "docs/accepted.svg": accepted}


def stale():
    """The figures that are not as drawn here."""
    return [path for path, draw in FIGURES.items() if crates.text_of(path) != draw().drawn()]


def main(words):
    if words == ["--draw"]:
        for path, draw in FIGURES.items():
            with open(os.path.join(crates.TOP, path), "w", encoding="utf-8") as file:
                file.write(draw().drawn())
        return 0
    if words:
        print(__doc__)
        return 0 if words[0] in ("-h", "--help") else 2
    found = stale()
    print("".join(f"{path}: is not what tools/figures.py draws: tools/figures.py --draw\n" for path in found), end="")
    return 1 if found else 0


if __name__ == "__main__":
    sys.exit(main(sys.argv[1:]))
