"""The runs of crates/lzk_tests_runs, as docs/TESTING.md has them."""

import os
from dataclasses import dataclass, field

HERE = os.path.dirname(os.path.realpath(__file__))
DATA = os.path.join(HERE, "..", "..", "..", "crates", "lzk_tests_runs", "data")


def read(name):
    with open(os.path.join(DATA, name), "rb") as file:
        return file.read()


def changed(data, edits):
    """Bytes with the changes of a line of the list."""
    data = bytearray(data)
    for edit in edits:
        kind, number, *digits = edit.split(":")
        new = bytes.fromhex(digits[0]) if digits else b""
        if kind == "cut":
            del data[int(number):]
        elif kind == "append":
            data += bytes.fromhex(number)
        elif kind == "repeat":
            data += new * int(number)
        else:
            for place, byte in enumerate(new, int(number)):
                if place < len(data):
                    data[place] = data[place] ^ byte if kind == "xor" else byte
    return bytes(data)


@dataclass
class Run:
    """A run in which nothing fails. `files` are new ones; `is_next` tells that those of the run before are there too."""

    label: str
    is_next: bool
    files: dict = field(default_factory=dict)
    words: list = field(default_factory=list)
    status: int = 0
    text: list = field(default_factory=list)
    parts: list = field(default_factory=list)
    is_any_text: bool = False
    puts: dict = field(default_factory=dict)
    fails: bool = False


def runs():
    """Each run of the list; `fails` where something fails in it."""
    run = Run("", False)
    for entry in read("runs.txt").decode().split("\n"):
        key, _, rest = entry.partition(" ")
        words = rest.split(" ")
        if key == "run":
            run.label = rest
        elif key == "file":
            run.files[words[0]] = changed(read(words[1]), words[2:])
        elif key == "bytes":
            run.files[words[0]] = changed(bytes.fromhex("".join(words[1:2]).strip(".")), words[2:])
        elif key == "words":
            run.words = words
        elif key == "status":
            run.status = int(rest)
        elif key == "text":
            run.text.append(rest)
        elif key == "part":
            run.parts.append(rest)
        elif key == "anytext":
            run.is_any_text = True
        elif key == "put":
            run.puts[words[0]] = words[1] if len(words) > 1 else None
        elif key in ("fails", "tear", "sink", "left", "front"):
            run.fails = True
        elif key in ("end", "then", "faults", "feeds"):
            yield run
            run = Run(run.label, key == "then")
