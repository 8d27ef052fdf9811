#!/usr/bin/env python3
"""Orders named values as a source declares its inputs, and writes the two number files that `zk` reads.

usage: inputs.py SOURCE VALUES.toml [PUBLIC PRIVATE]

SOURCE is a statement; PUBLIC and PRIVATE are the files to write, public.txt and private.txt without them. PRIVATE is
for its owner alone (mode 0600). VALUES.toml gives each input its number:

    year = 2024
    debt = -1                           # p - 1
    big = "0xffffffffffffffffffffffffffffffff"
    gap = "year - birth - 18"           # an expression of other values, as a source has them
    birth = 2000
    born = 2000-01-31                   # a date as a number: 20000131

    [bits]
    b = 6                               # the inputs b0, b1, .. are the bits of 6, the lowest first
    g = "gap"                           # the same of an expression

    [inverses]
    i = "year - birth"                  # the number that gives 1 with it: there is one where it is not 0

    [bytes]
    m = "abc"                           # the inputs m0, m1, m2 are the bytes of the text, in UTF-8

    [days]
    d = 2000-01-31                      # a date as days since 1970-01-01: 10987

This helper is no part of the proved program, and nothing is promised of it. It need not be trusted for soundness:
`zk eval` says whether the numbers satisfy the circuit, and a verifier never sees it. It does see private numbers.
"""

import datetime
import os
import re
import stat
import sys

from statement import FIELDS, Fault, Prime, expression_of, value_of

TABLES = ("bits", "inverses", "bytes", "days")


class Refused(Exception):
    """What is wrong, in words."""


def read_source(text):
    """The field's name, and the names of the public and of the private inputs, in order."""
    field, names = None, {"public": [], "private": []}
    for line in text.split("\n"):
        words = line.split("#")[0].split()
        if words[:1] == ["field"] and len(words) == 2:
            field = words[1]
        elif words and words[0] in names:
            names[words[0]] += words[1:]
    if field not in FIELDS:
        raise Refused("the source names no field that is known")
    return field, names["public"], names["private"]


class Values:
    """The values of inputs, each found when it is first asked for, since an expression may name others."""

    def __init__(self, field, given, declared):
        self.field, self.declared, self.found, self.asked = FIELDS[field], declared, {}, []
        self.makers = {name: (self.number, value) for name, value in given.items() if not isinstance(value, dict)}
        tables = {"bits": self.bits, "inverses": self.inverses, "bytes": self.bytes, "days": self.days}
        for table in (name for name, value in given.items() if isinstance(value, dict)):
            if table not in TABLES:
                raise Refused(f"there is no table [{table}]; the tables are {', '.join(TABLES)}")
            for group, value in given[table].items():
                tables[table](group, value)

    def add(self, name, maker, value):
        if name in self.makers:
            raise Refused(f"{name} is given twice")
        self.makers[name] = (maker, value)

    def all(self):
        missing = [name for name in self.declared if name not in self.makers]
        unknown = [name for name in self.makers if name not in self.declared and not self.is_named(name)]
        if missing:
            raise Refused(f"no value for {', '.join(missing)}")
        if unknown:
            raise Refused(f"the source declares no {', '.join(unknown)}")
        return {name: self.of(name) for name in self.declared}

    # Another value may be named by an expression alone, as an age that no input is.
    def is_named(self, name):
        texts = [value for _, value in self.makers.values() if isinstance(value, str)]
        texts += [value[1] for _, value in self.makers.values() if isinstance(value, tuple) and isinstance(value[1], str)]
        return any(re.search(rf"\b{re.escape(name)}\b", text) for text in texts)

    def of(self, name):
        if name not in self.found:
            if name not in self.makers:
                raise Refused(f"no value for {name}")
            if name in self.asked:
                raise Refused(f"{name} is given by itself")
            self.asked.append(name)
            maker, value = self.makers[name]
            self.found[name] = maker(name, value)
            self.asked.pop()
        return self.found[name]

    def number(self, name, value):
        """A value as a number below the field's size."""
        if isinstance(value, datetime.date):
            return value.year * 10000 + value.month * 100 + value.day
        if isinstance(value, str) and not re.fullmatch(r"0x[0-9a-fA-F]+|[0-9]+", value):
            return self.expression(name, value)
        if isinstance(value, str):
            value = int(value, 16 if value.startswith("0x") else 10)
        if isinstance(value, bool) or not isinstance(value, int):
            raise Refused(f"{name} is no number")
        if not -self.field.size < value < self.field.size:
            raise Refused(f"{name} is not between 0 and the field's size")
        return value if value >= 0 else self.field.negative(-value)

    def expression(self, name, text):
        try:
            expression, names = expression_of(text)
        except Fault as fault:
            raise Refused(f"{name} = \"{text}\": {fault.wanted}") from None
        return value_of(self.field, expression, {other: self.of(other) for other in names})

    def count(self, group):
        count = 0
        while f"{group}{count}" in self.declared:
            count += 1
        if count == 0:
            raise Refused(f"the source declares no {group}0")
        return count

    def bits(self, group, value):
        count = self.count(group)
        for i in range(count):
            self.add(f"{group}{i}", self.bit, (group, value, i, count))

    def bit(self, _name, made):
        group, value, i, count = made
        number = self.number(group, value)
        if number >> count:
            size = self.field.size
            small = f": it is -{size - number}" if self.field is Prime and size - number < 2**32 else ""
            raise Refused(f"{group} needs more than the {count} bits that the source declares{small}")
        return number >> i & 1

    def inverses(self, name, value):
        self.add(name, self.inverse, ("", value))

    def inverse(self, name, made):
        number = self.number(name, made[1])
        if number == 0:
            raise Refused(f"{name}: {made[1]} is 0 and has no inverse")
        return self.field.inverse(number)

    def bytes(self, group, text):
        count = self.count(group)
        if not isinstance(text, str):
            raise Refused(f"{group} is no text")
        made = text.encode()
        if len(made) != count:
            raise Refused(f"{group} has {len(made)} bytes, and the source declares {count}")
        for i in range(count):
            self.add(f"{group}{i}", self.number, made[i])

    def days(self, name, value):
        if not isinstance(value, datetime.date):
            raise Refused(f"{name} is no date")
        self.add(name, self.number, datetime.date(value.year, value.month, value.day).toordinal() - datetime.date(1970, 1, 1).toordinal())


def write(path, names, values, is_private):
    file = os.open(path, os.O_WRONLY | os.O_CREAT | os.O_TRUNC, 0o600 if is_private else 0o666)
    with os.fdopen(file, "w", encoding="utf-8") as out:
        if is_private and stat.S_ISREG(os.fstat(file).st_mode):
            os.fchmod(file, 0o600)
        out.writelines(f"{values[name]}  # {name}\n" for name in names)


def main(words):
    if words in (["-h"], ["--help"]):
        print(__doc__)
        return 0
    if len(words) not in (2, 4):
        print(__doc__.split("\n\n", 1)[1].rsplit("\n\n", 1)[0], file=sys.stderr)
        return 2
    try:
        import tomllib
    except ImportError:
        print("inputs.py: needs Python 3.11 (tomllib)", file=sys.stderr)
        return 2
    public, private = words[2:] or ("public.txt", "private.txt")
    try:
        with open(words[0], encoding="utf-8") as file:
            field, publics, privates = read_source(file.read())
        with open(words[1], "rb") as file:
            given = tomllib.load(file)
        values = Values(field, given, publics + privates).all()
        write(public, publics, values, False)
        write(private, privates, values, True)
    except (OSError, ValueError, RecursionError, Refused) as fault:
        print(f"inputs.py: {fault}", file=sys.stderr)
        return 1
    return 0


if __name__ == "__main__":
    sys.exit(main(sys.argv[1:]))
