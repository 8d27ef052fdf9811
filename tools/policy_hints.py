#!/usr/bin/env python3
"""Says on standard error what is wrong with the files of a run of `zk-credential`, where, and what to write instead.

usage: policy_hints.py COMMAND WORDS..     the words of `zk-credential`, as they were given

./zk-credential calls it after a run that ended with 0, 3, 4 or 5: a policy may be right and still say something else than it seems to. It reads
again the policy, the values and the path that the words name, and nothing else: of a record and of a secret only the size, and of a path it
shows no line, since they are private. It says nothing of a pipe. This is no part of the proved program, which prints and ends as ever. Ends with 0 where it found
nothing, and else with 1. ZK_LINT=0 silences it.
"""

import datetime
import os
import re
import stat
import sys

from files import told_of_input, told_of_output
from profiles import PROFILE
from statement import Fault, show

# The limits of docs/POLICY.md.
MOST_BYTES, MOST_FIELDS, MOST_SHOWS, MOST_TEXTS, MOST_TEXT, MOST_LEVELS = 119, 32, 8, 16, 32, PROFILE.most_levels
MOST_NAME, MOST_PSEUDONYM, MOST_FILE = 32, 35, 65_536
# A circuit has room for so many hashes: the record's, two if it has more than ONE_BLOCK bytes, one for each level of a root, one for each
# pseudonym, two where it is sealed.
MOST_HASHES = PROFILE.most_hashes
ONE_BLOCK = 55
SALT = 16
SECRET, SEALED = 16, 32
QUOTES = "\"'\u201c\u201d\u2018\u2019`"

FORMS = {
    "record": "record SIZE",
    "date": "field NAME date at PLACE",
    "text": "field NAME text SIZE at PLACE",
    "bytes": "field NAME bytes SIZE at PLACE",
    "sealed": "field NAME sealed at PLACE",
    "field": "field NAME date at PLACE, field NAME text SIZE at PLACE, field NAME bytes SIZE at PLACE, or field NAME sealed at PLACE",
    "digest": "show digest",
    "under": "show under root DEPTH",
    "at": "show NAME at most VALUE, or show NAME at least VALUE",
    "as": "show NAME as VALUE",
    "one": "show NAME one of TEXT ..",
    "pseudonym": "show pseudonym of NAME for VALUE",
    "show": "show digest, show under root DEPTH, show NAME .., or show pseudonym of NAME for VALUE",
}


class Silent(Exception):
    """There is nothing to say."""


class Word:
    """A word of a line, and the column of its first byte."""

    def __init__(self, text, column):
        self.text, self.column = text, column

    def is_number(self):
        return re.fullmatch("[0-9]+", self.text) is not None and int(self.text[-400:]) < 1000

    def is_name(self):
        return len(self.text) <= MOST_NAME

    def has_quotes(self):
        return any(mark in self.text for mark in QUOTES)


def words_of(line):
    """The words of a line before its comment. Spaces, tabs and carriage returns separate them."""
    bare = line.split(b"#", 1)[0]
    return [Word(found[0].decode("latin-1"), found.start()) for found in re.finditer(rb"[^ \t\r]+", bare)]


def readable(text):
    """A word as it stands in its file, for a message."""
    return text.encode("latin-1").decode("utf-8", "replace")


class Line:
    """The words of a line, read from left to right; what does not fit is a fault of the line."""

    def __init__(self, number, words, end):
        self.number, self.words, self.end, self.at = number, words, end, 0

    def fault(self, kind, word, wanted):
        if word is None:
            return Fault(kind, self.number, self.end, 1, f"the line ends too early: {wanted}")
        return Fault(kind, self.number, word.column, len(word.text), wanted)

    def syntax(self, word, wanted, form):
        found = f", and found {readable(word.text)}" if word else ""
        more = quotes_told(word) if word and word.has_quotes() else ""
        return self.fault("Syntax", word, f"wanted {wanted}{found}{'; the form is: ' + form if form else ''}{more}")

    def next(self):
        return self.words[self.at] if self.at < len(self.words) else None

    def take(self, wanted, form, fits=lambda word: True):
        word = self.next()
        if word is None or not fits(word):
            raise self.syntax(word, wanted, form)
        self.at += 1
        return word

    def literal(self, form, *texts):
        return self.take(" or ".join(texts), form, lambda word: word.text in texts)

    def number_word(self, what, form):
        return self.take(f"{what}, a number below 1000", form, Word.is_number)

    def name(self, what, form):
        return self.take(f"{what} of at most {MOST_NAME} bytes", form, Word.is_name)

    def end_here(self, form):
        if self.next() is not None:
            raise self.syntax(self.next(), "nothing more", form)


def quotes_told(word):
    return f"; quotes are part of a word here: {readable(word.text)} has {len(word.text)} bytes, and no text can have a blank"


class Field:
    """A field of a record, and the word that names it."""

    def __init__(self, name, kind, place, size):
        self.name, self.kind, self.place, self.size = name, kind, place, size

    def span(self):
        return range(self.place, self.place + self.size)


class Show:
    """Something that is shown beside the digest or the root: of which field, in what way, and the word of its value, if it has one."""

    def __init__(self, line, field, way, value, texts=()):
        self.line, self.field, self.way, self.value, self.texts = line, field, way, value, texts

    def is_sealed(self):
        return self.way == "pseudonym" and self.field.kind == "sealed"

    def text(self):
        """As `zk-credential show` prints it."""
        name = readable(self.field.name)
        if self.way == "pseudonym":
            return f"a pseudonym of {name} for {readable(self.value.text)}"
        if self.way == "one of":
            return f"{name} is one of {' '.join(readable(word.text) for word in self.texts)}"
        return f"{name} is {'' if self.way == 'as' else self.way + ' '}{readable(self.value.text)}"


class Policy:
    """The policy that a text is, or a Fault: the first line that breaks a rule, with what was wanted there."""

    def __init__(self, text):
        self.size, self.depth, self.is_headed, self.fields, self.shows, self.warnings = None, 0, False, {}, [], []
        lines = text.split(b"\n")
        for number, whole in enumerate(lines, 1):
            words = words_of(whole)
            if words:
                end = words[-1].column + len(words[-1].text)
                self.take(Line(number, words, end))
        # The line after the last one is named.
        self.check_whole(len(lines) + 1)

    def take(self, line):
        first = line.take("record, field or show at the head of the line", "record SIZE, field .., or show ..", lambda word: word.text in ("record", "field", "show"))
        getattr(self, f"take_{first.text}")(line, first)

    def take_record(self, line, first):
        size = line.number_word("how many bytes a record has", FORMS["record"])
        line.end_here(FORMS["record"])
        if self.size is not None:
            raise line.fault("Order", first, "a policy has one record line, the first one")
        if not 1 <= int(size.text) <= MOST_BYTES:
            raise line.fault("Size", size, f"a record has 1 to {MOST_BYTES} bytes")
        self.size = int(size.text)

    def take_field(self, line, first):
        name = line.name("the field's name", FORMS["field"])
        kind = line.take("date, text, bytes or sealed", FORMS["field"], lambda word: word.text in ("date", "text", "bytes", "sealed"))
        form, size = FORMS[kind.text], None
        if kind.text not in ("date", "sealed"):
            size = line.number_word("how many bytes the field has", form)
        line.literal(form, "at")
        place = line.number_word("the place of the field's first byte, counted from 0", form)
        line.end_here(form)
        self.add_field(line, first, name, kind.text, size, place)

    def add_field(self, line, first, name, kind, size, place):
        if self.is_headed:
            raise line.fault("Order", first, "fields stand before the line show digest or show under root")
        if self.size is None:
            raise line.fault("Order", first, "the record line comes first: record SIZE")
        if name.text in self.fields:
            raise line.fault("Repeated", name, f"a field is named {readable(name.text)} already")
        fixed, at = SEALED if kind == "sealed" else 4, int(place.text)
        bytes_of = fixed if size is None else int(size.text)
        if kind == "text" and not 1 <= bytes_of <= MOST_TEXT:
            raise line.fault("Size", size, f"a text has 1 to {MOST_TEXT} bytes: cut a longer one into several fields")
        if kind == "bytes" and bytes_of < 1:
            raise line.fault("Size", size, "a field has at least one byte")
        if at + bytes_of > self.size:
            wanted = f"the field would end at byte {at + bytes_of}, and the record has {self.size}: places are counted from 0"
            raise line.fault("Place", place, wanted)
        if len(self.fields) == MOST_FIELDS:
            raise line.fault("Limit", first, f"a record has at most {MOST_FIELDS} fields")
        self.fields[name.text] = Field(name.text, kind, at, bytes_of)

    def take_show(self, line, first):
        second = line.take("what is shown", FORMS["show"])
        third = line.next()
        if second.text == "digest":
            line.end_here(FORMS["digest"])
            self.add_head(line, first, 0, None)
        elif second.text == "pseudonym":
            self.take_pseudonym(line, first)
        elif second.text == "under" and third is not None and third.text == "root":
            line.take("root", FORMS["under"])
            depth = line.number_word("how many levels the root stands above the digest", FORMS["under"])
            line.end_here(FORMS["under"])
            self.add_head(line, first, int(depth.text), depth)
        elif not second.is_name():
            raise line.syntax(second, f"a field's name of at most {MOST_NAME} bytes", FORMS["show"])
        else:
            self.take_claim(line, first, second)

    def take_pseudonym(self, line, first):
        form = FORMS["pseudonym"]
        line.literal(form, "of")
        name = line.name("the field's name", form)
        line.literal(form, "for")
        value = line.name("a name for the service's tag", form)
        line.end_here(form)
        self.add_show(line, first, name, "pseudonym", value)

    def take_claim(self, line, first, name):
        way = line.take("at most, at least, as or one of after the field's name", None, lambda word: word.text in ("at", "as", "one"))
        form = FORMS[way.text]
        if way.text == "one":
            line.literal(form, "of")
            return self.add_show(line, first, name, "one of", None, self.texts_of(line))
        side = f"at {line.literal(form, 'most', 'least').text}" if way.text == "at" else "as"
        value = line.name("a name for the value, which is chosen when it is shown", form)
        line.end_here(form)
        return self.add_show(line, first, name, side, value)

    def texts_of(self, line):
        texts = [line.take("a text", FORMS["one"])]
        if len(texts[0].text) > MOST_TEXT:
            raise line.syntax(texts[0], f"a text of at most {MOST_TEXT} bytes", FORMS["one"])
        size = len(texts[0].text)
        while line.next() is not None:
            if len(texts) == MOST_TEXTS:
                raise line.fault("Syntax", line.next(), f"a line has at most {MOST_TEXTS} texts")
            wanted = f"a text of {size} bytes, as the first one has"
            texts.append(line.take(wanted, FORMS["one"], lambda word: len(word.text) == size))
        return texts

    def add_head(self, line, first, depth, word):
        if self.size is None:
            raise line.fault("Order", first, "the record line comes first: record SIZE")
        if self.is_headed:
            raise line.fault("Order", first, "a policy has one line show digest or show under root")
        if word is not None and not 1 <= depth <= MOST_LEVELS:
            raise line.fault("Limit", word, f"a root stands 1 to {MOST_LEVELS} levels above the digest")
        self.is_headed, self.depth = True, depth

    def add_show(self, line, first, name, way, value, texts=()):
        if not self.is_headed:
            raise line.fault("Order", first, "the line show digest or show under root comes before all else that is shown")
        if name.text not in self.fields:
            have = ", ".join(map(readable, self.fields)) or "none"
            raise line.fault("Unknown", name, f"no field has the name {readable(name.text)}: the fields are {have}")
        show_line = Show(line.number, self.fields[name.text], way, value, texts)
        self.check_claim(line, name, show_line)
        if len(self.shows) == MOST_SHOWS:
            raise line.fault("Limit", first, f"at most {MOST_SHOWS} things are shown beside the digest or the root")
        self.shows.append(show_line)
        self.warn_of(line, show_line)

    def check_claim(self, line, name, shown):
        field = shown.field
        is_kind = {"at most": "date", "at least": "date", "one of": "text", "pseudonym": "bytes"}.get(shown.way, field.kind)
        is_kind = "sealed" if shown.way == "pseudonym" and field.kind == "sealed" else is_kind
        if field.kind != is_kind or shown.way == "as" and field.kind in ("bytes", "sealed"):
            told = f"{'bytes are' if field.kind == 'bytes' else 'a seal is'} never shown" if shown.way == "as" else f"{shown.way} takes a field of {is_kind}"
            raise line.fault("Claim", name, f"{told}, and {readable(name.text)} is one of {field.kind}")
        if shown.texts and len(shown.texts[0].text) != field.size:
            word = shown.texts[0]
            more = quotes_told(word) if word.has_quotes() else ""
            raise line.fault("Claim", word, f"{readable(name.text)} has {field.size} bytes, and this text {len(word.text)}{more}")
        if shown.way == "pseudonym" and field.kind == "bytes" and field.size > MOST_PSEUDONYM:
            raise line.fault("Claim", name, f"a pseudonym is made of a field of at most {MOST_PSEUDONYM} bytes, and this one has {field.size}")

    # What is right, and not what it seems to be.
    def warn_of(self, line, shown):
        for word in shown.texts:
            if word.has_quotes():
                told = f"quotes are part of a text: {' and '.join(readable(one.text) for one in shown.texts)} are the texts here, and no text can have a blank"
                self.warnings.append(line.fault("", word, told))
                break
        if shown.value is not None and shown.value.text.isdigit():
            told = f"{shown.value.text} is a name here: its value is chosen when it is shown, by a line of the values"
            self.warnings.append(line.fault("", shown.value, told))

    def check_whole(self, last):
        if self.size is None:
            raise Fault("Missing", last, 0, 1, "the policy ends without its record line: record SIZE")
        if not self.is_headed:
            raise Fault("Missing", last, 0, 1, "the policy ends without a line show digest or show under root DEPTH")
        if not self.shows:
            raise Fault("Missing", last, 0, 1, "the policy ends with nothing shown beside the digest or the root")

    def is_sealed(self):
        """Whether a pseudonym is shown of a sealed field."""
        return any(shown.is_sealed() for shown in self.shows)

    def told_of_whole(self, name):
        """What is to be said of a policy as a whole."""
        lines = []
        blocks, own = (1, "the record's") if self.size <= ONE_BLOCK else (2, "two for the record's two blocks")
        hashes = blocks + self.depth + sum((shown.way == "pseudonym") + shown.is_sealed() for shown in self.shows)
        if hashes > MOST_HASHES:
            told = f"a circuit has room for {MOST_HASHES} hashes: {own}, one for each level of the root and one for each pseudonym, two if it is sealed"
            lines.append(f"{name}: {told}. This policy needs {hashes}")
        covered = {place for field in self.fields.values() for place in field.span()}
        if self.size - len(covered) < SALT:
            told = f"only {self.size - len(covered)} bytes of the record belong to no field"
            lines.append(f"{name}: {told}: leave {SALT} for a salt, or the record can be found from its digest by trying")
        fields = list(self.fields.values())
        for at, field in enumerate(fields):
            for other in fields[:at]:
                if set(field.span()) & set(other.span()):
                    lines.append(f"{name}: the fields {readable(other.name)} and {readable(field.name)} share bytes")
        return lines


# ---- values


def wanted_of(shown):
    """What a value of something shown is, in words."""
    if shown.way == "pseudonym":
        return "a service's tag, 32 hexadecimal digits"
    if shown.field.kind == "date":
        return "a date, the digits YYYYMMDD"
    return f"a text of {shown.field.size} bytes"


def is_value(shown, word):
    if shown.way == "pseudonym":
        return re.fullmatch("[0-9a-fA-F]{32}", word.text) is not None
    if shown.field.kind == "date":
        return re.fullmatch("0*[0-9]{1,10}", word.text) is not None
    return len(word.text) == shown.field.size


def is_day(digits):
    """Whether a number is a day of the calendar."""
    try:
        datetime.date(int(digits) // 10_000, int(digits) // 100 % 100, int(digits) % 100)
    except (ValueError, OverflowError):
        return False
    return True


def entries_of(text):
    """The two words of each line of a text of values, or the fault of the first line that is no name and a word."""
    entries, form = [], "NAME VALUE, one of each on a line"
    for number, whole in enumerate(text.split(b"\n"), 1):
        words = words_of(whole)
        if words:
            line = Line(number, words, words[-1].column + len(words[-1].text))
            name = line.name("a name", form)
            value = line.name("a value", form)
            line.end_here(form)
            entries.append((line, name, value))
    return entries


def told_of_values(policy, name, text, whole=False):
    """What is wrong with a text of values for a policy, in lines; in a whole one the value after `as` stands too."""
    try:
        entries = entries_of(text)
        asked = [shown for shown in policy.shows if shown.value is not None]
        names = list(dict.fromkeys(readable(shown.value.text) for shown in asked))
        for line, word, _ in entries:
            if readable(word.text) not in names:
                raise line.fault("Unknown", word, f"no show line has a value of this name; they have: {', '.join(names) or 'none'}")
        lines = []
        for shown in asked:
            lines += told_of_value(shown, name, [entry for entry in entries if entry[1].text == shown.value.text], whole)
        return list(dict.fromkeys(lines))
    except Fault as fault:
        return show(name, text, fault)


def told_of_value(shown, name, entries, whole):
    """What is to be said of the lines that have the value of something shown."""
    if not entries:
        needs = [] if shown.way == "as" and not whole else [f"{name} lacks a line: {readable(shown.value.text)}, and then {wanted_of(shown)}"]
        return needs
    line, word, value = entries[0]
    if len(entries) > 1:
        raise line.fault("Repeated", word, f"the name stands on line {entries[1][0].number} too")
    if not is_value(shown, value):
        more = ": write 20081129 for 2008-11-29" if shown.field.kind == "date" and shown.way != "pseudonym" and "-" in value.text else ""
        more += quotes_told(value) if value.has_quotes() else ""
        raise line.fault("Value", value, f"wanted {wanted_of(shown)}, for: {shown.text()}{more}")
    if shown.way != "pseudonym" and shown.field.kind == "date" and not is_day(value.text):
        return [f"{name}, line {line.number}: {value.text} is no day of the calendar; it is compared as a number"]
    return []


def told_of_shown(policy, name, text):
    """What is wrong with a text of what a verifier was shown: the digest or the root, the pseudonyms, and then values."""
    names = ["root" if policy.depth else "digest"] + ["pseudonym" for shown in policy.shows if shown.way == "pseudonym"]
    lines = text.split(b"\n")
    try:
        for number, whole in enumerate(lines, 1):
            words = words_of(whole)
            if words and names:
                line, form = Line(number, words, words[-1].column + len(words[-1].text)), f"{names[0]} HEX, with 64 hexadecimal digits"
                line.literal(form, names[0])
                word = line.take("64 hexadecimal digits", form)
                line.end_here(form)
                if re.fullmatch("[0-9a-fA-F]{64}", word.text) is None:
                    raise line.fault("Value", word, "wanted 64 hexadecimal digits")
                lines[number - 1] = b""
                names.pop(0)
    except Fault as fault:
        return show(name, text, fault)
    if names:
        return [f"{name} lacks a line: {names[0]}, and then 64 hexadecimal digits"]
    return told_of_values(policy, name, b"\n".join(lines), True)


# ---- paths: no line of theirs is shown, since it says which leaf is the holder's


def path_of(name, text):
    """The leaf's number and the nodes of a path; or None, and what is wrong with a line."""
    words = []
    for number, whole in enumerate(text.split(b"\n"), 1):
        found = words_of(whole)
        if len(found) > 1:
            return None, [f"{name}, line {number}: wanted one word, and found {len(found)}"]
        if found:
            words.append((number, found[0].text))
    if not words:
        return None, [f"{name} has no leaf: its first line is the leaf's number in its row, counted from 0"]
    number, leaf = words[0]
    if not leaf.isdigit() or int(leaf[-400:]) >= 2**MOST_LEVELS:
        return None, [f"{name}, line {number}: wanted the leaf's number, decimal and below {2**MOST_LEVELS}"]
    for number, node in words[1:]:
        if not re.fullmatch("[0-9a-fA-F]{64}", node):
            return None, [f"{name}, line {number}: wanted a node of 64 hexadecimal digits, and the word has {len(node)} bytes"]
    return (int(leaf), len(words) - 1), []


def told_of_place(policy, name, leaf, nodes):
    """Whether a path leads to the policy's root."""
    if nodes != policy.depth:
        return [f"{name} has {nodes} nodes, and the policy says show under root {policy.depth}: it is the path of another tree"]
    if leaf >= 2**policy.depth:
        return [f"{name}: a root of {policy.depth} levels has {2**policy.depth} leaves, counted from 0"]
    return []


# ---- a run


def read(name, wanted, also=()):
    """The bytes of a regular file of at most 64 KiB, or None and what is to be said of it."""
    told = told_of_input(name, wanted, also)
    if told:
        return None, told
    try:
        known = os.stat(name)
        if not stat.S_ISREG(known.st_mode):
            raise Silent
        if known.st_size > MOST_FILE:
            return None, [f"{name} has {known.st_size} bytes, and {wanted} has at most {MOST_FILE}"]
        with open(name, "rb") as file:
            return file.read(), []
    except (OSError, ValueError):
        raise Silent from None


def told_of_policy(name):
    """A policy, if the file has one, and what is to be said of it."""
    text, told = read(name, "a policy")
    if text is None:
        return None, told
    try:
        policy = Policy(text)
    except Fault as fault:
        return None, show(name, text, fault)
    lines = [line for warning in policy.warnings for line in show(name, text, warning)]
    return policy, lines + policy.told_of_whole(name)


def told_of_record(policy, name):
    """Whether a record has the policy's size. Its bytes are not read."""
    told = told_of_input_unread(name)
    if told or not os.path.isfile(name):
        return told
    size = os.stat(name).st_size
    if size == policy.size:
        return []
    lines = [f"{name} has {size} bytes, and the policy says record {policy.size}"]
    if size == policy.size + 1:
        lines.append("  one byte more is mostly a line end: write it by printf, or by open(name, 'wb')")
    elif size in (2 * policy.size, 2 * policy.size + 1):
        lines.append("  twice as many may be hexadecimal digits: xxd -r -p makes bytes of them")
    return lines


def told_of_input_unread(name):
    if os.path.isfile(name) and os.access(name, os.R_OK):
        return []
    return told_of_input(name, "a record")


def told_of_secret(name):
    """Whether a secret has its size. Its bytes are not read."""
    told = told_of_input_unread(name)
    if told or not os.path.isfile(name) or os.stat(name).st_size == SECRET:
        return told
    return [f"{name} has {os.stat(name).st_size} bytes, and a secret has {SECRET}"]


def told_of_kind(policy, count, policy_name, last):
    """Whether so many files stand beside the values as the policy wants. The last words of the command are told."""
    wanted = [word for word, is_there in (("SECRET", policy.is_sealed()), ("PATH", policy.depth > 0)) if is_there]
    if len(wanted) == count:
        return []
    heads = {
        "PATH": f"{policy_name} says show under root {policy.depth}: name the path's file after the values",
        "SECRET": f"{policy_name} shows a pseudonym of a sealed field: name the secret's file after the values",
    }
    if len(wanted) > count:
        return [heads[wanted[0] if count == 0 else wanted[-1]]]
    form = " ".join(["POLICY RECORD VALUES", *wanted, last])
    return [f"{policy_name} says {'show digest' if policy.depth == 0 else 'nothing sealed'}: it takes no {'path' if policy.depth == 0 else 'secret'}, so the words are {form}"]


def told_of_inputs(names, puts):
    """What is to be said of a run of `inputs` or `prove`, which puts so many files, of the first file that is at fault."""
    beside, path = names[3:-puts], None
    policy_name, record, values = names[:3]
    policy, told = told_of_policy(policy_name)
    if policy is None:
        return told
    wrong = told_of_kind(policy, len(beside), policy_name, "PUBLIC PRIVATE" if puts == 2 else "PROOF session=HEX")
    if not wrong and policy.is_sealed():
        wrong = told_of_secret(beside[0])
    if not wrong and policy.depth:
        text, wrong = read(beside[-1], "a path", ("a list of numbers", "an empty file"))
        path, wrong = (None, wrong) if text is None else path_of(beside[-1], text)
    wrong = wrong or told_of_record(policy, record)
    if not wrong:
        text, wrong = read(values, "a text of values", ("a list of numbers", "an empty file"))
        wrong = wrong or told_of_values(policy, values, text)
    if not wrong and path:
        wrong = told_of_place(policy, beside[-1], *path)
    return told + wrong + [line for output in names[-puts:] for line in told_of_output(output)]


def told_of(command, names):
    counts = {"circuit": (2,), "digest": (2,), "inputs": (5, 6, 7), "prove": (4, 5, 6), "show": (1,), "verify": (3,)}
    if command in ("prove", "verify"):
        while names and names[-1].startswith(("session=", "workers=")):
            names = names[:-1]
    if len(names) not in counts.get(command, ()):
        raise Silent
    if command in ("inputs", "prove"):
        return told_of_inputs(names, 2 if command == "inputs" else 1)
    policy, told = told_of_policy(names[0])
    if command == "verify" and policy:
        text, wrong = read(names[1], "a text of what was shown", ("a list of numbers", "an empty file"))
        return told + (wrong or told_of_shown(policy, names[1], text))
    if command == "circuit":
        return told + told_of_output(names[1])
    if command == "digest":
        return told_of_record(policy, names[1]) if policy else told
    return told


def main(words):
    if not words or words[0] in ("-h", "--help"):
        print(__doc__.split("\n\n")[1], file=sys.stderr)
        return 0 if words else 2
    if os.environ.get("ZK_LINT") == "0":
        return 0
    # Whatever goes wrong here is no fault of the run.
    try:
        lines = told_of(words[0], words[1:])
    except Exception:  # pylint: disable=broad-except
        lines = []
    for line in lines:
        print(line if line.startswith("  ") else f"zk-credential: {line}", file=sys.stderr)
    return 1 if lines else 0


if __name__ == "__main__":
    sys.exit(main(sys.argv[1:]))
