"""Random policies, records, values, paths and words: right, nearly right, and broken in each way that POLICY.md names."""

from __future__ import annotations

import random
from typing import Callable, Dict, List, NamedTuple, Optional, Tuple

import model

NAMES = (b"birth", b"until", b"country", b"secret", b"at", b"of", b"date", b"show", b"under", b"root", b"one", b"for")
TAKEN = (b"digest", b"pseudonym")  # names of fields that cannot be shown, but a pseudonym of them can
VALUES = (b"LATEST", b"TODAY", b"SERVICE", b"CODE", b"20081129", b"A", b"as")
ODD = bytes(byte for byte in range(256) if byte not in b"\t\n\r #")
FOREVER = b"/dev/zero"
FIXED = {b"date": 4, b"sealed": 32}  # the kinds of fields whose line has no size
HIDDEN = (b"bytes", b"sealed")


class Made(NamedTuple):
    """A case: words and files, and what the words name."""

    words: List[bytes]
    files: model.Files


def word(r: random.Random, most: int, least: int = 1) -> bytes:
    return bytes(r.choice(ODD) for _ in range(r.randint(least, most)))


def name(r: random.Random, known: Tuple[bytes, ...]) -> bytes:
    return r.choice(known) if r.random() < 0.8 else word(r, 32)


def digits(r: random.Random, value: int) -> bytes:
    return b"0" * r.choice((0, 0, 0, 0, 1, 2, 40)) + b"%d" % value


def date(r: random.Random) -> int:
    usual = r.randint(1900, 2099) * 10_000 + r.randint(1, 12) * 100 + r.randint(1, 31)
    return r.choice((usual, usual, usual, 0, 1, 2**32 - 1, 2**31, r.randrange(2**32)))


# ---- policies, as lists of words


def fields(r: random.Random, size: int) -> List[model.Field]:
    made: Dict[bytes, model.Field] = {}
    for _ in range(r.choice((1, 2, 3, 4, 5, 6)) if r.random() < 0.95 else r.choice((0, 32, 33))):
        kind = r.choice((b"date", b"text", b"bytes", b"sealed") if size >= 32 else (b"date", b"text", b"bytes"))
        long = FIXED.get(kind) or r.randint(1, min(size, r.choice((7, 7, 8, 14, 32) if kind == b"text" else (16, 35, 35, 55))))
        if long > size:
            kind, long = b"text", 1
        known = name(r, NAMES + TAKEN if kind in HIDDEN or r.random() < 0.1 else NAMES)
        made[known] = model.Field(known, kind, long, r.choice((0, size - long, r.randint(0, size - long))))
    return list(made.values())


def claim(r: random.Random, of: List[model.Field], nth: int) -> Optional[List[bytes]]:
    """A thing shown of a field that can be shown; else maybe none."""
    field = r.choice([field for field in of if field.kind in HIDDEN or field.name not in TAKEN] or of)
    chosen = b"V%d" % nth if r.random() < 0.6 else name(r, VALUES)
    if field.kind in HIDDEN:
        return [b"pseudonym", b"of", field.name, b"for", chosen] if field.size <= 35 else None
    if r.random() < 0.25:
        return [field.name, b"as", chosen]
    if field.kind == b"date":
        return [field.name, b"at", r.choice((b"most", b"least")), chosen]
    if field.size > 7 and r.random() < 0.4:
        return [field.name, b"as", chosen]
    texts = [word(r, field.size, field.size) for _ in range(r.choice((1, 2, 3, 16)))]
    if r.random() < 0.4:
        texts = [near(r, texts[0]) for _ in texts]
    return [field.name, b"one", b"of", *texts]


def near(r: random.Random, text: bytes) -> bytes:
    """A text with one byte changed, if not to what it was."""
    at = r.randrange(len(text))
    return text[:at] + word(r, 1, 1) + text[at + 1 :]


def policy(r: random.Random) -> List[List[bytes]]:
    size = r.choice((1, 4, 47, 55, 56, 64, 119, r.randint(1, 55), r.randint(8, 55), r.randint(56, 119)))
    known = fields(r, size)
    lines = [[b"record", digits(r, size)]]
    for field in known:
        long = [] if field.kind in FIXED else [digits(r, field.size)]
        lines.append([b"field", field.name, field.kind, *long, b"at", digits(r, field.place)])
    is_root = r.random() < 0.4
    lines.append([b"show", b"under", b"root", digits(r, r.randint(1, model.MOST_LEVELS))] if is_root else [b"show", b"digest"])
    for nth in range(r.choice((1, 2, 3, 4, 5, 8))):
        more = (claim(r, known, nth) or claim(r, known, nth)) if known else None
        if more:
            lines.append([b"show", *more])
    return lines


def text_of(r: random.Random, lines: List[List[bytes]]) -> bytes:
    """Lines with blanks and comments between, sometimes many."""
    is_plain = r.random() < 0.5

    def blank(least: int) -> bytes:
        return b" " * least if is_plain else bytes(r.choice(b" \t\r") for _ in range(r.randint(least, 2)))

    def comment() -> bytes:
        if r.random() < 0.002:
            return b"#" * r.choice((4_096, r.randint(4_000, 4_100), r.randint(8_000, 8_200)))
        return b"" if is_plain or r.random() < 0.7 else b"#" + bytes(r.choice(ODD + b"# \t\r") for _ in range(r.randint(0, 9)))

    made = []
    for line in lines:
        while not is_plain and r.random() < 0.2:
            made.append(blank(0) + comment())
        made.append(blank(0) + b"".join(part + blank(1) for part in line[:-1]) + (line[-1] if line else b"") + blank(0) + comment())
    return b"\n".join(made) + r.choice((b"\n", b"\n", b"\n", b"", b"\n\n", b"\n# end"))


# ---- what breaks lists of words


def other_word(r: random.Random, old: bytes) -> bytes:
    near = (old + b"x", old[:-1] or b"x", old.upper(), b"0x" + old, b"+" + old, b"-1", b"1.0", b'"' + old, old + b"\x00", b"\xc2\xa0" + old)
    keyword = r.choice(NAMES + TAKEN + (b"record", b"field", b"text", b"bytes", b"sealed", b"most", b"least", b"for", b"as"))
    return r.choice(near + (keyword, word(r, 40), digits(r, r.choice((0, 1, 7, 8, 32, 33, 35, 36, 55, 56, 119, 120, 999, 1000, 2**32, 2**64)))))


def change_word(r: random.Random, lines: List[List[bytes]]) -> None:
    line = r.choice(lines)
    at = r.randrange(len(line)) if line else 0
    if line:
        line[at] = other_word(r, line[at])


def add_word(r: random.Random, lines: List[List[bytes]]) -> None:
    line = r.choice(lines)
    line.insert(r.randint(0, len(line)), other_word(r, r.choice(line) if line else b"a"))


def drop_word(r: random.Random, lines: List[List[bytes]]) -> None:
    line = r.choice(lines)
    if line:
        del line[r.randrange(len(line))]


def long_name(r: random.Random, lines: List[List[bytes]]) -> None:
    line = r.choice(lines)
    if len(line) > 1:
        old, at = line[r.choice((1, -1))], r.choice((31, 32, 33))
        for other in lines:
            other[:] = [(old + at * b"n")[:at] if part == old else part for part in other]


def change_number(r: random.Random, lines: List[List[bytes]]) -> None:
    found = [(line, at) for line in lines for at, part in enumerate(line) if model.is_digits(part)]
    if found:
        line, at = r.choice(found)
        old = int(line[at])
        line[at] = digits(r, r.choice((0, old + 1, max(old - 1, 0), 7, 8, 35, 36, 55, 56, 119, 120, 999, 1000)))


def swap_lines(r: random.Random, lines: List[List[bytes]]) -> None:
    i, k = r.randrange(len(lines)), r.randrange(len(lines))
    lines[i], lines[k] = lines[k], lines[i]


def again(r: random.Random, lines: List[List[bytes]]) -> None:
    lines.insert(r.randint(0, len(lines)), list(r.choice(lines)))


def drop_lines(r: random.Random, lines: List[List[bytes]]) -> None:
    at = r.randrange(len(lines))
    del lines[at : r.choice((at + 1, len(lines)))]
    if not lines:
        lines.append([])


def many(r: random.Random, lines: List[List[bytes]]) -> None:
    """As many lines of one kind as pass a limit, or as many words."""
    old = list(r.choice(lines))
    if old[:1] == [b"field"] and len(old) > 1:
        at = lines.index(old)
        lines[at : at + 1] = [[b"field", b"%s%d" % (old[1][:28], nth), *old[2:]] for nth in range(r.choice((31, 32, 33)))]
    elif old[2:4] == [b"one", b"of"]:
        lines.append(old[:5] + r.choice((14, 15, 16)) * [old[4]] if len(old) > 4 else old)
    else:
        lines += [list(old) for _ in range(r.choice((7, 8, 9)))]


def other_claim(r: random.Random, lines: List[List[bytes]]) -> None:
    """A thing shown of a field that it may not suit, or that is not there."""
    names = [line[1] for line in lines if line[:1] == [b"field"] and len(line) > 1] + [b"nobody"]
    of, value = r.choice(names), r.choice(VALUES)
    forms = ([of, b"as", value], [of, b"at", b"most", value], [b"pseudonym", b"of", of, b"for", value], [of, b"one", b"of", word(r, r.choice((7, 8, 32, 33)))])
    lines.insert(r.choice((len(lines), r.randint(0, len(lines)))), [b"show", *r.choice(forms)])


def other_field(r: random.Random, lines: List[List[bytes]]) -> None:
    """A field that may break several rules at once, mostly where fields stand."""
    kind, size = r.choice((b"date", b"text", b"bytes", b"sealed")), r.choice((0, 1, 4, 7, 8, 32, 33, 35, 36, 55, 56, 119, 120))
    known = r.choice([line[1] for line in lines if len(line) > 1] + [name(r, NAMES)])
    end = max([number for line in lines if line[:1] == [b"record"] for number in [model.number(line[-1]) or 0]], default=47)
    place = r.choice((0, max(end - size, 0), max(end - size, 0) + 1, end, 999))
    long = [] if kind in FIXED else [digits(r, size)]
    fields_end = max([nth for nth, line in enumerate(lines) if line[:1] == [b"field"]], default=0) + 1
    at = r.choice((fields_end, fields_end, r.randint(0, len(lines))))
    lines.insert(at, [b"field", known, kind, *long, b"at", digits(r, place)])


BREAKERS: Tuple[Callable[[random.Random, List[List[bytes]]], None], ...] = (
    change_word, add_word, drop_word, long_name, change_number, swap_lines, again, drop_lines, many, other_claim, other_claim,
    other_field, other_field,
)  # fmt: skip


def changed_bytes(r: random.Random, text: bytes) -> bytes:
    made = bytearray(text)
    for _ in range(r.choice((1, 1, 2, 5))):
        at = r.randint(0, len(made))
        made[at : at + r.randint(0, 2)] = bytes(r.choice(b"\x00\t\n\r #\\0123\xff" + text) for _ in range(r.randint(0, 2)))
    return bytes(made)


def broken_text(r: random.Random, lines: List[List[bytes]], breakers: Tuple[Callable[..., None], ...], right: float) -> bytes:
    """A text of these lines: right with this share, else broken in one way or two, by lines or by bytes or in size."""
    if r.random() < right:
        return text_of(r, lines)
    for _ in range(r.choice((0, 1, 1, 1, 1, 2))):
        r.choice(breakers)(r, lines)
    text = text_of(r, lines)
    how = r.random()
    if how < 0.12:
        return changed_bytes(r, text)
    if how < 0.15:
        return text + b"#" * (model.MOST_TEXT + r.choice((0, 1, 5000)) - len(text))
    return b"" if how < 0.16 else text


# ---- records, values and paths of a policy


def secret(r: random.Random) -> bytes:
    return r.getrandbits(128).to_bytes(16, "big")


def record(r: random.Random, of: model.Policy, mine: bytes) -> bytes:
    """A record that is mostly such that what is shown can be true, and the seals are those of this secret."""
    made = bytearray(r.choice(ODD) if r.random() < 0.7 else r.randrange(256) for _ in range(of.size))
    for shown in sorted(of.claims, key=model.is_sealed):
        at = shown.field.place
        if model.is_sealed(shown) and r.random() < 0.97:
            made[at : at + 32] = model.seal_of(mine)
        if shown.field.kind == b"date":
            made[at : at + 4] = date(r).to_bytes(4, "big")
        if shown.texts and r.random() < 0.97:
            made[at : at + shown.field.size] = r.choice(shown.texts) if r.random() < 0.9 else near(r, r.choice(shown.texts))
    return bytes(made)


def value(r: random.Random, shown: model.Claim, of: bytes) -> bytes:
    """A word for what is shown, mostly true."""
    mine = model.own(shown.field, of)
    if shown.what == b"pseudonym":
        return r.choice((b"%032x", b"%032x", b"%032X")) % r.choice((0, r.getrandbits(128), r.getrandbits(128)))
    if shown.what == b"as" and shown.field.kind == b"text":
        return model.bytes_of(shown.field, of)
    apart = r.choice((0, 0, 1, 10_000, r.randrange(2**32), 2**32)) if r.random() < 0.96 else -1
    if shown.what == b"as":
        apart = apart if r.random() < 0.05 else 0
    number = mine + apart if shown.what == b"most" else mine - apart
    if shown.what == b"most" and r.random() < 0.95:
        number = min(number, 2**32 - 1)
    return digits(r, max(number, 0))[-32:] if r.random() < 0.97 else digits(r, r.choice((2**32, 9_999_999_999, 10**10)))


def values(r: random.Random, of: model.Policy, given: bytes, stated: float = 0.6) -> List[List[bytes]]:
    """The lines of values; one after `as` is stated with this share."""
    lines: Dict[bytes, bytes] = {}
    for known in of.claims:
        if known.what != b"one of" and (known.what != b"as" or r.random() < stated):
            lines.setdefault(known.value, value(r, known, given))
    made = [[key, lines[key]] for key in lines]
    r.shuffle(made)
    return made


def change_value(r: random.Random, lines: List[List[bytes]]) -> None:
    line = r.choice(lines) if lines else []
    if len(line) == 2:
        old = line[1]
        near = (old + b"0", old[1:] or b"0", b"0" * 22 + old, (b"0" * 32 + old)[-32:], (b"0" * 33 + old)[-33:], b"9" * 10, b"9" * 11, b"+1", b"0x1")
        line[1] = r.choice(near + (old[:-1] + b"g", word(r, 33), word(r, len(old), len(old)), b"4294967295", b"4294967296"))


def unknown_value(r: random.Random, lines: List[List[bytes]]) -> None:
    lines.insert(r.randint(0, len(lines)), [name(r, VALUES + NAMES), b"1"])


VALUE_BREAKERS = (change_value, change_value, unknown_value, change_word, add_word, drop_word, long_name, again, drop_lines)


def path(r: random.Random, levels: int) -> List[List[bytes]]:
    form = r.choice((b"%064x", b"%064x", b"%064X"))
    return [[digits(r, r.randrange(2**levels))], *([form % r.getrandbits(256)] for _ in range(levels))]


def change_leaf(r: random.Random, lines: List[List[bytes]]) -> None:
    lines[0] = [digits(r, r.choice((0, 1, 2, 3, 4, 8, 16, 32, 63, 64, 65, 2**20 - 1, 2**20, 2**64)))]


def change_node(r: random.Random, lines: List[List[bytes]]) -> None:
    line = r.choice(lines)
    if line:
        line[0] = r.choice((line[0] + b"0", line[0][1:] or b"x", line[0][:-1] + b"g", b"0x" + line[0][2:]))


def shown(r: random.Random, of: model.Policy, lines: List[List[bytes]]) -> List[List[bytes]]:
    """The lines that a verifier is shown, with digests that are no one's; a value after `as` may be left out in these lines."""
    form = r.choice((b"%064x", b"%064x", b"%064X"))
    return [*([key, form % r.getrandbits(256)] for key in model.first_names(of)), *lines]


def change_first(r: random.Random, lines: List[List[bytes]]) -> None:
    """One of the first lines is another's, or not there, or has another word."""
    at = r.choice((0, 0, min(1, len(lines) - 1)))
    how = r.randrange(5)
    if how == 0:
        del lines[at]
    elif how == 1:
        lines.insert(at, list(lines[at]))
    elif lines[at]:
        old = lines[at][-1]
        lines[at][-1] = r.choice((old + b"0", old[1:] or b"x", old[:-1] + b"g", b"0x" + old[2:], old[:32], 2 * old))
        if how == 2:
            lines[at][0] = r.choice((*TAKEN, b"root", b"Digest"))


SHOWN_BREAKERS = (change_first, change_first, change_value, unknown_value, change_word, add_word, drop_word, again, drop_lines, swap_lines)
PATH_BREAKERS = (change_leaf, change_leaf, change_node, change_word, add_word, drop_word, again, again, drop_lines, drop_lines, swap_lines)


def safe(step: Callable[[random.Random, List[List[bytes]]], None]) -> Callable[[random.Random, List[List[bytes]]], None]:
    """A breaker of lists that may be empty."""
    return lambda r, lines: step(r, lines) if lines else None


# ---- cases


def read_policy(text: bytes) -> Optional[model.Policy]:
    try:
        return model.parse(b"", text)
    except model.End:
        return None


def proof(r: random.Random) -> bytes:
    """Bytes that are no proof."""
    most = bytes(model.MOST_PROOF + r.choice((0, 1, 5000))) if r.random() < 0.05 else b""
    return most or r.choice((b"", word(r, 99), r.getrandbits(40_000).to_bytes(5_000, "big")))


def files(r: random.Random, right: float) -> Tuple[model.Files, Optional[model.Policy]]:
    """The files of a case, each right with this share, and a proof that is none."""
    text = broken_text(r, policy(r), BREAKERS, 1 - (1 - right) / 2)
    known = read_policy(text)
    of = known or model.Policy(47, r.choice((0, 3)), ())
    mine = secret(r)
    given = record(r, of, mine)
    lines, place = values(r, of, given), path(r, of.levels)
    told = shown(r, of, lines if r.random() < 0.2 else values(r, of, given, 1.0))
    made: model.Files = {b"policy": text, b"record": given, b"secret": mine, b"proof": proof(r)}
    made[b"values"] = broken_text(r, lines, tuple(map(safe, VALUE_BREAKERS)), right)
    made[b"path"] = broken_text(r, place, tuple(map(safe, PATH_BREAKERS)), right)
    made[b"shown"] = broken_text(r, told, tuple(map(safe, SHOWN_BREAKERS)), right)
    if r.random() > right:
        made[b"secret"] = r.choice((mine[:-1], mine + b"\0", b"", mine + bytes(5000), secret(r), mine.hex().encode()))
    if r.random() > right:
        made[b"record"] = r.choice((given[:-1], given + b"\0", b"", given + bytes(5000), word(r, len(given), len(given)), given))
    return made, known


def disturb(r: random.Random, case: Made) -> Made:
    """A name that is missing, a folder, in no folder, empty, endless, or another one's."""
    words, made = list(case.words), dict(case.files)
    if len(words) < 2:
        return case
    at = r.randrange(1, len(words))
    how = r.randrange(7)
    if how == 0:
        made.pop(words[at], None)
    elif how == 1:
        made[words[at]] = model.FOLDER
    elif how == 2:
        words[at] = b"nowhere/" + words[at]
    elif how == 3:
        words[at] = r.choice(words[1:])
    elif how == 4 and words[at] in made:
        words[at] = r.choice((FOREVER, b"/dev/null"))
    elif how == 5:
        words[at] = r.choice((b"a name", b"caf\xc3\xa9", b"-", b"session=00", b"--help", 200 * b"n"))
    else:
        made[words[at]] = word(r, 99)
    return Made(words, made)


def words(r: random.Random) -> List[bytes]:
    names = (b"policy", b"record", b"values", b"secret", b"path", b"public", b"private", b"shown", b"proof")
    commands = (b"show", b"digest", b"circuit", b"inputs", b"prove", b"verify")
    first = r.choice((*commands, b"help", b"version", b"Show", b"eval", b"", odd_word(r)))
    return [first, *(r.choice(names) for _ in range(r.randint(0, 8))), *(keys(r, first) if r.random() < 0.3 else [])][r.random() < 0.05 :]


def odd_word(r: random.Random) -> bytes:
    return word(r, 9).replace(b"\0", b"")


def session(r: random.Random) -> bytes:
    """The digits of a session of up to 64 bytes, of either case."""
    size = r.choice((0, 1, 16, 32, 32, 64))
    return r.choice((b"%0*x", b"%0*X")) % (2 * size, r.getrandbits(8 * size)) if size else b""


def other_key(r: random.Random) -> bytes:
    """A word that is no key, or a key that is another command's or has a wrong value, or stands twice."""
    value = session(r)
    near = (value + b"0", b"0" * 130, b"0g", b"0x00", b"00 ", b"-1", b"+1", b"\xc2\xa0")
    count = r.choice((b"0", b"65", b"", b"0000000001", b"000000001", b"+1", b"1x", b"0x1", b" 1", b"1", b"64", b"99999999999999999999"))
    key = r.choice((b"seed=", b"message=", b"version=", b"Session=", b"session", b"session:", b"=", b""))
    return r.choice((b"session=" + r.choice(near), b"workers=" + count, key + value, b"session=" + value, b"workers=2"))


def keys(r: random.Random, command: bytes) -> List[bytes]:
    """The keys of a command, mostly right, in any order."""
    made = [b"session=" + session(r)]
    if command == b"prove" and r.random() < 0.5:
        made.append(b"workers=%s" % r.choice((b"1", b"1", b"2", b"04", b"000000001", b"64")))
    r.shuffle(made)
    if r.random() < 0.1:
        at = r.randint(0, len(made))
        made[at : at + r.randint(0, 1)] = [other_key(r)]
    return made if r.random() < 0.98 else made[1:]


def beside(r: random.Random, known: Optional[model.Policy]) -> List[bytes]:
    """The files between the values and what is put: mostly those that the policy wants, else any."""
    if known is None or r.random() < 0.08:
        return r.choice(([], [b"secret"], [b"path"], [b"secret", b"path"], [b"path", b"secret"]))
    return [b"secret"] * any(map(model.is_sealed, known.claims)) + [b"path"] * (known.levels > 0)


def case(r: random.Random) -> Made:
    """A case that is no circuit's, but where it is to be refused."""
    made, known = files(r, r.choice((0.6, 0.95)))
    how = r.random()
    if how < 0.3:
        chosen = [b"show", b"policy"]
    elif how < 0.4:
        chosen = [b"digest", b"policy", b"record"]
    elif how < 0.45 and known is None:
        chosen = [b"circuit", b"policy", b"circuit"]
    elif how < 0.5:
        chosen = words(r)
        if chosen[:1] == [b"circuit"]:
            chosen = [b"circuit"]
    elif how < 0.6:
        chosen = [b"verify", b"policy", b"shown", b"proof", *keys(r, b"verify")]
    elif how < 0.7:
        chosen = [b"prove", b"policy", b"record", b"values", *beside(r, known), b"proof", *keys(r, b"prove")]
    else:
        chosen = [b"inputs", b"policy", b"record", b"values", *beside(r, known), b"public", b"private"]
    for name_put in (b"public", b"private"):
        if r.random() < 0.2:
            made[name_put] = word(r, 99)
    whole = Made(chosen, made)
    return disturb(r, whole) if r.random() < 0.12 else whole
