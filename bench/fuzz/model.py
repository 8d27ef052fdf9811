"""What zk-credential is to answer: status, text and files of a run, from docs/POLICY.md and docs/FORMATS.md alone.

Where the page leaves open which of several lines is printed, an end has all of them, the likeliest first.
"""

from __future__ import annotations

import hashlib
import os
import re
from typing import Dict, List, NamedTuple, Optional, Pattern, Sequence, Tuple, Union

MOST_TEXT, MOST_PROOF = 65_536, 2_097_152
# The numbers in which the profiles differ: levels, hashes of a circuit, the prime and its word.
IS_STRONG = os.environ.get("ZK_PROFILE") == "strong"
MOST_LEVELS, MOST_HASHES = (20, 32) if IS_STRONG else (6, 8)
PRIME, PRIME_WORD = (2**128 - 2**54 + 1, b"prime128") if IS_STRONG else (2**64 - 2**32 + 1, b"goldilocks")
DONE, REJECTED, WORDS, REFUSED, UNREAD, UNWRITTEN = 0, 1, 2, 3, 4, 5
# The rules in the order of the page's table, which is the likeliest order of looking at them.
KINDS = (b"Syntax", b"Order", b"Repeated", b"Size", b"Place", b"Unknown", b"Claim", b"Limit")
FOLDER = None  # what a name is that cannot be read or written
Files = Dict[bytes, Optional[bytes]]  # by name: a file's bytes, or FOLDER; a name that is not there is missing
Numbers = List[Optional[int]]  # None for an idle number, which may be any
Text = Union[bytes, Pattern[bytes]]  # a line that is printed, or what it is like; a group is the size of what is put
Value = Union[int, bytes, None]  # a number, a tag, or none


class End(Exception):
    """The end of a run: its status, and the texts that it may print."""

    def __init__(self, status: int, *texts: bytes) -> None:
        super().__init__(status, texts)
        self.status, self.texts = status, texts


class Field(NamedTuple):
    name: bytes
    kind: bytes
    size: int
    place: int


class Claim(NamedTuple):
    what: bytes
    field: Field
    value: bytes = b""
    texts: Tuple[bytes, ...] = ()


class Policy(NamedTuple):
    size: int
    levels: int  # 0 where the digest is shown
    claims: Tuple[Claim, ...]


class Place(NamedTuple):
    leaf: int
    nodes: Tuple[bytes, ...]


class Truth(NamedTuple):
    """What is proved of: all that was read, and true."""

    policy: Policy
    record: bytes
    values: List[Value]
    place: Place
    secret: bytes


class Ran(NamedTuple):
    status: int
    texts: Tuple[Text, ...]
    puts: Dict[bytes, Union[Numbers, bytes]]  # what is written: numbers, or a circuit or a proof (b"")


# ---- texts


def lines_of(text: bytes) -> List[Tuple[int, List[bytes]]]:
    """The words of each line that has some, with its number."""
    made = []
    for at, line in enumerate(text.split(b"\n"), 1):
        words = line.split(b"#")[0].replace(b"\t", b" ").replace(b"\r", b" ").split(b" ")
        made.append((at, [word for word in words if word]))
    return [(at, words) for at, words in made if words]


def is_digits(word: bytes) -> bool:
    return word.isdigit()


def is_hex(word: bytes, size: int) -> bool:
    return len(word) == size and all(byte in b"0123456789abcdefABCDEF" for byte in word)


def number(word: bytes) -> Optional[int]:
    return int(word) if is_digits(word) and len(word.lstrip(b"0")) <= 3 else None


def seen(word: bytes) -> bytes:
    """A name or text as it is printed."""
    return b"".join(b"\\x%02x" % byte if byte == 0x5C or not 0x21 <= byte <= 0x7E else bytes([byte]) for byte in word)


def at_line(name: bytes, line: int, *kinds: bytes) -> End:
    return End(REFUSED, *(b"refused: %s at line %d: %s\n" % (name, line, kind) for kind in kinds))


# ---- policies


def form_of(words: List[bytes]) -> Optional[tuple]:
    """What a line says if it has one of the forms: its first word, then its parts."""
    first, rest = words[0], words[1:]
    if first == b"record" and len(rest) == 1 and number(rest[0]) is not None:
        return b"record", number(rest[0])
    if first == b"field":
        return field_form(rest)
    return show_form(rest) if first == b"show" else None


def field_form(rest: List[bytes]) -> Optional[tuple]:
    if len(rest) == 4 and rest[1] in (b"date", b"sealed") and rest[2] == b"at":
        size: Optional[int] = 4 if rest[1] == b"date" else 32
    elif len(rest) == 5 and rest[1] in (b"text", b"bytes") and rest[3] == b"at":
        size = number(rest[2])
    else:
        return None
    place = number(rest[-1])
    if len(rest[0]) > 32 or size is None or place is None:
        return None
    return b"field", Field(rest[0], rest[1], size, place)


def show_form(rest: List[bytes]) -> Optional[tuple]:
    if rest == [b"digest"]:
        return b"digest", 0
    if len(rest) == 3 and rest[:2] == [b"under", b"root"]:
        return None if number(rest[2]) is None else (b"root", number(rest[2]))
    if rest[:1] in ([b"digest"], [b"pseudonym"]) and (len(rest) != 5 or rest[1] != b"of"):
        return None
    if len(rest) == 5 and rest[:2] == [b"pseudonym", b"of"] and rest[3] == b"for":
        made = b"pseudonym", rest[2], rest[4], ()
    elif len(rest) == 4 and rest[1] == b"at" and rest[2] in (b"most", b"least"):
        made = rest[2], rest[0], rest[3], ()
    elif len(rest) == 3 and rest[1] == b"as":
        made = b"as", rest[0], rest[2], ()
    elif 4 <= len(rest) <= 19 and rest[1:3] == [b"one", b"of"]:
        if len(rest[3]) > 32 or any(len(text) != len(rest[3]) for text in rest[3:]):
            return None
        made = b"one of", rest[0], b"", tuple(rest[3:])
    else:
        return None
    return None if len(made[1]) > 32 or len(made[2]) > 32 else (b"claim", *made)


def suits(claim: Claim) -> bool:
    field = claim.field
    if claim.what in (b"most", b"least"):
        return field.kind == b"date"
    if claim.what == b"as":
        return field.kind in (b"date", b"text")
    if claim.what == b"one of":
        return field.kind == b"text" and len(claim.texts[0]) == field.size
    return field.kind == b"sealed" or (field.kind == b"bytes" and field.size <= 35)


class Reading:
    """A policy while its lines are read."""

    def __init__(self) -> None:
        self.size: Optional[int] = None
        self.fields: Dict[bytes, Field] = {}
        self.levels: Optional[int] = None
        self.claims: List[Claim] = []

    def take(self, form: tuple) -> List[bytes]:
        """The rules that a line breaks; without any it is taken."""
        step = {b"record": self.record, b"field": self.field, b"claim": self.claim}.get(form[0])
        broken = step(*form[1:]) if step else self.show(form[0] == b"root", form[1])
        return [kind for kind in KINDS if broken.get(kind)]

    def record(self, size: int) -> Dict[bytes, bool]:
        broken = {b"Order": self.size is not None, b"Size": not 1 <= size <= 119}
        self.size = self.size or size
        return broken

    def field(self, field: Field) -> Dict[bytes, bool]:
        broken = {
            b"Order": self.size is None or self.levels is not None,
            b"Repeated": field.name in self.fields,
            b"Size": field.size == 0 or (field.kind == b"text" and field.size > 32),
            b"Place": self.size is not None and field.place + field.size > self.size,
            b"Limit": len(self.fields) == 32,
        }
        self.fields[field.name] = field
        return broken

    def show(self, is_root: bool, levels: int) -> Dict[bytes, bool]:
        broken = {b"Order": self.size is None or self.levels is not None, b"Limit": is_root and not 1 <= levels <= MOST_LEVELS}
        self.levels = levels
        return broken

    def claim(self, what: bytes, name: bytes, value: bytes, texts: Tuple[bytes, ...]) -> Dict[bytes, bool]:
        field = self.fields.get(name)
        claim = Claim(what, field or Field(name, b"", 0, 0), value, texts)
        self.claims.append(claim)
        return {
            b"Order": self.levels is None,
            b"Unknown": field is None,
            b"Claim": field is not None and not suits(claim),
            b"Limit": len(self.claims) > 8,
        }


def parse(name: bytes, text: bytes) -> Policy:
    reading = Reading()
    for at, words in lines_of(text):
        form = form_of(words)
        kinds = [b"Syntax"] if form is None else reading.take(form)
        if kinds:
            raise at_line(name, at, *kinds)
    if reading.size is None or reading.levels is None or not reading.claims:
        raise at_line(name, text.count(b"\n") + 2, b"Missing")
    return Policy(reading.size, reading.levels, tuple(reading.claims))


def shown(claim: Claim) -> bytes:
    """The line of `show`."""
    field, value = seen(claim.field.name), seen(claim.value)
    if claim.what == b"one of":
        return field + b" is one of " + b" ".join(map(seen, claim.texts))
    if claim.what == b"pseudonym":
        return b"a pseudonym of %s for %s" % (field, value)
    return b"%s is %s%s" % (field, b"" if claim.what == b"as" else b"at %s " % claim.what, value)


def shown_first(policy: Policy) -> bytes:
    root = b"a root, levels above the SHA-256 digest of the record: %d" % policy.levels
    return root if policy.levels else b"the SHA-256 digest of the record"


def is_sealed(claim: Claim) -> bool:
    return claim.what == b"pseudonym" and claim.field.kind == b"sealed"


def hashes(policy: Policy) -> int:
    return blocks(policy.size) + policy.levels + sum((claim.what == b"pseudonym") + is_sealed(claim) for claim in policy.claims)


# ---- values and paths


def bytes_of(field: Field, record: bytes) -> bytes:
    return record[field.place : field.place + field.size]


def own(field: Field, record: bytes) -> int:
    return int.from_bytes(bytes_of(field, record), "big")


def pieces(field: Field, value: int) -> List[int]:
    """The public numbers of a value: one, or of a long text five, of which each has seven of its bytes."""
    if field.kind != b"text" or field.size <= 7:
        return [value]
    text = value.to_bytes(field.size, "big")
    return [int.from_bytes(text[at : at + 7], "big") for at in range(0, 35, 7)]


def value_of(claim: Claim, word: bytes) -> Value:
    """The number or the tag that a word says, if it is a value of what is shown."""
    if claim.what == b"pseudonym":
        return bytes.fromhex(word.decode()) if is_hex(word, 32) else None
    if claim.field.kind == b"text":
        return int.from_bytes(word, "big") if len(word) == claim.field.size else None
    return int(word) if is_digits(word) and len(word.lstrip(b"0")) <= 10 else None


Lines = List[Tuple[int, List[bytes]]]


def check_value_lines(name: bytes, lines: Lines) -> None:
    for at, words in lines:
        if len(words) != 2 or max(map(len, words)) > 32:
            raise at_line(name, at, b"Syntax")


def values_of(name: bytes, lines: Lines, policy: Policy, record: bytes) -> List[Value]:
    """A number or a tag for each thing that is shown, and None for `one of`."""
    wanted = {claim.value for claim in policy.claims if claim.what != b"one of"}
    for at, words in lines:
        if words[0] not in wanted:
            raise at_line(name, at, b"Unknown")
    made: List[Value] = []
    for claim in policy.claims:
        if claim.what == b"one of":
            made.append(None)
            continue
        found = [(at, words[1]) for at, words in lines if words[0] == claim.value]
        if not found and claim.what != b"as":
            raise End(REFUSED, b"refused: %s has no value: %s\n" % (name, shown(claim)))
        if len(found) > 1:
            raise at_line(name, found[0][0], b"Repeated")
        value = value_of(claim, found[0][1]) if found else own(claim.field, record)
        if value is None:
            raise at_line(name, found[0][0], b"Value")
        made.append(value)
    return made


def read_values(name: bytes, text: bytes, policy: Policy, record: bytes) -> List[Value]:
    lines = lines_of(text)
    check_value_lines(name, lines)
    return values_of(name, lines, policy, record)


def first_names(policy: Policy) -> List[bytes]:
    """The names of the first lines of what was shown."""
    pseudonyms = [claim.what for claim in policy.claims if claim.what == b"pseudonym"]
    return [b"root" if policy.levels else b"digest", *pseudonyms]


def check_shown(name: bytes, text: bytes, policy: Policy) -> None:
    """What was shown: the first line at fault, a digest or root that is missing, the values, and then what is left out."""
    lines, names = lines_of(text), first_names(policy)
    for (at, words), known in zip(lines, names):
        if len(words) != 2 or words[0] != known:
            raise at_line(name, at, b"Syntax")
        if not is_hex(words[1], 64):
            raise at_line(name, at, b"Value")
    check_value_lines(name, lines[len(names) :])
    if not lines:
        raise End(REFUSED, b"refused: %s has no value: %s\n" % (name, shown_first(policy)))
    values_of(name, lines[len(names) :], policy, bytes(policy.size))
    given = {words[0] for _, words in lines[len(names) :]}
    left = [claim for claim in policy.claims if claim.what == b"as" and claim.value not in given]
    if left:
        raise End(REFUSED, b"refused: %s has no value: %s\n" % (name, shown(left[0])))


def read_place(name: bytes, text: bytes) -> Place:
    lines = lines_of(text)
    for nth, (at, words) in enumerate(lines):
        if len(words) > 1:
            raise at_line(name, at, b"Syntax")
        is_right = is_hex(words[0], 64) if nth else is_digits(words[0]) and int(words[0]) < 2**MOST_LEVELS
        if not is_right:
            raise at_line(name, at, b"Value")
    if not lines:
        raise End(REFUSED, b"refused: %s has no leaf\n" % name)
    return Place(int(lines[0][1][0]), tuple(bytes.fromhex(words[0].decode()) for _, words in lines[1:]))


def seal_of(secret: bytes) -> bytes:
    return hashlib.sha256(b"LZS1" + secret).digest()


def is_true(claim: Claim, value: Value, record: bytes, secret: bytes = b"") -> bool:
    mine = own(claim.field, record)
    if is_sealed(claim):
        return bytes_of(claim.field, record) == seal_of(secret)
    if claim.what == b"one of":
        return bytes_of(claim.field, record) in claim.texts
    if claim.what == b"pseudonym":
        return True
    assert isinstance(value, int)
    return {b"most": mine <= value < 2**32, b"least": value <= mine, b"as": value == mine}[claim.what]


# ---- SHA-256, as FIPS 180-4 has it


def roots_of_primes(power: int, count: int) -> List[int]:
    """The first 32 bits of the fractional parts of the roots of the first primes."""
    primes = [n for n in range(2, 312) if all(n % d for d in range(2, n))][:count]
    made = []
    for prime in primes:
        low, high = 0, prime << 32
        while high - low > 1:
            middle = (low + high) // 2
            low, high = (middle, high) if middle**power <= prime << (32 * power) else (low, middle)
        made.append(low % 2**32)
    return made


FIRST, ADDED = roots_of_primes(2, 8), roots_of_primes(3, 64)
# The initial hash value of SHA-224, from which nodes of a tree are made.
NODE = [0xC1059ED8, 0x367CD507, 0x3070DD17, 0xF70E5939, 0xFFC00B31, 0x68581511, 0x64F98FA7, 0xBEFA4FA4]


def turned(word: int, *by: int) -> int:
    made = 0
    for count in by:
        made ^= (word >> count | word << (32 - count)) % 2**32
    return made


def bits(value: int, count: int) -> List[int]:
    """The bits of a number, the highest first."""
    return [*map(int, format(value, f"0{count}b"))] if count else []


def words_of(text: bytes) -> List[int]:
    return [int.from_bytes(text[at : at + 4], "big") for at in range(0, len(text), 4)]


def compress(block: bytes, start: Sequence[int]) -> Tuple[bytes, List[int]]:
    """The state after one block from this one, and the inputs of section 14 of FORMATS but for the message."""
    made: List[int] = []

    def add(count: int, *parts: int) -> int:
        made.extend(bits(sum(parts) % 2**32, 32) + bits(sum(parts) >> 32, count))
        return sum(parts) % 2**32

    w = words_of(block)
    for t in range(16, 64):
        small = turned(w[t - 2], 17, 19) ^ w[t - 2] >> 10, turned(w[t - 15], 7, 18) ^ w[t - 15] >> 3
        w.append(add(2, small[0], w[t - 7], small[1], w[t - 16]))
    a, b, c, d, e, f, g, h = start
    for t in range(64):
        first = [h, turned(e, 6, 11, 25), e & f ^ ~e % 2**32 & g, ADDED[t], w[t]]
        above = add(3, *first, turned(a, 2, 13, 22), a & b ^ a & c ^ b & c)
        a, b, c, d, e, f, g, h = above, a, b, c, add(3, d, *first), e, f, g
    state = [add(1, old, new) for old, new in zip(start, (a, b, c, d, e, f, g, h))]
    return b"".join(word.to_bytes(4, "big") for word in state), made


def blocks(size: int) -> int:
    """How many blocks of SHA-256 a message of so many bytes has with its padding."""
    return 1 if size <= 55 else 2


def padded(message: bytes) -> bytes:
    zeros = 64 * blocks(len(message)) - 9 - len(message)
    return message + b"\x80" + bytes(zeros) + (8 * len(message)).to_bytes(8, "big")


def hashed(message: bytes) -> List[int]:
    whole = padded(message)
    state, made = compress(whole[:64], FIRST)
    if whole[64:]:
        made += words_of(state)
        state, more = compress(whole[64:], words_of(state))
        made = made + more
    assert state == hashlib.sha256(message).digest()
    return made


# ---- inputs


def message_of(claim: Claim, record: bytes, tag: bytes, secret: bytes) -> bytes:
    return b"LZP1" + (secret if is_sealed(claim) else bytes_of(claim.field, record)) + tag


def climb(record: bytes, place: Place, lowest: Sequence[int] = NODE) -> Tuple[bytes, List[int]]:
    """The root above a record by its place, and the private inputs of the path; the lowest node may be made from another state."""
    node, at = hashlib.sha256(record).digest(), place.leaf
    made = words_of(node)
    for nth, beside in enumerate(place.nodes):
        left, right = (beside, node) if at % 2 else (node, beside)
        if nth:
            made += words_of(node)
        made += bits(int.from_bytes(left + right, "big"), 512) + [at % 2]
        node, more = compress(left + right, NODE if nth else lowest)
        made, at = made + more, at // 2
    return node, made


def inputs(
    policy: Policy,
    record: bytes,
    values: Sequence[Value],
    place: Place,
    secret: bytes = b"",
    lowest: Sequence[int] = NODE,
) -> Tuple[List[int], Numbers]:
    """The public and private inputs for a record, true or not: a difference below 0 is taken modulo 2^32."""
    root, path = climb(record, place, lowest)
    public, stated, made = words_of(root), bits(int.from_bytes(record, "big"), 8 * len(record)), hashed(record)
    for claim, value in zip(policy.claims, values):
        if isinstance(value, bytes):
            if is_sealed(claim):
                seal = b"LZS1" + secret
                stated += bits(int.from_bytes(seal, "big"), 8 * len(seal)) + words_of(seal_of(secret))
                made += hashed(seal)
            message = message_of(claim, record, value, secret)
            public += words_of(value) + words_of(hashlib.sha256(message).digest())
            stated += bits(int.from_bytes(message, "big"), 8 * len(message))
            made += hashed(message)
        elif value is not None:
            public += pieces(claim.field, value)
            if claim.what != b"as":
                apart = (value - own(claim.field, record)) * (1 if claim.what == b"most" else -1)
                stated += bits(apart % 2**32, 32)[::-1] + bits(value % 2**32, 32)[::-1]
    private: Numbers = [*stated, *made]
    if 9_000 <= len(private) < 16_384:
        private += [None] * (16_384 - len(private))
    return public, [*private, *(path if policy.levels else [])]


# ---- runs


def read(files: Files, name: bytes, most: int) -> bytes:
    if name not in files:
        raise End(REFUSED, b"refused: %s is missing\n" % name)
    text = files[name]
    if text is None:
        raise End(UNREAD, b"fault: reading %s\n" % name)
    if len(text) > most:
        raise End(REFUSED, b"refused: %s is larger than %d bytes\n" % (name, most))
    return text


def read_policy(files: Files, name: bytes) -> Policy:
    policy = parse(name, read(files, name, MOST_TEXT))
    if hashes(policy) > MOST_HASHES:
        raise End(REFUSED, b"refused: %s: its circuit would pass a limit\n" % name)
    return policy


def read_record(files: Files, name: bytes, policy: Policy) -> bytes:
    record = read(files, name, policy.size)
    if len(record) < policy.size:
        raise End(REFUSED, b"refused: %s has %d bytes and not %d\n" % (name, len(record), policy.size))
    return record


def run_show(files: Files, name: bytes) -> Ran:
    policy = read_policy(files, name)
    return Ran(DONE, (b"".join(line + b"\n" for line in [shown_first(policy), *map(shown, policy.claims)]),), {})


def run_digest(files: Files, name: bytes, record: bytes) -> Ran:
    read_bytes = read_record(files, record, read_policy(files, name))
    return Ran(DONE, (hashlib.sha256(read_bytes).hexdigest().encode() + b"\n",), {})


def put(files: Files, puts: Sequence[Tuple[bytes, Union[Numbers, bytes]]], told: Text = b"put\n") -> Ran:
    """What is written until a name cannot be: one of a folder, or of no file in a folder that is not there."""
    done: Dict[bytes, Union[Numbers, bytes]] = {}
    for name, content in puts:
        is_nowhere = name not in files and b"/" in name and files.get(name.rsplit(b"/", 1)[0], b"") is not None
        if is_nowhere or files.get(name, b"") is None:
            return Ran(UNWRITTEN, (b"fault: writing %s\n" % name,), done)
        done[name] = content
    return Ran(DONE, (told,), done)


def run_circuit(files: Files, name: bytes, circuit: bytes) -> Ran:
    read_policy(files, name)
    return put(files, [(circuit, b"")])


# By how many files stand beside the values, and whether the policy has a sealed pseudonym.
BESIDE = {
    (0, True): b"has a sealed pseudonym, and there is no secret",
    (0, False): b"shows a root, and there is no path",
    (1, True): b"shows a root, and there is no path",
    (1, False): b"shows a digest, and there is a path",
    (2, True): b"shows a digest, and there is a path",
    (2, False): b"has no sealed pseudonym, and there is a secret",
}


def read_truth(files: Files, name: bytes, record_name: bytes, values_name: bytes, beside: Sequence[bytes]) -> Truth:
    policy, place, secret = read_policy(files, name), Place(0, ()), b""
    sealed = any(map(is_sealed, policy.claims))
    if len(beside) != sealed + (policy.levels > 0):
        raise End(REFUSED, b"refused: %s %s\n" % (name, BESIDE[len(beside), sealed]))
    if sealed:
        secret = read(files, beside[0], 16)
        if len(secret) < 16:
            raise End(REFUSED, b"refused: %s has %d bytes and not 16\n" % (beside[0], len(secret)))
    path_name = beside[-1] if beside else b""
    if policy.levels:
        place = read_place(path_name, read(files, path_name, MOST_TEXT))
    record = read_record(files, record_name, policy)
    values = read_values(values_name, read(files, values_name, MOST_TEXT), policy, record)
    if len(place.nodes) != policy.levels:
        raise End(REFUSED, b"refused: %s has %d nodes and not %d\n" % (path_name, len(place.nodes), policy.levels))
    if place.leaf >= 2**policy.levels:
        raise End(REFUSED, b"refused: %s: its leaf is none of its row\n" % path_name)
    for claim, value in zip(policy.claims, values):
        if not is_true(claim, value, record, secret):
            raise End(REFUSED, b"not true: %s\n" % shown(claim))
    return Truth(policy, record, values, place, secret)


def run_inputs(files: Files, name: bytes, record_name: bytes, values_name: bytes, *names: bytes) -> Ran:
    public, private = inputs(*read_truth(files, name, record_name, values_name, names[:-2]))
    return put(files, [(names[-2], [*public]), (names[-1], private)])


def run_prove(files: Files, name: bytes, record_name: bytes, values_name: bytes, *names: bytes) -> Ran:
    read_truth(files, name, record_name, values_name, names[:-1])
    return put(files, [(names[-1], b"")], re.compile(rb"proved %s: ([1-9][0-9]*) bytes\n" % re.escape(names[-1])))


def run_verify(files: Files, name: bytes, shown_name: bytes, proof: bytes) -> Ran:
    """The verdict on bytes that are no proof for what was shown; the model makes no proofs, and cannot tell that some are one."""
    policy = read_policy(files, name)
    check_shown(shown_name, read(files, shown_name, MOST_TEXT), policy)
    read(files, proof, MOST_PROOF)
    return Ran(REJECTED, (re.compile(rb"rejected: [^\n]+\n"),), {})


RUNS = {(b"show", 1): run_show, (b"digest", 2): run_digest, (b"circuit", 2): run_circuit, (b"verify", 3): run_verify}
RUNS.update({(b"inputs", count): run_inputs for count in (5, 6, 7)})
RUNS.update({(b"prove", count): run_prove for count in (4, 5, 6)})
KEYS = {b"prove": (b"session=", b"workers="), b"verify": (b"session=",)}


def is_value_of_key(key: bytes, value: bytes) -> bool:
    if key == b"session=":
        return is_hex(value, len(value)) and len(value) % 2 == 0 and len(value) <= 128
    return is_digits(value) and len(value) <= 9 and 1 <= int(value) <= 64


def without_keys(words: Sequence[bytes]) -> Optional[List[bytes]]:
    """The command and its names, if the keys behind them are right: those behind the three names of `verify`, which are taken as
    they stand, and all at the end that look like one behind those of `prove`."""
    if not words or words[0] not in KEYS:
        return [*words]
    count = 4 if words[0] == b"verify" else len(words)
    while words[0] == b"prove" and words[count - 1].startswith(KEYS[b"prove"]):
        count -= 1
    keys = [word[:8] for word in words[count:]]
    is_right = all(key in KEYS[words[0]] and is_value_of_key(key, word[8:]) for key, word in zip(keys, words[count:]))
    return [*words[:count]] if is_right and len({*keys}) == len(keys) and b"session=" in keys else None


def is_told(text: bytes, by: Text) -> bool:
    return text == by if isinstance(by, bytes) else by.fullmatch(text) is not None


def run(words: Sequence[bytes], files: Files) -> Ran:
    """The end of a run of these words, with the files that it puts."""
    left = without_keys(words)
    step = RUNS.get((left[0], len(left) - 1)) if left else None
    if left is None or step is None or not all(words):
        return Ran(WORDS, (b"refused: words\n",), {})
    try:
        return step(files, *left[1:])
    except End as end:
        return Ran(end.status, end.texts, {})
