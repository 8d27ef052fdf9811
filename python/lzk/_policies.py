"""Policies: what is shown of a record, proved and verified (docs/POLICY.md)."""

from __future__ import annotations

import ctypes
import datetime
import re
from dataclasses import dataclass, field
from typing import Callable, Dict, Iterable, List, Mapping, Optional, Sequence, Tuple, Union

from . import _calls, _errors, _lzk
from ._calls import CALLS, Verdict

Value = Union[int, datetime.date, str, bytes]
"""A date as the number YYYYMMDD or as a date; a text; a service's tag of 16 bytes."""
Values = Union[Mapping[str, Value], str, bytes]
"""A value for each name of a policy, or the text of a file of values."""
Path = Union[Tuple[int, Sequence[bytes]], str, bytes]
"""The leaf's number in its row and the nodes beside its path, the lowest first; or the text of a file of a path."""

# A call that fills a room of so many bytes, and an outcome.
_Call = Callable[[object, int, object], int]

TAG_BYTES, NODE_BYTES, MOST_NAME, MOST_WORKERS, MOST_TEXT = 16, 32, 32, 64, 65_536
# Blanks of the texts of policies are these and no others, so that a vertical tab or a form feed is part of a word.
WORD = re.compile(rb"[^ \t\r]+")
# What a text of what was shown begins with, where it shows no digest.
ROOT = "root"


@dataclass(frozen=True)
class Inputs:
    """The texts of the public and of the private numbers that show a record."""

    public: bytes = field(repr=False)
    private: bytes = field(repr=False)


@dataclass(frozen=True)
class Shown:
    """What a holder sends: a proof, and the text of what is shown."""

    proof: bytes = field(repr=False)
    shown: str


@dataclass(frozen=True)
class Told:
    """What a text of what was shown says: the digest of the record or a root above it, the pseudonyms in order, and a
    word for each value.

    A word is as it was written, and a value may be written in several ways, as a tag in capitals. Keep lists of what was
    seen by `head` and `pseudonyms`, which are bytes. A byte that is not of UTF-8 is read as by `surrogateescape`.
    """

    head: bytes
    is_root: bool
    pseudonyms: Tuple[bytes, ...]
    values: Dict[str, str]


def word(value: Value) -> str:
    """A value's word, as it stands in a text of values: a date's number, a text, or a tag's hexadecimal digits."""
    if isinstance(value, datetime.date):
        return f"{value.year:04}{value.month:02}{value.day:02}"
    if isinstance(value, str):
        return value
    if isinstance(value, (bytes, bytearray, memoryview)):
        return bytes(value).hex()
    return str(_lzk._integer("a value", value))


def _is_word(text: str) -> bool:
    """Whether a text is one word of a line: with a blank, a line feed or `#` it would be read as another."""
    return text != "" and not any(blank in text for blank in " \t\r\n#")


def _bytes_of(text: str) -> bytes:
    return text.encode("utf-8", "surrogateescape")


def _entry(name: object, value: Value) -> bytes:
    """The line of a name and a value."""
    if not isinstance(name, str):
        raise TypeError(f"a value's name is {type(name).__name__}, and str is expected")
    if not _is_word(name) or len(_bytes_of(name)) > MOST_NAME:
        raise ValueError(f"{name!r} is no value's name: it has 1 to {MOST_NAME} bytes, and no blank, line feed or #")
    if isinstance(value, (bytes, bytearray, memoryview)) and len(bytes(value)) != TAG_BYTES:
        raise ValueError(f"values[{name!r}] has {len(bytes(value))} bytes, and a service's tag has {TAG_BYTES}")
    if isinstance(value, (float, bool)):
        raise TypeError(f"values[{name!r}] is {type(value).__name__}, and an int, a date, a str or 16 bytes are expected")
    said = word(value)
    if not _is_word(said):
        raise ValueError(f"values[{name!r}] is {said!r}, and no text of values can say it; leave it out, and it is the record's own")
    return _bytes_of(f"{name} {said}\n")


def _text_of(what: str, text: Union[str, bytes]) -> bytes:
    return text.encode() if isinstance(text, str) else _lzk._bytes(what, text)


def _values_text(values: Values) -> bytes:
    if isinstance(values, Mapping):
        return b"".join(_entry(name, value) for name, value in values.items())
    return _text_of("values", values)


def _path_text(path: Optional[Path]) -> bytes:
    if path is None or isinstance(path, (str, bytes)):
        return _text_of("path", path or b"")
    leaf, nodes = path
    lines = [str(_lzk._integer("path[0]", leaf))]
    for place, node in enumerate(nodes):
        if len(_lzk._bytes(f"path[1][{place}]", node)) != NODE_BYTES:
            raise ValueError(f"path[1][{place}] has {len(node)} bytes, and a node has {NODE_BYTES}")
        lines.append(bytes(node).hex())
    return "".join(line + "\n" for line in lines).encode()


@dataclass
class _Given:
    """What a call is handed beside a policy, as bytes."""

    record: bytes = b""
    values: bytes = b""
    secret: bytes = b""
    path: bytes = b""
    shown: bytes = b""


class Policy:
    """A policy: what a record is, and what is shown of it.

    >>> policy = lzk.Policy(text)
    >>> made = policy.prove(record, {"LATEST": 20081129}, session=nonce)
    >>> verdict = policy.verify(made.shown, made.proof, nonce)

    Raises NoPolicy, PolicyLimit, TooLong, NoMemory.
    """

    def __init__(self, text: Union[str, bytes]) -> None:
        self.text = _text_of("text", text)
        self.lines: Tuple[str, ...] = ()
        shown, _ = self._made(_Given(), self._text_call(CALLS.lzk_policy_show))
        self.lines = tuple(shown.decode("ascii").splitlines())
        self._circuit: Optional[bytes] = None

    def circuit(self) -> bytes:
        """The file of the policy's circuit. It is made once. Raises PolicyLimit, NoMemory."""
        if self._circuit is None:
            self._circuit, _ = self._made(_Given(), self._text_call(CALLS.lzk_policy_circuit))
        return self._circuit

    def digest(self, record: bytes) -> bytes:
        """The SHA-256 digest of a record of the policy's size. Raises NoRecord, NoMemory."""
        given = _Given(record=_lzk._bytes("record", record))
        return self._made(given, self._text_call(CALLS.lzk_policy_digest, given.record))[0]

    def inputs(
        self, record: bytes, values: Values, *, secret: Optional[bytes] = None, path: Optional[Path] = None
    ) -> Inputs:
        """The texts of the numbers that show a record. They satisfy the policy's circuit.

        Raises NotTrue where something shown is not true of the record; NoSecret, NoPath, NoRecord, NoValues, NoNodes,
        NoLeaf, TooLong, NoMemory.
        """
        given = self._given(record, values, secret, path)
        both, public = self._made(given, self._given_call(CALLS.lzk_policy_inputs, given))
        return Inputs(both[:public], both[public:])

    def prove(
        self,
        record: bytes,
        values: Values,
        *,
        session: bytes,
        secret: Optional[bytes] = None,
        path: Optional[Path] = None,
        workers: int = 1,
        seed: Optional[bytes] = None,
    ) -> Shown:
        """A proof for a record, and the text of what it shows.

        Seed and session are those of `lzk.prove`. The proof is the same for every number of workers, from 1 to 64: the
        caller's thread does all the work here. Raises what `inputs` raises; Unsaid where no text can say what is shown.
        """
        if not 1 <= _lzk._integer("workers", workers) <= MOST_WORKERS:
            raise ValueError(f"workers is {workers}, and 1 to {MOST_WORKERS} are taken")
        given = self._given(record, values, secret, path)
        both, public = self._made(given, self._given_call(CALLS.lzk_policy_inputs, given))
        shown, _ = self._made(given, self._given_call(CALLS.lzk_policy_shown, given))
        proof = _lzk.prove(self.circuit(), both[:public], both[public:], session, seed)
        return Shown(proof, shown.decode("utf-8", "surrogateescape"))

    def public(self, shown: Union[str, bytes]) -> bytes:
        """The text of the public numbers of what was shown. Raises NoShown, TooLong, NoMemory."""
        given = _Given(shown=_shown_text(shown))
        return self._made(given, self._text_call(CALLS.lzk_policy_public, given.shown))[0]

    def explain(self, shown: Union[str, bytes], proof: bytes, session: bytes) -> Verdict:
        """The verdict on a proof of what was shown, which is true where it is accepted. Raises what `public` raises.

        An accepted proof says that what was shown is true of some record. Look at what it says by `told`: whether you
        trust the digest or the root, and whether the values are yours.
        """
        return _lzk.explain(self.circuit(), self.public(shown), session=session, proof=proof)

    def verify(self, shown: Union[str, bytes], proof: bytes, session: bytes) -> Verdict:
        """The same; raises Rejected where a check fails.

        Each may be given by name: `policy.verify(shown=.., session=.., proof=..)`.
        """
        verdict = self.explain(shown, proof, session)
        if not verdict:
            raise _errors.Rejected(verdict)
        return verdict

    def told(self, shown: Union[str, bytes]) -> Told:
        """What a text of what was shown says. Raises what `public` raises."""
        text = _shown_text(shown)
        self.public(text)
        words = [WORD.findall(line.split(b"#")[0]) for line in text.split(b"\n")]
        entries = [tuple(part.decode("utf-8", "surrogateescape") for part in line) for line in words if line]
        count = 1 + sum(line.startswith("a pseudonym of ") for line in self.lines[1:])
        digests, values = entries[:count], entries[count:]
        found = [bytes.fromhex(digits) for _, digits in digests]
        return Told(found[0], digests[0][0] == ROOT, tuple(found[1:]), {name: said for name, said in values})

    def _given(self, record: bytes, values: Values, secret: Optional[bytes], path: Optional[Path]) -> _Given:
        sealed = b"" if secret is None else _lzk._bytes("secret", secret)
        return _Given(_lzk._bytes("record", record), _values_text(values), sealed, _path_text(path))

    def _text_call(self, call: Callable[..., int], *others: bytes) -> _Call:
        """A call with the policy's text, and others after it."""
        parts = _lzk.passed(self.text, *others)
        return lambda room, size, outcome: call(*parts, room, size, outcome)

    def _given_call(self, call: Callable[..., int], given: _Given) -> _Call:
        """A call with all that is given."""
        parts = (self.text, given.record, given.values, given.secret, given.path)
        raw = _calls.PolicyGiven(*(_calls.Bytes(part, len(part)) for part in parts))
        return lambda room, size, outcome: call(ctypes.byref(raw), room, size, outcome)

    def _made(self, given: _Given, call: _Call) -> Tuple[bytes, int]:
        """What a call puts into a room, which is made as large as it asks for; and the outcome's offset."""
        size, outcome = 65536, _calls.Outcome()
        while True:
            room = ctypes.create_string_buffer(size)
            if call(room, size, ctypes.byref(outcome)) != 7:
                self._refuse(outcome, given)
                return ctypes.string_at(room, outcome.count), outcome.offset
            size = outcome.count

    def _line(self, place: int) -> str:
        """The line of what is shown at a place, or of the digest or the root after the last."""
        if place + 1 < len(self.lines):
            return self.lines[place + 1]
        return self.lines[0] if self.lines else ""

    def _refuse(self, found: _calls.Outcome, given: _Given) -> None:
        """Raises what an answer means that is not 0."""
        answer, count = found.answer, int(found.count)
        if answer == 0:
            return
        if answer == 2:
            raise _errors.TooLong(_long_part(self.text, given))
        if answer == 14:
            raise _errors.NoPolicy(_errors.POLICY_RULES[found.kind], found.line, _line_of(self.text, found.line))
        if answer == 15:
            raise _errors.PolicyLimit(_errors.answer_text(answer))
        if answer in (16, 18, 20):
            had = len(given.secret if answer == 16 else given.record) if answer != 20 else -1
            raise {16: _errors.NoSecret, 18: _errors.NoRecord, 20: _errors.NoNodes}[answer](count, had)
        if answer in (17, 19, 24):
            rule = _errors.ENTRY_RULES[found.kind]
            kind = {17: _errors.NoPath, 19: _errors.NoValues, 24: _errors.NoShown}[answer]
            missing = self._line(found.check) if rule == "Missing" and answer != 17 else ""
            raise kind(rule, found.line, missing)
        if answer == 21:
            raise _errors.NoLeaf(_errors.answer_text(answer))
        if answer == 22:
            raise _errors.NotTrue(found.check, self._line(found.check))
        if answer == 25:
            raise _errors.Unsaid(_errors.answer_text(answer))
        _lzk._refuse(found, _lzk._Given())


def _shown_text(shown: Union[str, bytes]) -> bytes:
    if isinstance(shown, str):
        return _bytes_of(shown)
    return _lzk._bytes("shown", shown)


def _long_part(policy: bytes, given: _Given) -> str:
    parts: Iterable[Tuple[str, bytes]] = [("policy", policy), ("values", given.values), ("path", given.path), ("shown", given.shown)]
    for name, part in parts:
        if len(part) > MOST_TEXT:
            return f"{name} has {len(part)} bytes, and at most {MOST_TEXT} are taken"
    return _errors.answer_text(2)


def _line_of(text: bytes, line: int) -> str:
    """What stands in a line of a text, where it is short."""
    lines: List[bytes] = text.split(b"\n")
    found = lines[line - 1].decode("utf-8", "replace").strip() if 0 < line <= len(lines) else ""
    return f"the line is: {found}" if 0 < len(found) <= 80 else ""
