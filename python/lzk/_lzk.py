"""The calls, as Python has them."""

from __future__ import annotations

import ctypes
import operator
import secrets
import threading
import warnings
from dataclasses import dataclass
from types import TracebackType
from typing import Callable, Iterable, List, NamedTuple, Optional, Sequence, Tuple, Type, Union

from . import _calls, _errors
from ._calls import CALLS, Field, Info, Verdict

Numbers = Union[Iterable[int], str, bytes]
"""Numbers of the field: integers, or the text of a number file."""

MOST_SESSION, MOST_TEXT, SEED_BYTES = 64, 4_194_304, 32
SIZES = {Field.GOLDILOCKS: 2**64 - 2**32 + 1, Field.GF2_128: 2**128, Field.PRIME128: 2**128 - 2**54 + 1}


class Job(NamedTuple):
    """A proof with what it is verified for."""

    public: Numbers
    session: bytes
    proof: bytes


def _bytes(what: str, value: object) -> bytes:
    """The bytes of an argument, all of them: an array of larger items has more than its length says.

    An int is refused, of which bytes() would make so many zeros, and so is a str.
    """
    if type(value) is bytes:
        return value
    try:
        return memoryview(value).tobytes()  # type: ignore[arg-type]
    except TypeError:
        hint = {str: "; encode() it, or read the file", int: "; use to_bytes()"}.get(type(value), "")
        raise TypeError(f"{what} is {type(value).__name__}, and bytes are expected{hint}") from None


def _integer(what: str, value: object) -> int:
    try:
        return operator.index(value)  # type: ignore[arg-type]
    except TypeError:
        raise TypeError(f"{what} is {type(value).__name__}, and an integer is expected") from None


def _text(what: str, numbers: Numbers) -> bytes:
    """The text of a number file. A float is refused, of which %d would cut the fraction off."""
    if isinstance(numbers, str):
        return numbers.encode()
    if isinstance(numbers, (bytes, bytearray, memoryview)):
        return _bytes(what, numbers)
    # Says what is wrong and not the number: it may be private. A dict and a set have no order of their own.
    if isinstance(numbers, (dict, set, frozenset)) or not isinstance(numbers, Iterable):
        wanted = "a list of integers, or the text of a number file, is expected"
        raise TypeError(f"{what} is {type(numbers).__name__}, and {wanted}")
    return b"".join(b"%d\n" % _integer(f"{what}[{place}]", number) for place, number in enumerate(numbers))


def passed(*parts: bytes) -> List[object]:
    """A pointer and a length for each."""
    return [item for part in map(bytes, parts) for item in (part, len(part))]


def _number(digits: Iterable[int]) -> int:
    return int.from_bytes(bytes(digits), "little")


@dataclass
class _Given:
    """What a call was handed, as bytes, for the words of a refusal."""

    circuit: bytes = b""
    public: bytes = b""
    private: bytes = b""
    session: bytes = b""
    source: bytes = b""

    def too_long(self) -> str:
        """Which part is too long, and how long it is."""
        for name in ("session", "source", "public", "private"):
            size, most = len(getattr(self, name)), MOST_SESSION if name == "session" else MOST_TEXT
            if size > most:
                return f"{name} has {size} bytes, and at most {most} are taken"
        return _errors.answer_text(2)

    def of_numbers(self, which: str, rule: str) -> Tuple[str, int]:
        """How many numbers the circuit has, or what its field's size is; and how many, where that is what is wrong."""
        info = _calls.RawInfo()
        CALLS.lzk_circuit_info(*passed(self.circuit), ctypes.byref(info))
        if info.answer:
            return "", -1
        if rule in ("TooFew", "TooMany"):
            count = int(info.publics if which == "public" else info.privates)
            return f"the circuit has {count} {which} number{'' if count == 1 else 's'}", count
        if rule == "TooLarge":
            return f"the size is {SIZES[Field(info.field)]}", -1
        return "", -1

    def line_of_source(self, line: int) -> str:
        """What stands in a line of the source, where it is short."""
        lines = self.source.split(b"\n")
        found = lines[line - 1].decode("utf-8", "replace").strip() if 0 < line <= len(lines) else ""
        return f"the line is: {found}" if 0 < len(found) <= 80 else ""


def _refuse(found: Union[_calls.Report, _calls.Outcome, _calls.RawInfo], given: _Given) -> None:
    """Raises what an answer means that is neither 0 nor 1."""
    answer, kind = found.answer, found.kind
    if answer == 2:
        raise _errors.TooLong(given.too_long())
    if answer == 3:
        raise _errors.NoCircuit(_errors.CIRCUIT_RULES[kind], found.offset)
    if answer in (4, 9):
        which, rule = "public" if answer == 4 else "private", _errors.NUMBER_RULES[kind]
        raise _errors.NoNumbers(which, rule, found.line, *given.of_numbers(which, rule))
    if answer == 5:
        raise _errors.NoSource(_errors.SOURCE_RULES[kind], found.line, given.line_of_source(found.line))
    if answer == 6:
        raise _errors.NoMemory(_errors.answer_text(6))
    if answer == 8:
        raise _errors.Unsatisfied(found.check, _number(found.value))
    if answer == 10:
        raise _errors.OverLimit(_errors.LIMITS[kind], found.count)
    if answer not in (0, 1):
        raise _errors.Error(_errors.answer_text(answer))


def verdict_of(report: _calls.Report, given: Optional[_Given] = None) -> Verdict:
    """What a report says of a proof."""
    _refuse(report, given or _Given())
    if report.answer == 0:
        return Verdict(0)
    return Verdict(
        report.check,
        _errors.PROOF_RULES[report.kind] if report.check == 1 else "",
        report.offset,
        report.column,
        report.found_count,
        report.needed_count,
        bytes(report.found_digest),
        _number(report.found_sum),
        _number(report.wanted_sum),
    )


def _made(given: _Given, call: Callable[[object, int, object], int]) -> bytes:
    """What a call puts into a room, which is made as large as it asks for."""
    size, outcome = 65536, _calls.Outcome()
    while True:
        room = ctypes.create_string_buffer(size)
        if call(room, size, ctypes.byref(outcome)) != 7:
            _refuse(outcome, given)
            return room.raw[: outcome.count]
        size = outcome.count


def compile(source: Union[str, bytes], version: int = 1) -> bytes:
    """The file of a statement's circuit, of version 1 or 2.

    Raises NoSource, OverLimit, TooLong, NoMemory; ValueError for another version.
    """
    if _integer("version", version) not in (1, 2):
        raise ValueError(f"version is {version}, and a circuit's version is 1 or 2")
    text = source.encode() if isinstance(source, str) else _bytes("source", source)
    parts = passed(text)
    return _made(_Given(source=text), lambda room, size, outcome: CALLS.lzk_compile(version, *parts, room, size, outcome))


def sha_circuit(message_length: int) -> bytes:
    """The file of the circuit of SHA-256 for messages of so many bytes, 0 to 55. Raises TooLong, NoMemory."""
    length = _integer("message_length", message_length)
    if length < 0:
        raise ValueError(f"message_length is {length}, and a length is not negative")
    return _made(_Given(), lambda room, size, outcome: CALLS.lzk_sha_circuit(min(length, 56), room, size, outcome))


def upgrade(circuit: bytes) -> bytes:
    """The file of a circuit in version 2. Raises NoCircuit, NoMemory."""
    file = _bytes("circuit", circuit)
    return _made(_Given(file), lambda room, size, outcome: CALLS.lzk_upgrade(*passed(file), room, size, outcome))


def circuit_info(circuit: bytes) -> Info:
    """What a circuit's file holds. Raises NoCircuit, NoMemory."""
    raw = _calls.RawInfo()
    CALLS.lzk_circuit_info(*passed(_bytes("circuit", circuit)), ctypes.byref(raw))
    _refuse(raw, _Given())
    return Info(Field(raw.field), raw.version, raw.publics, raw.privates, raw.layers, raw.checks, bytes(raw.id))


def evaluate(circuit: bytes, public: Numbers, private: Numbers) -> None:
    """Returns where the numbers satisfy the circuit, and raises Unsatisfied otherwise.

    Raises NoCircuit, NoNumbers, TooLong, NoMemory too.
    """
    given = _Given(_bytes("circuit", circuit), _text("public", public), _text("private", private))
    outcome = _calls.Outcome()
    CALLS.lzk_eval(*passed(given.circuit, given.public, given.private), ctypes.byref(outcome))
    _refuse(outcome, given)


def prove(
    circuit: bytes,
    public: Numbers,
    private: Numbers,
    session: bytes = b"",
    seed: Optional[bytes] = None,
) -> bytes:
    """The proof that the numbers satisfy the circuit.

    The seed is 32 bytes that nobody else can guess, new for each proof: who knows it knows the private numbers. Leave
    it out, and the system's random numbers give it (os.urandom). The same seed gives the same bytes. Raises what
    `evaluate` raises.
    """
    chosen = secrets.token_bytes(SEED_BYTES) if seed is None else _bytes("seed", seed)
    if len(chosen) != SEED_BYTES:
        hint = "leave it out, and the system gives one"
        raise ValueError(f"seed has {len(chosen)} bytes, and {SEED_BYTES} are expected; {hint}")
    numbers = _text("public", public), _text("private", private)
    given = _Given(_bytes("circuit", circuit), *numbers, _bytes("session", session))
    room, outcome = ctypes.create_string_buffer(_calls.MOST_PROOF), _calls.Outcome()
    parts = passed(given.circuit, given.public, given.private, given.session)
    CALLS.lzk_prove(*parts, chosen, room, _calls.MOST_PROOF, ctypes.byref(outcome))
    _refuse(outcome, given)
    return ctypes.string_at(room, outcome.count)


def _asked(call: str, what: str, old: Tuple[object, ...], session: object, proof: object) -> Tuple[object, object]:
    """Session and proof of a call that is handed them by name. Until the next version it takes a proof, and maybe a
    session, after the public numbers too: every other call has the session first, so that order would change in
    silence."""
    if not old:
        if proof is None:
            raise TypeError(f"{call}() needs {what}=")
        return session, proof
    if len(old) > 2 or proof is not None or (len(old) == 2 and session != b""):
        raise TypeError(f"{call}() takes circuit and public, and then session= and {what}= by name")
    text = f"{call}(): hand {what}= and session= by name; the next version takes no other order"
    warnings.warn(text, DeprecationWarning, stacklevel=3)
    return (old[1] if len(old) == 2 else session), old[0]


def _given(circuit: object, public: Numbers, session: object) -> _Given:
    """What a verifier's call is handed but for the proof."""
    return _Given(_bytes("circuit", circuit), _text("public", public), session=_bytes("session", session))


def _explained(circuit: bytes, public: Numbers, session: object, proof: object) -> Verdict:
    report, given = _calls.Report(), _given(circuit, public, session)
    parts = passed(given.circuit, given.public, given.session, _bytes("proof", proof))
    CALLS.lzk_explain(*parts, ctypes.byref(report))
    return verdict_of(report, given)


def explain(
    circuit: bytes, public: Numbers, *old: bytes, session: bytes = b"", proof: Optional[bytes] = None
) -> Verdict:
    """The verdict on a proof, which is true where it is accepted. Raises NoCircuit, NoNumbers, TooLong, NoMemory."""
    return _explained(circuit, public, *_asked("explain", "proof", old, session, proof))


def verify(circuit: bytes, public: Numbers, *old: bytes, session: bytes = b"", proof: Optional[bytes] = None) -> None:
    """Returns where a proof is accepted, and raises Rejected otherwise. Raises what `explain` raises too."""
    verdict = _explained(circuit, public, *_asked("verify", "proof", old, session, proof))
    if not verdict:
        raise _errors.Rejected(verdict)


def explain_pieces(
    circuit: bytes, public: Numbers, *old: object, session: bytes = b"", pieces: Optional[Sequence[bytes]] = None
) -> Verdict:
    """The same of a proof that lies in pieces, one after another."""
    called, parts = _asked("explain_pieces", "pieces", old, session, pieces)
    if isinstance(parts, (bytes, bytearray, memoryview)) or not isinstance(parts, Iterable):
        raise TypeError(f"pieces is {type(parts).__name__}, and a list of bytes is expected")
    each = [_bytes(f"pieces[{place}]", piece) for place, piece in enumerate(parts)]
    report, given = _calls.Report(), _given(circuit, public, called)
    list_of = (_calls.Bytes * len(each))(*(_calls.Bytes(piece, len(piece)) for piece in each))
    parts = passed(given.circuit, given.public, given.session)
    CALLS.lzk_explain_pieces(*parts, list_of, len(each), ctypes.byref(report))
    return verdict_of(report, given)


def _job_of(place: int, job: object) -> Tuple[bytes, bytes, bytes]:
    """Public numbers, session and proof of a job."""
    if not isinstance(job, Job):
        if not isinstance(job, tuple) or len(job) != 3:
            raise TypeError(f"jobs[{place}] is {type(job).__name__}, and lzk.Job(public, session, proof) is expected")
        text = "explain_each(): make each job by lzk.Job; the next version takes no plain tuple"
        warnings.warn(text, DeprecationWarning, stacklevel=3)
        job = Job(job[0], job[2], job[1])
    at = f"jobs[{place}]"
    return _text(at + ".public", job.public), _bytes(at + ".session", job.session), _bytes(at + ".proof", job.proof)


def explain_each(circuit: bytes, jobs: Iterable[Job]) -> List[Union[Verdict, _errors.Error]]:
    """The verdicts on many proofs over one circuit, whose file is read once.

    In place of a verdict stands the error of a job that has none.
    """
    file, given = _bytes("circuit", circuit), [_job_of(place, job) for place, job in enumerate(jobs)]
    raw = [_calls.Job(*(_calls.Bytes(part, len(part)) for part in job)) for job in given]
    list_of = (_calls.Job * len(raw))(*raw)
    CALLS.lzk_explain_each(*passed(file), list_of, len(given))
    found: List[Union[Verdict, _errors.Error]] = []
    for job, (public, session, _) in zip(list_of, given):
        try:
            found.append(verdict_of(job.report, _Given(file, public, session=session)))
        except _errors.Error as error:
            found.append(error)
    return found


class Desk:
    """A verifier that is fed a proof while it arrives. Threads that share it wait for one another.

    >>> with lzk.Desk(circuit, public=[9], session=b"nonce") as desk:
    ...     for piece in pieces:
    ...         desk.feed(piece)
    ...     desk.verify()
    """

    def __init__(self, circuit: bytes, public: Numbers, session: bytes = b"") -> None:
        self._desk, self._alone = ctypes.c_void_p(), threading.Lock()
        self._given = _given(circuit, public, session)
        parts = passed(self._given.circuit, self._given.public, self._given.session)
        _refuse(_calls.Outcome(answer=CALLS.lzk_desk_open(ctypes.byref(self._desk), *parts)), self._given)

    def feed(self, piece: bytes) -> None:
        """The next bytes of the proof. Raises NoMemory: feed them again."""
        given = passed(_bytes("piece", piece))
        with self._alone:
            answer = CALLS.lzk_desk_feed(self._live(), *given)
        _refuse(_calls.Outcome(answer=answer), self._given)

    def explain(self) -> Verdict:
        """The verdict on all that was fed. The desk is ready for the next proof.

        Raises NoCircuit, NoNumbers, NoMemory.
        """
        report = _calls.Report()
        with self._alone:
            CALLS.lzk_desk_end(self._live(), ctypes.byref(report))
        return verdict_of(report, self._given)

    def verify(self) -> None:
        """Returns where all that was fed is a proof that is accepted, and raises Rejected otherwise."""
        verdict = self.explain()
        if not verdict:
            raise _errors.Rejected(verdict)

    def close(self) -> None:
        """Gives the desk's memory back."""
        with self._alone:
            CALLS.lzk_desk_free(self._desk)
            self._desk = ctypes.c_void_p()

    def _live(self) -> ctypes.c_void_p:
        if not self._desk:
            raise ValueError("the desk is closed")
        return self._desk

    def __enter__(self) -> "Desk":
        return self

    def __exit__(
        self,
        kind: Optional[Type[BaseException]],
        error: Optional[BaseException],
        trace: Optional[TracebackType],
    ) -> None:
        self.close()

    def __del__(self) -> None:
        if getattr(self, "_desk", None):
            self.close()
