"""What may go wrong, a class for each kind. Each text says what, where, and mostly what to do: the words are those of
include/lzk_text.h."""

from __future__ import annotations

from typing import Dict, Tuple

from . import _texts

CIRCUIT_RULES = tuple(name for name, _ in _texts.CIRCUIT)
NUMBER_RULES = tuple(name for name, _ in _texts.NUMBER)
SOURCE_RULES = tuple(name for name, _ in _texts.SOURCE)
LIMITS = tuple(name for name, _ in _texts.LIMIT)
POLICY_RULES = tuple(name for name, _ in _texts.POLICY)
ENTRY_RULES = tuple(name for name, _ in _texts.ENTRY)
PROOF_RULES = tuple(name for name, _ in _texts.PROOF)


def _text(table: Tuple[Tuple[str, str], ...], name: str) -> str:
    found: Dict[str, str] = dict(table)
    return found.get(name, "")


def answer_text(answer: int) -> str:
    """What an answer says by itself."""
    return ": ".join(_texts.ANSWER[answer]) if answer < len(_texts.ANSWER) else f"answer {answer}"


def check_text(check: int) -> str:
    """What it mostly means that this check fails."""
    return _texts.CHECK[check][1]


def _and(note: str) -> str:
    return f" ({note})" if note else ""


class Error(Exception):
    """Any of these."""


class TooLong(Error, ValueError):
    """A session has more than 64 bytes, or a text more than 4,194,304, or one of a policy more than 65,536."""


class NoCircuit(Error, ValueError):
    """The bytes are no circuit's file: `rule` is broken at byte `offset`."""

    def __init__(self, rule: str, offset: int) -> None:
        super().__init__(f"circuit at byte {offset}: {rule}: {_text(_texts.CIRCUIT, rule)}")
        self.rule, self.offset = rule, offset


class NoNumbers(Error, ValueError):
    """A text has not the circuit's numbers. `which` is "public" or "private"; `rule` is broken in `line`, from 1.

    `expected` is how many numbers the circuit has, where their number is what is wrong.
    """

    def __init__(self, which: str, rule: str, line: int, note: str = "", expected: int = -1) -> None:
        super().__init__(f"{which} numbers at line {line}: {rule}: {_text(_texts.NUMBER, rule)}{_and(note)}")
        self.which, self.rule, self.line, self.expected = which, rule, line, expected


class NoSource(Error, ValueError):
    """The text is no source: `rule` is broken in `line`, from 1."""

    def __init__(self, rule: str, line: int, note: str = "") -> None:
        super().__init__(f"source at line {line}: {rule}: {_text(_texts.SOURCE, rule)}{_and(note)}")
        self.rule, self.line = rule, line


class OverLimit(Error, ValueError):
    """The source's circuit would pass a limit: `limit` is "Layers", "LayerWires" or "Terms"."""

    def __init__(self, limit: str, count: int) -> None:
        super().__init__(f"{limit}: the source's circuit would need {count}, over the limit of {_text(_texts.LIMIT, limit)}")
        self.limit, self.count = limit, count


class NoMemory(Error, MemoryError):
    """There was no memory."""


class Unsatisfied(Error):
    """The numbers do not satisfy the circuit: check `check` is the first that is not 0, and `value` is its value."""

    def __init__(self, check: int, value: int) -> None:
        super().__init__(f"check {check} is {value}, and has to be 0: {_texts.ANSWER[8][1]}")
        self.check, self.value = check, value


class NoPolicy(Error, ValueError):
    """The text is no policy: `rule` is broken in `line`, from 1."""

    def __init__(self, rule: str, line: int, note: str = "") -> None:
        super().__init__(f"policy at line {line}: {rule}: {_text(_texts.POLICY, rule)}{_and(note)}")
        self.rule, self.line = rule, line


class PolicyLimit(Error, ValueError):
    """The policy's circuit would pass a limit."""


class _Sized(Error, ValueError):
    """Something has another size than the policy wants: `wanted`."""

    answer = 0

    def __init__(self, wanted: int, had: int = -1) -> None:
        text = ": ".join(_texts.ANSWER[self.answer])
        super().__init__(f"{text}: {wanted}{_and(f'there are {had}') if had >= 0 else ''}")
        self.wanted = wanted


class NoSecret(_Sized):
    """The secret has not 16 bytes, or there is one and the policy shows nothing of a sealed field."""

    answer = 16


class NoRecord(_Sized):
    """The record has not as many bytes as the policy says."""

    answer = 18


class NoNodes(_Sized):
    """The path has not as many nodes as the policy has levels."""

    answer = 20


class _Faulty(Error, ValueError):
    """A text breaks `rule` in `line`, from 1; or leaves something out, and `missing` is its line of `Policy.lines`."""

    which = ""
    # What is said where there is no line, if it is other than the rule's text.
    nothing = ""

    def __init__(self, rule: str, line: int, missing: str = "") -> None:
        at = f" at line {line}" if line else ""
        text = _text(_texts.ENTRY, rule) if line or not self.nothing else self.nothing
        super().__init__(f"{self.which}{at}: {rule}: {text}{_and(missing)}")
        self.rule, self.line, self.missing = rule, line, missing


class NoPath(_Faulty):
    """The text is no path: `rule` is broken in `line`, from 1; or `rule` is "Missing", `line` is 0, and it has no leaf."""

    which = "path"
    nothing = "it has no leaf"


class NoValues(_Faulty):
    """The values are not those that the policy wants."""

    which = "values"


class NoShown(_Faulty):
    """The text does not say what was shown."""

    which = "what was shown"


class NoLeaf(Error, ValueError):
    """The leaf's number is none of its row."""


class NotTrue(Error):
    """Something shown is not true of the record: at `place`, from 0, and `line` is its line of `Policy.lines`."""

    def __init__(self, place: int, line: str) -> None:
        super().__init__(f"not true: {line}")
        self.place, self.line = place, line


class Unsaid(Error, ValueError):
    """No text says what is shown."""


class Rejected(Error):
    """A proof is rejected. `verdict` says by which check."""

    def __init__(self, verdict: object) -> None:
        check = getattr(verdict, "check", 0)
        super().__init__(f"{verdict}{_and(check_text(check)) if check else ''}")
        self.verdict = verdict
