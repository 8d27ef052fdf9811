"""The library, its structs and its calls, as include/lzk.h has them."""

from __future__ import annotations

import ctypes
import ctypes.util
import enum
import os
from dataclasses import dataclass
from typing import Optional

U32, U64, SIZE, TEXT = ctypes.c_uint32, ctypes.c_uint64, ctypes.c_size_t, ctypes.c_char_p
MOST_PROOF = 2_097_152
VERSION = 2


class Report(ctypes.Structure):
    _fields_ = [
        ("answer", U32), ("check", U32), ("kind", U32), ("line", U32), ("offset", U64), ("column", U32), ("found_count", U32), ("needed_count", U32),
        ("found_digest", ctypes.c_uint8 * 32), ("found_sum", ctypes.c_uint8 * 16), ("wanted_sum", ctypes.c_uint8 * 16),
    ]  # fmt: skip


class Outcome(ctypes.Structure):
    _fields_ = [
        ("answer", U32), ("kind", U32), ("line", U32), ("check", U32), ("offset", U64), ("count", U64), ("value", ctypes.c_uint8 * 16),
    ]  # fmt: skip


class RawInfo(ctypes.Structure):
    _fields_ = [
        ("answer", U32), ("kind", U32), ("offset", U64), ("field", U32), ("version", U32), ("publics", U32), ("privates", U32), ("layers", U32),
        ("checks", U32), ("id", ctypes.c_uint8 * 32),
    ]  # fmt: skip


class Bytes(ctypes.Structure):
    _fields_ = [("start", TEXT), ("len", SIZE)]


class Job(ctypes.Structure):
    _fields_ = [("public_numbers", Bytes), ("session", Bytes), ("proof", Bytes), ("report", Report)]


class PolicyGiven(ctypes.Structure):
    _fields_ = [(name, Bytes) for name in ("policy", "record", "values", "secret", "path")]


class Field(enum.IntEnum):
    """The field of a circuit."""

    GOLDILOCKS = 1
    GF2_128 = 2
    PRIME128 = 3  # of the strong profile, whose library is named by LZK_LIBRARY


@dataclass(frozen=True)
class Info:
    """What a circuit's file holds."""

    field: Field
    version: int
    publics: int
    privates: int
    layers: int
    checks: int
    id: bytes

    def __str__(self) -> str:
        """One line with all of it."""
        counts = f"public {self.publics}, private {self.privates}, layers {self.layers}, checks {self.checks}"
        return f"field {self.field.name.lower()}, version {self.version}, {counts}, id {self.id.hex()}"


@dataclass(frozen=True)
class Verdict:
    """What was found of a proof. `check` is the first that fails, from 1 to 8, and 0 where the proof is accepted."""

    check: int
    rule: str = ""
    offset: int = 0
    column: int = 0
    found_count: int = 0
    needed_count: int = 0
    found_digest: bytes = b""
    found_sum: int = 0
    wanted_sum: int = 0

    @property
    def accepted(self) -> bool:
        """Whether all checks hold."""
        return self.check == 0

    def __bool__(self) -> bool:
        return self.accepted

    def __str__(self) -> str:
        """The line that `zk verify` prints."""
        if self.accepted:
            return "accepted"
        return "rejected: " + {
            1: f"format at byte {self.offset}: {self.rule}",
            2: f"circuit id {self.found_digest.hex()}",
            3: f"path count {self.found_count}, needed {self.needed_count}",
            4: f"root {self.found_digest.hex()}",
            5: f"low degree at column {self.column}",
            6: f"linear sum {self.found_sum}, wanted {self.wanted_sum}",
            7: f"linear at column {self.column}",
            8: f"quadratic at column {self.column}",
        }[self.check]


def _found() -> Optional[str]:
    """The library: LZK_LIBRARY, the one in this package, the one of a checkout's build, or the one that is installed."""
    named = os.environ.get("LZK_LIBRARY")
    if named is not None:
        if not os.path.isfile(named):
            raise ImportError(f"LZK_LIBRARY names {named!r}, and there is no such file: name liblzk.so by its path, or unset it")
        return named
    here = os.path.dirname(os.path.abspath(__file__))
    for path in (os.path.join(here, "liblzk.so"), os.path.join(here, "..", "..", ".build", "liblzk.so")):
        if os.path.exists(path):
            return path
    return ctypes.util.find_library("lzk")


def _load() -> ctypes.CDLL:
    path = _found()
    if path is None:
        raise ImportError("liblzk.so is missing: make it by ./build library, install it, or name it by LZK_LIBRARY")
    try:
        calls = ctypes.CDLL(path)
        found = int(calls.lzk_version())
    except (AttributeError, OSError) as error:
        raise ImportError(f"{path} is no library of lzk: {error}") from None
    if found != VERSION:
        raise ImportError(f"{path} is of version {found >> 16}.{found & 65535}, and this package needs {VERSION >> 16}.{VERSION & 65535}")
    parts = {"b": (TEXT, SIZE), "s": (TEXT,), "r": (ctypes.c_char_p, SIZE), "p": (ctypes.c_void_p,), "u": (U32,), "n": (SIZE,)}
    shapes = {
        "lzk_explain": "bbbbp", "lzk_explain_pieces": "bbbpnp", "lzk_explain_each": "bpn", "lzk_compile": "ubrp", "lzk_circuit_info": "bp",
        "lzk_sha_circuit": "urp", "lzk_upgrade": "brp",
        "lzk_policy_show": "brp", "lzk_policy_circuit": "brp", "lzk_policy_digest": "bbrp", "lzk_policy_public": "bbrp", "lzk_policy_inputs": "prp",
        "lzk_policy_shown": "prp",
        "lzk_eval": "bbbp", "lzk_prove": "bbbbsrp", "lzk_desk_open": "pbbb", "lzk_desk_feed": "pb", "lzk_desk_end": "pp", "lzk_desk_free": "p",
    }  # fmt: skip
    for name, shape in shapes.items():
        call = getattr(calls, name)
        call.argtypes = [part for letter in shape for part in parts[letter]]
        call.restype = None if name in ("lzk_explain_each", "lzk_desk_free") else U32
    return calls


CALLS = _load()


def library_version() -> int:
    """65,536 times the library's major version, and its minor version."""
    return int(CALLS.lzk_version())
