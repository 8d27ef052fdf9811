"""What issuer, wallet and service share: what a policy asks for, digests and signatures, files.

`lzk.Policy` reads policies, refuses what is none, proves and verifies. What is read of a policy's lines here
(docs/POLICY.md) is what people are shown and what the parties compare.
"""

from __future__ import annotations

import contextlib
import fcntl
import functools
import hashlib
import json
import os
import re
import subprocess
import sys
import tempfile
from typing import Any, Callable, Dict, Iterator, List, NamedTuple, Optional, Tuple

# The package of this checkout, where none is installed.
sys.path.append(os.path.join(os.path.dirname(os.path.realpath(__file__)), "..", "..", "python"))
import lzk  # noqa: E402

SIGNED_RECORD, SIGNED_ROOT = b"LZK1 record ", b"LZK1 root "
DIGEST, NONCE, WORD = "[0-9a-f]{64}", "[0-9a-f]{32}", r"[^ \t\r\n#]+"


class Refused(Exception):
    """Why something is not done, in words."""


# What JSON that has not its form may raise, when it is read as if it had.
MALFORMED = (AttributeError, IndexError, KeyError, OverflowError, RecursionError, TypeError, ValueError)


def ended(work: Callable[..., None], words: List[str], refusal: str) -> int:
    """Runs a command and answers its status. What is refused is one line; a file never makes a traceback."""
    try:
        work(*words)
        return 0
    except (Refused, lzk.Error) as refused:
        print(refusal + escaped(str(refused)))
    except OSError as error:
        print(refusal + escaped(f"{error.filename or 'the connection'}: {error.strerror or error}"))
    except MALFORMED:
        print(f"{refusal}a file has not its form")
    return 1


# ---- policies


class Field(NamedTuple):
    kind: str  # date, text, bytes or sealed
    place: int
    size: int


class Show(NamedTuple):
    """A line that shows something of a field: the way is most, least, as, one or pseudonym."""

    field: str
    way: str
    value: str  # the value's name; after `one of` there is none
    texts: Tuple[str, ...] = ()


class Policy:
    """A policy's text, as people and parties read it. Raises lzk.NoPolicy where the text is none."""

    def __init__(self, text: str) -> None:
        self.text, self.proofs = text, proofs_of(text)
        # Spaces, tabs and carriage returns separate words, and no other blanks: what is compared is what is proved.
        lines = [re.findall(r"[^ \t\r]+", line.split("#")[0]) for line in text.split("\n")]
        lines = [words for words in lines if words]
        self.size = int(lines[0][1])
        self.fields = {words[1]: field_of(words) for words in lines if words[0] == "field"}
        heads = (["show", "digest"], ["show", "under"])
        head = next(words for words in lines if words[:2] in heads)
        self.depth = int(head[3]) if len(head) == 4 else 0
        self.shows = [show_of(words) for words in lines if words[0] == "show" and words is not head]
        # What a record is, and whether its digest is shown or a root. What is shown of it may differ from show to show.
        self.layout = [words for words in lines if words[0] != "show"] + [head]

    def tags(self) -> List[str]:
        """The names that stand for a service's tag."""
        return [show.value for show in self.shows if show.way == "pseudonym"]

    def told(self, values: Dict[str, str]) -> List[Show]:
        """What the holder tells as it is: what is shown by `as`, where the service chose no value."""
        return [show for show in self.shows if show.way == "as" and show.value not in values]

    def needs_secret(self) -> bool:
        return any(show.way == "pseudonym" and self.fields[show.field].kind == "sealed" for show in self.shows)

    def sentences(self, values: Dict[str, str], told: Optional[Dict[str, str]] = None) -> List[str]:
        """What a verifier learns, for people, by the service's values, and those that the holder tells where known."""
        under = f"a record under a root that the issuer signed: one of at most {2**self.depth:,}, and not which"
        head = under if self.depth else "the digest of a record, by which the issuer knows whose it is"
        return [head, *(self.sentence(show, values, told or {}) for show in self.shows)]

    def sentence(self, show: Show, values: Dict[str, str], told: Dict[str, str]) -> str:
        if show.way == "pseudonym":
            return f"a pseudonym of {show.field}: the same at each visit here, another one elsewhere"
        if show.way == "one":
            return f"{show.field} is {' or '.join(readable('text', text) for text in show.texts)}"
        kind = self.fields[show.field].kind
        if show.value not in values:
            return f"{show.field} itself" + (f": {readable(kind, told[show.value])}" if show.value in told else "")
        value = readable(kind, values[show.value])
        return f"{show.field} is " + {"most": f"{value} or before", "least": f"{value} or later", "as": value}[show.way]

    def not_told(self) -> List[str]:
        """What no line tells, for people."""
        told = {show.field for show in self.shows if show.way == "as"}
        own = {"bytes": "the secret {}", "sealed": "the secret that {} seals"}
        kinds = {name: own.get(field.kind, "{} itself") for name, field in self.fields.items() if name not in told}
        return (["which record it is"] if self.depth else []) + [kind.format(name) for name, kind in kinds.items()]


@functools.lru_cache(maxsize=8)
def proofs_of(text: str) -> lzk.Policy:
    """The library's policy. It keeps its circuit once it has made it, which takes longer than a proof."""
    return lzk.Policy(text)


def field_of(words: List[str]) -> Field:
    return Field(words[2], int(words[-1]), {"date": 4, "sealed": 32}.get(words[2]) or int(words[3]))


def show_of(words: List[str]) -> Show:
    if words[1] == "pseudonym":
        return Show(words[3], "pseudonym", words[5])
    if words[2] == "one":
        return Show(words[1], "one", "", tuple(words[4:]))
    return Show(words[1], "as" if words[2] == "as" else words[3], words[-1])


def readable(kind: str, word: str) -> str:
    """A value for people: a date as 2026-11-29, a text with what is no sign of ASCII by its number. Bytes that are no
    UTF-8 are surrogates, as lzk has them."""
    if kind == "date" and re.fullmatch("0*[0-9]{8}", word):
        return re.sub("(....)(..)(..)$", r"\1-\2-\3", word.lstrip("0").rjust(8, "0"))
    return by_number(word.encode("utf-8", "surrogateescape"), 33)


def escaped(text: str) -> str:
    """A line that others may have written, blanks and all: it moves no cursor, and turns no letters around."""
    return by_number(text.encode("utf-8", "backslashreplace"), 32)


def by_number(data: bytes, first: int) -> str:
    """Bytes as signs of ASCII, from the first one that may stand as it is."""
    return "".join(chr(byte) if first <= byte <= 126 else f"\\x{byte:02x}" for byte in data)


# ---- digests and signatures


def digest(message: bytes) -> bytes:
    return hashlib.sha256(message).digest()


def seal_of(secret: bytes) -> bytes:
    """What an issuer gets of a wallet's secret."""
    return digest(b"LZS1" + secret)


def tag_of(service: str) -> bytes:
    """Sixteen bytes for a service, of which pseudonyms are made."""
    return digest(b"service " + service.encode())[:16]


def session_of(service: str, nonce: str) -> bytes:
    """What a proof is bound to: whom it is for, and the nonce that this service chose."""
    return digest(b"proof for " + service.encode()) + bytes.fromhex(nonce)


def signed_root(depth: int, root: bytes) -> bytes:
    """What an issuer signs for a root: the number of levels too."""
    return SIGNED_ROOT + bytes([depth]) + root


def openssl(*words: str, message: Optional[bytes] = None) -> Optional[bytes]:
    """What openssl prints, or None where it ends with another status than 0. It reads the message from a file."""
    with tempfile.NamedTemporaryFile() as file:
        file.write(message or b"")
        file.flush()
        call = ["openssl", *words, *([] if message is None else ["-in", file.name])]
        try:
            ran = subprocess.run(call, stdout=subprocess.PIPE, stderr=subprocess.DEVNULL, check=False)
        except FileNotFoundError:
            raise Refused("openssl is not on the path") from None
    return ran.stdout if ran.returncode == 0 else None


def is_signed(public_key: str, message: bytes, signature: bytes) -> bool:
    with tempfile.NamedTemporaryFile() as file:
        file.write(signature)
        file.flush()
        words = ("pkeyutl", "-verify", "-rawin", "-pubin", "-inkey", public_key, "-sigfile", file.name)
        return openssl(*words, message=message) is not None


# ---- files


def read_text(path: str) -> str:
    with open(path, encoding="utf-8") as file:
        return file.read()


def read_json(path: str) -> Any:
    return json.loads(read_text(path))


def write(path: str, data: bytes) -> None:
    """A file that this user alone may read, in the place of an old one at once: a run that is cut off leaves either."""
    with open(os.open(path + ".new", os.O_WRONLY | os.O_CREAT | os.O_TRUNC, 0o600), "wb") as file:
        file.write(data)
        file.flush()
        os.fsync(file.fileno())
    os.replace(path + ".new", path)


def write_json(path: str, value: Any) -> None:
    write(path, json.dumps(value, indent=1).encode() + b"\n")


def add(path: str, words: List[str]) -> None:
    """Lines at the end of a file that this user alone may read."""
    with open(os.open(path, os.O_WRONLY | os.O_CREAT | os.O_APPEND, 0o600), "a", encoding="utf-8") as file:
        file.write("".join(f"{word}\n" for word in words))
        file.flush()
        os.fsync(file.fileno())


def words_in(path: str) -> List[str]:
    """What was added to a file, if it is there."""
    return read_text(path).split() if os.path.exists(path) else []


@contextlib.contextmanager
def alone(folder: str) -> Iterator[None]:
    """Runs over one folder follow one another, so that each knows what the one before has seen or shown."""
    with open(os.open(os.path.join(folder, "lock"), os.O_WRONLY | os.O_CREAT, 0o600), "wb") as file:
        fcntl.flock(file, fcntl.LOCK_EX)
        yield


def new_folder(path: str) -> None:
    if os.path.lexists(path):
        raise Refused(f"{path} is there already, and nothing is written over: name another folder")
    os.makedirs(path, mode=0o700)
