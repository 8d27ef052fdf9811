"""Two statements that come with the library: the parity of bits, and the digest of a message of one block."""

from __future__ import annotations

import hashlib
import struct
from typing import List, Tuple

MOST_BITS, MOST_MESSAGE = 16_384, 55
WORD = 1 << 32


def parity_source(count: int) -> bytes:
    """The source of the statement that a public bit is the exclusive or of so many private ones."""
    lines = ["field goldilocks", "public y", *(f"private x{i}" for i in range(1, count + 1))]
    entries, made = [f"x{i}" for i in range(1, count + 1)], 0
    while len(entries) > 1:
        joined = []
        for a, b in zip(entries[::2], entries[1::2]):
            made += 1
            lines.append(f"let t{made} = {a} + {b} - 2 * {a} * {b}")
            joined.append(f"t{made}")
        entries = joined + entries[len(entries) & ~1 :]
    return "\n".join([*lines, f"assert {entries[0]} = y", ""]).encode()


def parity_inputs(count: int) -> Tuple[List[int], List[int]]:
    """Public and private numbers of that statement: every other bit is 1, the first among them."""
    private = [i % 2 for i in range(1, count + 1)]
    return [sum(private) % 2], private


def _bits(number: int, count: int) -> List[int]:
    return [number >> place & 1 for place in reversed(range(count))]


def _turned(word: int, by: int) -> int:
    return (word >> by | word << (32 - by)) % WORD


def _root_digits(power: int, count: int) -> List[int]:
    """The first 32 bits after the point of the roots of the first primes (FIPS 180-4, 4.2.2 and 5.3.3)."""
    primes = [n for n in range(2, 400) if all(n % d for d in range(2, n))][:count]
    found = []
    for prime in primes:
        low, high = 0, prime << 64
        while high - low > 1:
            middle = (low + high) // 2
            low, high = (middle, high) if middle**power <= prime << (32 * power) else (low, middle)
        found.append(low % WORD)
    return found


def sha_inputs(message: bytes) -> Tuple[List[int], List[int]]:
    """Public and private numbers of the circuit for messages of this length (docs/FORMATS.md, section 14): the digest's words; and the bits
    of the message, then of each word that a sum gives and of its carry, the most significant first."""
    private = [bit for byte in message for bit in _bits(byte, 8)]

    def word_of(total: int, carry: int) -> int:
        private.extend(_bits(total % WORD, 32) + _bits(total // WORD, carry))
        return total % WORD

    start, constants = _root_digits(2, 8), _root_digits(3, 64)
    words = list(struct.unpack(">16I", (message + b"\x80").ljust(56, b"\0") + struct.pack(">Q", 8 * len(message))))
    for t in range(16, 64):
        s0 = _turned(words[t - 15], 7) ^ _turned(words[t - 15], 18) ^ words[t - 15] >> 3
        s1 = _turned(words[t - 2], 17) ^ _turned(words[t - 2], 19) ^ words[t - 2] >> 10
        words.append(word_of(s1 + words[t - 7] + s0 + words[t - 16], 2))
    a, b, c, d, e, f, g, h = start
    for constant, word in zip(constants, words):
        first = h + (_turned(e, 6) ^ _turned(e, 11) ^ _turned(e, 25)) + (e & f ^ ~e & g) + constant + word
        second = (_turned(a, 2) ^ _turned(a, 13) ^ _turned(a, 22)) + (a & b ^ a & c ^ b & c)
        next_a = word_of(first + second, 3)
        a, b, c, d, e, f, g, h = next_a, a, b, c, word_of(d + first, 3), e, f, g
    public = [word_of(before + behind, 1) for before, behind in zip(start, (a, b, c, d, e, f, g, h))]
    if struct.pack(">8I", *public) != hashlib.sha256(message).digest():
        raise AssertionError("these are not the words of the digest")
    return public, private
