"""Trees of SHA-256 nodes, as docs/POLICY.md has them under a root.

A node is one compression of its two children, the left one first, from the initial hash value of SHA-224, and there is
no padding. Digests of records begin from that of SHA-256, so that no record is taken for two nodes. Plain Python, since
hashlib has no compression alone.
"""

from __future__ import annotations

import math
import secrets
from typing import Dict, List


def primes(count: int) -> List[int]:
    """The first prime numbers."""
    found: List[int] = []
    candidate = 2
    while len(found) < count:
        if all(candidate % prime for prime in found):
            found.append(candidate)
        candidate += 1
    return found


def cube_root(number: int) -> int:
    """The largest whole number whose cube is at most this one."""
    low, high = 0, 1 << 64
    while low + 1 < high:
        middle = (low + high) // 2
        low, high = (middle, high) if middle**3 <= number else (low, middle)
    return low


WORD = 0xFFFFFFFF
# Of the 9th to 16th prime the second 32 bits after the point of square roots, which is the initial hash value of
# SHA-224; of 64 primes the first 32 bits after that of cube roots (FIPS 180-4, 5.3.2 and 4.2.2).
INITIAL = [math.isqrt(prime << 128) & WORD for prime in primes(16)[8:]]
ROUND = [cube_root(prime << 96) & WORD for prime in primes(64)]


def turned(word: int, by: int) -> int:
    return (word >> by | word << (32 - by)) & WORD


def compressed(block: bytes) -> bytes:
    """The state after one block of 64 bytes, as 32 bytes."""
    words = [int.from_bytes(block[at : at + 4], "big") for at in range(0, 64, 4)]
    for _ in range(48):
        second, last = words[-15], words[-2]
        low = turned(second, 7) ^ turned(second, 18) ^ second >> 3
        high = turned(last, 17) ^ turned(last, 19) ^ last >> 10
        words.append((words[-16] + low + words[-7] + high) & WORD)
    a, b, c, d, e, f, g, h = INITIAL
    for number, word in zip(ROUND, words):
        first = h + (turned(e, 6) ^ turned(e, 11) ^ turned(e, 25)) + (e & f ^ ~e & g) + number + word
        other = (turned(a, 2) ^ turned(a, 13) ^ turned(a, 22)) + (a & b ^ a & c ^ b & c)
        a, b, c, d, e, f, g, h = (first + other) & WORD, a, b, c, (d + first) & WORD, e, f, g
    state = [(left + right) & WORD for left, right in zip(INITIAL, (a, b, c, d, e, f, g, h))]
    return b"".join(word.to_bytes(4, "big") for word in state)


def rows_of(leaves: Dict[int, bytes], depth: int) -> List[Dict[int, bytes]]:
    """The rows of a tree with these leaves at their places, the leaves first and the root alone last. What stands
    beside them and over none of them is random, as a node over records looks. So a million leaves take no time."""
    rows = [dict(leaves)]
    for _ in range(depth):
        row = rows[-1]
        for beside in [place ^ 1 for place in row]:
            row.setdefault(beside, secrets.token_bytes(32))
        rows.append({place // 2: compressed(row[place] + row[place + 1]) for place in row if place % 2 == 0})
    return rows


def root_over(node: bytes, leaf: int, path: List[bytes]) -> bytes:
    """The root to which the nodes beside a path lead from a leaf."""
    for level, beside in enumerate(path):
        node = compressed(beside + node if leaf >> level & 1 else node + beside)
    return node


def path_of(rows: List[Dict[int, bytes]], leaf: int) -> List[bytes]:
    """The nodes beside the path from a leaf to the root, the lowest first."""
    return [row[(leaf >> level) ^ 1] for level, row in enumerate(rows[:-1])]
