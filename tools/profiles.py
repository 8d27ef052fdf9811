"""The numbers and words in which the profiles differ (docs/FORMATS.md), for the tools of this folder.

The wrappers of the strong profile's programs set ZK_PROFILE=strong. A circuit's or a proof's file says by its first bytes of which profile it is.
"""

import os
from dataclasses import dataclass


@dataclass(frozen=True)
class Profile:
    """The letter in files' first bytes; the prime field's word in a source, size, bytes of an element and byte in a circuit; columns, rows and limits.

    The limits are the bits that number a layer's wires, private inputs, levels under a root, hashes of a policy and bytes of a circuit's file.
    """


    letter: bytes
    word: str
    field: str
    size: int
    bytes: int
    byte: int
    opened: int
    row_factor: int
    most_bits: int
    most_privates: int
    most_levels: int
    most_hashes: int
    most_circuit: int

    def circuit_magics(self):
        """The first bytes of a circuit's file, and its version."""
        return {b"L" + self.letter + b"C1": 1, b"L" + self.letter + b"C2": 2}

    def proof_magic(self):
        return b"L" + self.letter + b"P1"

    def fields(self):
        """For the byte of a field in a circuit's file its word in a source, its size and the bytes of an element."""
        return {self.byte: (self.word, self.size, self.bytes), 2: ("gf2_128", 2**128, 16)}

    def block(self, committed):
        """How many values give a row's polynomial where so many numbers are committed to."""
        row = 64
        while row * row < self.row_factor * committed:
            row *= 2
        return self.opened + row


LZK1 = Profile(b"Z", "goldilocks", "Goldilocks", 2**64 - 2**32 + 1, 8, 1, 128, 1, 17, 65_536, 6, 8, 1 << 26)
STRONG = Profile(b"S", "prime128", "the numbers below 2^128 - 2^54 + 1", 2**128 - 2**54 + 1, 16, 3, 264, 16, 19, 262_144, 20, 32, 1 << 28)
PROFILES = (LZK1, STRONG)
PROFILE = STRONG if os.environ.get("ZK_PROFILE") == "strong" else LZK1


def profile_of(head):
    """The profile of a circuit's or a proof's file, or None where it is neither."""
    for profile in PROFILES:
        if head[:4] in profile.circuit_magics() or head[:4] == profile.proof_magic():
            return profile
    return None
