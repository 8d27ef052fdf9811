"""python3 -m unittest discover -s python/tests"""

import datetime
import hashlib
import os
import struct
import sys
import unittest

sys.path.insert(0, os.environ.get("LZK_PACKAGE") or os.path.join(os.path.dirname(os.path.abspath(__file__)), ".."))

import lzk  # noqa: E402

POLICY = """record 47                      # a record has 47 bytes
field birth   date at 4
field until   date at 8
field country text 2 at 12
field secret  bytes 16 at 15
show digest
show birth at most LATEST
show until at least TODAY
show country one of NL BE
show country as COUNTRY
show pseudonym of secret for SERVICE
"""
TAG = bytes(range(16))
SECRET = bytes(range(100, 116))
VALUES = {"LATEST": 20081129, "TODAY": datetime.date(2026, 11, 29), "SERVICE": TAG}
SEED = bytes(range(32))


def record(birth=19900101, until=20300101, country=b"NL"):
    """A record of the policy."""
    return b"abcd" + birth.to_bytes(4, "big") + until.to_bytes(4, "big") + country + b"\0" + bytes(range(50, 66)) + bytes(16)


def sealed_record(secret=SECRET):
    """A record of a birthday and a seal."""
    return (19900101).to_bytes(4, "big") + hashlib.sha256(b"LZS1" + secret).digest()


def node(left, right):
    """A node of a tree: one compression from the initial hash value of SHA-224, with no padding (docs/POLICY.md)."""
    start = (0xC1059ED8, 0x367CD507, 0x3070DD17, 0xF70E5939, 0xFFC00B31, 0x68581511, 0x64F98FA7, 0xBEFA4FA4)
    primes = [n for n in range(2, 400) if all(n % d for d in range(2, n))][:64]
    mask = 2**32 - 1

    def root(prime):
        low, high = 0, prime << 40
        while high - low > 1:
            middle = (low + high) // 2
            low, high = (middle, high) if middle**3 <= prime << 96 else (low, middle)
        return low & mask

    def turned(word, by):
        return (word >> by | word << (32 - by)) & mask

    words = list(struct.unpack(">16I", left + right))
    for t in range(16, 64):
        first = turned(words[t - 15], 7) ^ turned(words[t - 15], 18) ^ words[t - 15] >> 3
        second = turned(words[t - 2], 17) ^ turned(words[t - 2], 19) ^ words[t - 2] >> 10
        words.append((second + words[t - 7] + first + words[t - 16]) & mask)
    a, b, c, d, e, f, g, h = start
    for prime, word in zip(primes, words):
        first = h + (turned(e, 6) ^ turned(e, 11) ^ turned(e, 25)) + (e & f ^ ~e & g) + root(prime) + word
        second = (turned(a, 2) ^ turned(a, 13) ^ turned(a, 22)) + (a & b ^ a & c ^ b & c)
        a, b, c, d, e, f, g, h = (first + second) & mask, a, b, c, (d + first) & mask, e, f, g
    return struct.pack(">8I", *((old + new) & mask for old, new in zip(start, (a, b, c, d, e, f, g, h))))


class Policies(unittest.TestCase):
    @classmethod
    def setUpClass(cls):
        cls.policy = lzk.Policy(POLICY)

    def test_lines(self):
        wanted = (
            "the SHA-256 digest of the record",
            "birth is at most LATEST",
            "until is at least TODAY",
            "country is one of NL BE",
            "country is COUNTRY",
            "a pseudonym of secret for SERVICE",
        )
        self.assertEqual(self.policy.lines, wanted)
        self.assertEqual(lzk.Policy(POLICY.encode()).lines, wanted)

    def test_digest(self):
        self.assertEqual(self.policy.digest(record()), hashlib.sha256(record()).digest())
        with self.assertRaises(lzk.NoRecord) as found:
            self.policy.digest(record() + b"x")
        self.assertEqual(found.exception.wanted, 47)

    def test_inputs_satisfy_the_circuit(self):
        inputs = self.policy.inputs(record(), VALUES)
        lzk.evaluate(self.policy.circuit(), inputs.public, inputs.private)
        words = struct.unpack(">8I", hashlib.sha256(record()).digest())
        pseudonym = struct.unpack(">8I", hashlib.sha256(b"LZP1" + bytes(range(50, 66)) + TAG).digest())
        country = int.from_bytes(b"NL", "big")
        wanted = [*words, 20081129, 20261129, country, *struct.unpack(">4I", TAG), *pseudonym]
        self.assertEqual([int(word) for word in inputs.public.split()], wanted)

    def test_prove_and_verify(self):
        made = self.policy.prove(record(), VALUES, session=b"nonce", seed=SEED)
        verdict = self.policy.verify(made.shown, made.proof, b"nonce")
        self.assertTrue(verdict.accepted)
        self.assertEqual(made, self.policy.prove(record(), VALUES, session=b"nonce", seed=SEED, workers=4))
        told = self.policy.told(made.shown)
        self.assertEqual((told.head, told.is_root), (hashlib.sha256(record()).digest(), False))
        self.assertEqual(told.pseudonyms, (hashlib.sha256(b"LZP1" + bytes(range(50, 66)) + TAG).digest(),))
        words = {"LATEST": "20081129", "TODAY": "20261129", "COUNTRY": "NL", "SERVICE": TAG.hex()}
        self.assertEqual(told.values, words)
        self.assertEqual({name: lzk.word(value) for name, value in VALUES.items()}.items() - told.values.items(), set())
        self.assertTrue(self.policy.verify(session=b"nonce", proof=made.proof, shown=made.shown))
        # What was shown may be written otherwise.
        lines = made.shown.splitlines()
        other = "# a comment\n\n" + "\n".join([*lines[:2], *reversed(lines[2:])]) + "   # the last"
        self.assertTrue(self.policy.verify(other.encode(), made.proof, b"nonce"))
        for other, session in ((made.shown, b"other"), (made.shown.replace("20261129", "20261128"), b"nonce")):
            self.assertFalse(self.policy.explain(other, made.proof, session))
            with self.assertRaises(lzk.Rejected):
                self.policy.verify(other, made.proof, session)

    def test_not_true(self):
        for values, place, line in (
            ({"LATEST": 19800101}, 0, "birth is at most LATEST"),
            ({"TODAY": 20400101}, 1, "until is at least TODAY"),
            ({"COUNTRY": "BE"}, 3, "country is COUNTRY"),
        ):
            with self.assertRaises(lzk.NotTrue) as found:
                self.policy.prove(record(), {**VALUES, **values}, session=b"")
            self.assertEqual((found.exception.place, found.exception.line, str(found.exception)), (place, line, f"not true: {line}"))
        with self.assertRaises(lzk.NotTrue) as found:
            self.policy.inputs(record(country=b"DE"), VALUES)
        self.assertEqual(found.exception.place, 2)

    def test_no_policy(self):
        for text, rule, line in (
            ("", "Missing", 2),
            (POLICY + "show x", "Syntax", 12),
            (POLICY.replace("at 15", "at 40"), "Place", 5),
            (POLICY.replace("show birth", "show berth"), "Unknown", 7),
            (POLICY + "record 3", "Order", 12),
        ):
            with self.assertRaises(lzk.NoPolicy) as found:
                lzk.Policy(text)
            self.assertEqual((found.exception.rule, found.exception.line), (rule, line))
        with self.assertRaises(lzk.TooLong):
            lzk.Policy("#" * 65_537)
        # A root of six levels and two pseudonyms are nine hashes, and circuits of LZK1 have room for eight.
        many = "record 16\nfield a bytes 16 at 0\nshow under root 6\n" + "show pseudonym of a for S\n" * 2
        if lzk.circuit_info(self.policy.circuit()).field == lzk.Field.GOLDILOCKS:
            with self.assertRaises(lzk.PolicyLimit):
                lzk.Policy(many)
        else:
            self.assertEqual(len(lzk.Policy(many).lines), 3)

    def test_no_values(self):
        for values, rule, line, missing in (
            ({"TODAY": 20261129, "SERVICE": TAG}, "Missing", 0, "birth is at most LATEST"),
            ({**VALUES, "OTHER": 1}, "Unknown", 4, ""),
            ("LATEST 1\nTODAY 2\nSERVICE 3\n", "Value", 3, ""),
            ("LATEST 1 2\n", "Syntax", 1, ""),
            ("LATEST 20081129\nLATEST 20081129\nTODAY 20261129\n", "Repeated", 1, ""),
        ):
            with self.assertRaises(lzk.NoValues) as found:
                self.policy.inputs(record(), values)
            self.assertEqual((found.exception.rule, found.exception.line, found.exception.missing), (rule, line, missing))
        for values, error in (
            ({"TODAY": 1.5}, TypeError),
            ({"TODAY": True}, TypeError),
            ({1: 2}, TypeError),
            ({"COUNTRY": "N L"}, ValueError),
            ({"SERVICE": b"short"}, ValueError),
            ({"SERVICE": bytearray(b"short")}, ValueError),
        ):
            with self.assertRaises(error):
                self.policy.inputs(record(), {**VALUES, **values})
        # A name that would be read as another, or as more than one line.
        for name in ("", "A 1\nLATEST", "A B", "A\tB", "A\rB", "A\nB", "A#", "#", "A" * 33, "\u00e9" * 17, "\ud800"):
            with self.assertRaises(ValueError) as found:
                self.policy.inputs(record(), {"TODAY": 20261129, "SERVICE": TAG, name: 20081129})
            self.assertNotIsInstance(found.exception, lzk.Error)
        for name in ("A\x0bB", "A\x0c", "A\0", "\u00e9", "A" * 32):
            policy = lzk.Policy(POLICY.replace("LATEST", name))
            made = policy.inputs(record(), {name: 20081129, "TODAY": 20261129, "SERVICE": TAG})
            self.assertEqual(made, self.policy.inputs(record(), VALUES))

    def test_no_shown(self):
        made = self.policy.prove(record(), VALUES, session=b"")
        lines = made.shown.splitlines()
        for text, rule, line, missing in (
            ("", "Missing", 0, "the SHA-256 digest of the record"),
            ("\n".join(lines[:1]), "Missing", 0, "birth is at most LATEST"),
            (made.shown.replace("digest", "root"), "Syntax", 1, ""),
            (made.shown.replace("TODAY", "TOMORROW"), "Unknown", 4, ""),
            (made.shown.replace("20261129", "soon"), "Value", 4, ""),
            ("\n".join(line for line in lines if not line.startswith("COUNTRY")), "Missing", 0, "country is COUNTRY"),
        ):
            with self.assertRaises(lzk.NoShown) as found:
                self.policy.verify(text, made.proof, b"")
            self.assertEqual((found.exception.rule, found.exception.line, found.exception.missing), (rule, line, missing))

    def test_what_no_text_says(self):
        policy = lzk.Policy("record 20\nfield name text 2 at 0\nshow digest\nshow name as NAME\n")
        with self.assertRaises(lzk.Unsaid):
            policy.prove(b"N " + bytes(18), {}, session=b"")
        self.assertEqual(policy.told(policy.prove(b"N!" + bytes(18), {}, session=b"").shown).values, {"NAME": "N!"})

    def test_words(self):
        """Space, tab and carriage return are blanks, and no other byte is."""
        policy = lzk.Policy("record 23\nfield name text 7 at 0\nshow digest\nshow name as NAME\n")
        for name in (b"bob\x0c\x0c\x0c\x0c", b"a\x0bb\x0bc\x0bd", b"\x0b\x0c\x0b\x0c\x0b\x0c\x0b", b"bob\0\0\0\0", b"bob\x1c\x1d\x1e\x1f", b"bob\xff\xfe\x85\xa0", b"n\xc3\xa9e\xe2\x80\xa8"):
            made = policy.prove(name + bytes(16), {}, session=b"", seed=SEED)
            said = policy.told(made.shown).values["NAME"]
            self.assertEqual(said.encode("utf-8", "surrogateescape"), name)
            self.assertEqual(policy.told(made.shown.encode("utf-8", "surrogateescape")), policy.told(made.shown))
            self.assertTrue(policy.verify(made.shown, made.proof, b""))
            # What is read may be given.
            self.assertEqual(policy.inputs(name + bytes(16), {"NAME": said}), policy.inputs(name + bytes(16), {}))
        for name in (b"bob \0\0\0", b"bob\t\0\0\0", b"bob\r\0\0\0", b"bob\n\0\0\0", b"bob#\0\0\0"):
            with self.assertRaises(lzk.Unsaid):
                policy.prove(name + bytes(16), {}, session=b"")
        made = policy.prove(b"bobbobb" + bytes(16), {}, session=b"")
        for other in (made.shown.replace(" ", "\t\r ").replace("\n", "\r\n"), made.shown.replace("\n", "\r# x\n\r\t \n")):
            self.assertEqual(policy.told(other), policy.told(made.shown))
        for blank in ("\x0b", "\x0c", "\0", "\x85", "\xa0"):
            with self.assertRaises(lzk.NoShown) as found:
                policy.told(made.shown.replace(" ", blank))
            self.assertEqual((found.exception.rule, found.exception.line), ("Syntax", 1))

    def test_sealed(self):
        policy = lzk.Policy("record 36\nfield birth date at 0\nfield owner sealed at 4\nshow digest\nshow birth at most LATEST\nshow pseudonym of owner for SERVICE\n")
        values = {"LATEST": 20081129, "SERVICE": TAG}
        made = policy.prove(sealed_record(), values, secret=SECRET, session=b"nonce")
        self.assertTrue(policy.verify(made.shown, made.proof, b"nonce"))
        told = policy.told(made.shown)
        self.assertEqual(told.pseudonyms, (hashlib.sha256(b"LZP1" + SECRET + TAG).digest(),))
        with self.assertRaises(lzk.NotTrue) as found:
            policy.prove(sealed_record(), values, secret=bytes(16), session=b"nonce")
        self.assertEqual(found.exception.place, 1)
        for secret in (None, b"", SECRET[1:]):
            with self.assertRaises(lzk.NoSecret) as found:
                policy.prove(sealed_record(), values, secret=secret, session=b"nonce")
            self.assertEqual(found.exception.wanted, 16)
        with self.assertRaises(lzk.NoSecret) as found:
            self.policy.prove(record(), VALUES, secret=SECRET, session=b"nonce")
        self.assertEqual(found.exception.wanted, 0)

    def test_under_a_root(self):
        policy = lzk.Policy("record 47\nfield birth date at 4\nshow under root 2\nshow birth at most LATEST\n")
        leaves = [policy.digest(record(birth=19900101 + day)) for day in range(4)]
        left, right = node(*leaves[:2]), node(*leaves[2:])
        values = {"LATEST": 20081129}
        path = (2, [leaves[3], left])
        made = policy.prove(record(birth=19900103), values, path=path, session=b"nonce")
        self.assertTrue(policy.verify(made.shown, made.proof, b"nonce"))
        told = policy.told(made.shown)
        self.assertEqual((told.head, told.is_root, told.pseudonyms), (node(left, right), True, ()))
        text = f"2\n{leaves[3].hex()}\n{left.hex()}\n"
        self.assertEqual(policy.inputs(record(birth=19900103), values, path=text), policy.inputs(record(birth=19900103), values, path=path))
        for other, error in (
            (None, lzk.NoNodes),
            ((2, [left]), lzk.NoNodes),
            ((4, [leaves[3], left]), lzk.NoLeaf),
            (("x\n"), lzk.NoPath),
            ("# nothing\n", lzk.NoPath),
            ((2, [left, b"x"]), ValueError),
        ):
            with self.assertRaises(error):
                policy.prove(record(birth=19900103), values, path=other, session=b"nonce")
        with self.assertRaises(lzk.NoPath) as found:
            policy.inputs(record(birth=19900103), values, path="# nothing\n")
        self.assertEqual((found.exception.rule, found.exception.line, str(found.exception)), ("Missing", 0, "path: Missing: it has no leaf"))
        # A path without nodes is taken where a digest is shown.
        for other in ((0, []), "0\n"):
            self.assertEqual(self.policy.inputs(record(), VALUES, path=other), self.policy.inputs(record(), VALUES))


if __name__ == "__main__":
    unittest.main()
