"""python3 -m unittest discover -s python/tests"""

import array
import os
import stat
import subprocess
import sys
import tempfile
import threading
import tty
import unittest

sys.path.insert(0, os.environ.get("LZK_PACKAGE") or os.path.join(os.path.dirname(os.path.abspath(__file__)), ".."))

import lzk  # noqa: E402

SQUARE = "field goldilocks\npublic y\nprivate x\nassert x*x = y\n"
PRIME = 2**64 - 2**32 + 1
SEED = bytes(range(32))


class Statements(unittest.TestCase):
    def test_compile(self):
        circuit = lzk.compile(SQUARE)
        info = lzk.circuit_info(circuit)
        self.assertEqual((info.field, info.version, info.publics, info.privates, info.layers, info.checks), (lzk.Field.GOLDILOCKS, 1, 1, 1, 1, 1))
        import hashlib

        self.assertEqual(info.id, hashlib.sha256(circuit).digest())
        counts = "field goldilocks, version 1, public 1, private 1, layers 1, checks 1"
        self.assertEqual(str(info), f"{counts}, id {info.id.hex()}")
        self.assertEqual(lzk.circuit_info(lzk.compile(SQUARE, version=2)).version, 2)
        self.assertEqual(lzk.circuit_info(lzk.compile("field gf2_128\npublic y\nprivate x\nassert x*x = y\n")).field, lzk.Field.GF2_128)

    def test_no_source(self):
        with self.assertRaises(lzk.NoSource) as found:
            lzk.compile("field goldilocks\nassert z = 1\n")
        self.assertEqual((found.exception.rule, found.exception.line), ("Unknown", 2))
        with self.assertRaises(lzk.NoSource):
            lzk.compile("")
        with self.assertRaises(lzk.TooLong):
            lzk.compile("#" * 4_194_305)
        with self.assertRaises(ValueError):
            lzk.compile(SQUARE, version=3)

    def test_over_limit(self):
        deep = "field goldilocks\nprivate x0\n" + "".join(f"let x{k + 1} = x{k}*x{k}\n" for k in range(520)) + "assert x520 = 0\n"
        with self.assertRaises(lzk.OverLimit) as found:
            lzk.compile(deep)
        self.assertEqual(found.exception.limit, "Layers")

    def test_a_circuit_that_needs_more_room_than_the_first_try(self):
        source = "field goldilocks\nprivate x\n" + "".join(f"assert x*x = {1000003 * k + 7}\n" for k in range(9000))
        circuit = lzk.compile(source)
        self.assertGreater(len(circuit), 65536)
        self.assertEqual(lzk.circuit_info(circuit).checks, 9000)

    def test_upgrade(self):
        for source in (SQUARE, SQUARE.replace("goldilocks", "gf2_128")):
            upgraded = lzk.upgrade(lzk.compile(source))
            self.assertEqual(lzk.circuit_info(upgraded).version, 2)
            self.assertEqual(lzk.upgrade(upgraded), upgraded)
            lzk.verify(upgraded, [9 if "gold" in source else 5], proof=lzk.prove(upgraded, [9 if "gold" in source else 5], [3]))
        with self.assertRaises(lzk.NoCircuit):
            lzk.upgrade(b"LZC1")

    def test_sha_circuit(self):
        import hashlib

        from lzk._statements import sha_inputs

        for message in (b"", b"abc", bytes(range(55))):
            circuit, (public, private) = lzk.sha_circuit(len(message)), sha_inputs(message)
            self.assertEqual(b"".join(word.to_bytes(4, "big") for word in public), hashlib.sha256(message).digest())
            lzk.evaluate(circuit, public, private)
            private[0] ^= 1
            with self.assertRaises(lzk.Unsatisfied):
                lzk.evaluate(circuit, public, private)
        with self.assertRaises(lzk.TooLong):
            lzk.sha_circuit(56)

    def test_no_circuit(self):
        with self.assertRaises(lzk.NoCircuit) as found:
            lzk.circuit_info(b"LZC1\x07")
        self.assertEqual((found.exception.rule, found.exception.offset), ("FieldId", 4))
        with self.assertRaises(lzk.NoCircuit):
            lzk.circuit_info(b"")


class Proofs(unittest.TestCase):
    @classmethod
    def setUpClass(cls):
        cls.circuit = lzk.compile(SQUARE)
        cls.proof = lzk.prove(cls.circuit, [9], [3], b"nonce", SEED)

    def test_accepted(self):
        lzk.verify(self.circuit, [9], session=b"nonce", proof=self.proof)
        self.assertEqual(str(lzk.explain(self.circuit, "9", session=b"nonce", proof=self.proof)), "accepted")

    def test_one_proof_for_a_seed(self):
        self.assertEqual(self.proof, lzk.prove(self.circuit, "9 # y\n", b"0x3", b"nonce", bytearray(SEED)))
        self.assertNotEqual(lzk.prove(self.circuit, [9], [3]), lzk.prove(self.circuit, [9], [3]))

    def test_rejected(self):
        damaged = bytearray(self.proof)
        damaged[8000] ^= 1
        for proof, session, check in ((damaged, b"nonce", 4), (self.proof, b"other", 3), (self.proof[:-1], b"nonce", 1), (b"", b"nonce", 1)):
            with self.assertRaises(lzk.Rejected) as found:
                lzk.verify(self.circuit, [9], session=session, proof=proof)
            if check != 4:
                self.assertEqual(found.exception.verdict.check, check)

    def test_unsatisfied(self):
        lzk.evaluate(self.circuit, [9], [PRIME - 3])
        for call in (lzk.evaluate, lzk.prove):
            with self.assertRaises(lzk.Unsatisfied) as found:
                call(self.circuit, [9], [4])
            self.assertEqual((found.exception.check, found.exception.value), (0, 7))

    def test_no_numbers(self):
        for public, private, which, rule in (
            ([], [3], "public", "TooFew"), ([9, 9], [3], "public", "TooMany"), ([PRIME], [3], "public", "TooLarge"), ("y", [3], "public", "Syntax"),
            ([9], [], "private", "TooFew"), ([9], [-3], "private", "Syntax"),
        ):  # fmt: skip
            with self.assertRaises(lzk.NoNumbers) as found:
                lzk.prove(self.circuit, public, private)
            self.assertEqual((found.exception.which, found.exception.rule), (which, rule))

    def test_refused(self):
        with self.assertRaises(lzk.TooLong):
            lzk.prove(self.circuit, [9], [3], bytes(65))
        with self.assertRaises(ValueError):
            lzk.prove(self.circuit, [9], [3], seed=b"short")
        with self.assertRaises(lzk.NoCircuit):
            lzk.prove(self.proof, [9], [3])

    def test_gf128(self):
        circuit = lzk.compile("field gf2_128\npublic y\nprivate x\nassert x*x = y\n", version=2)
        proof = lzk.prove(circuit, [5], [3])
        lzk.verify(circuit, [5], proof=proof)

    def test_desk(self):
        with lzk.Desk(self.circuit, [9], b"nonce") as desk:
            for _ in range(2):
                for at in range(0, len(self.proof), 997):
                    desk.feed(self.proof[at : at + 997])
                desk.verify()
            desk.feed(b"nothing of a proof")
            self.assertEqual(desk.explain().rule, "Magic")
            desk.feed(self.proof + b"0" * 3_000_000)
            self.assertEqual(str(desk.explain()), str(lzk.explain(self.circuit, [9], session=b"nonce", proof=self.proof + b"0")))
        with self.assertRaises(ValueError):
            desk.feed(b"")

    def test_each(self):
        jobs = [lzk.Job([9], b"nonce", self.proof), lzk.Job([9], b"", self.proof), lzk.Job([], b"", self.proof)]
        found = lzk.explain_each(self.circuit, jobs)
        self.assertEqual([type(it).__name__ for it in found], ["Verdict", "Verdict", "NoNumbers"])
        self.assertEqual([bool(it) for it in found[:2]], [True, False])
        self.assertEqual(lzk.explain_each(self.circuit, []), [])

    def test_threads(self):
        failed = []

        def work(number):
            try:
                proof = lzk.prove(self.circuit, [number**2], [number])
                lzk.verify(self.circuit, [number**2], proof=proof)
            except Exception as error:
                failed.append(error)

        threads = [threading.Thread(target=work, args=(number,)) for number in range(1, 17)]
        for thread in threads:
            thread.start()
        for thread in threads:
            thread.join()
        self.assertEqual(failed, [])

    def test_the_old_order_is_taken_and_told(self):
        for call in (lzk.verify, lzk.explain):
            with self.assertWarns(DeprecationWarning):
                call(self.circuit, [9], self.proof, b"nonce")
            with self.assertWarns(DeprecationWarning):
                call(self.circuit, [9], self.proof, session=b"nonce")
        with self.assertWarns(DeprecationWarning):
            self.assertTrue(lzk.explain_pieces(self.circuit, [9], [self.proof[:99], self.proof[99:]], b"nonce"))
        with self.assertWarns(DeprecationWarning):
            self.assertTrue(lzk.explain_each(self.circuit, [([9], self.proof, b"nonce")])[0])

    def test_bytes_are_counted_by_bytes(self):
        """An array of larger items, a view and a subclass with a length of its own are handed over whole."""

        class Liar(bytes):
            def __len__(self):
                return 10**9

        session = array.array("I", [1, 2, 3, 4])
        proof = lzk.prove(self.circuit, [9], [3], session, SEED)
        self.assertEqual(proof, lzk.prove(self.circuit, [9], [3], session.tobytes(), SEED))
        self.assertTrue(lzk.explain(self.circuit, [9], session=memoryview(session), proof=Liar(proof)))
        self.assertTrue(lzk.explain_pieces(self.circuit, [9], session=session, pieces=[Liar(proof[:9]), memoryview(proof)[9:]]))
        self.assertTrue(lzk.explain_each(self.circuit, [lzk.Job([9], session, array.array("B", proof))])[0])
        with lzk.Desk(self.circuit, [9], session) as desk:
            desk.feed(Liar(proof))
            desk.verify()

    def test_a_desk_is_closed_beside_its_use(self):
        """Threads feed, explain and close: each call ends, or says that the desk is closed."""
        for _ in range(50):
            desk, wrong = lzk.Desk(self.circuit, [9], b"nonce"), []

            def use(desk=desk, wrong=wrong):
                try:
                    for at in range(0, len(self.proof), 97):
                        desk.feed(self.proof[at : at + 97])
                    desk.explain()
                except ValueError as error:
                    if "closed" not in str(error):
                        wrong.append(error)

            threads = [threading.Thread(target=use) for _ in range(3)] + [threading.Thread(target=desk.close)]
            for thread in threads:
                thread.start()
            for thread in threads:
                thread.join()
            self.assertEqual(wrong, [])


class Mistakes(unittest.TestCase):
    """Each mistake raises an error whose text names what is wrong, where, and mostly what to do."""

    def test_each(self):
        circuit = lzk.compile(SQUARE)
        proof = lzk.prove(circuit, [9], [3], b"nonce", SEED)
        path = "mostly the session or the public numbers are not the prover's"
        prove, verify, explain = lzk.prove, lzk.verify, lzk.explain
        rows = (
            # arguments of another type
            (lambda: prove(circuit, [9], [3], seed=32), TypeError, "seed is int, and bytes are expected; use to_bytes()"),
            (lambda: prove(circuit, [9], [3], seed="00" * 32), TypeError, "seed is str, and bytes are expected; encode() it, or read the file"),
            (lambda: prove(circuit, [9], [3], seed=b"short"), ValueError, "seed has 5 bytes, and 32 are expected; leave it out"),
            (lambda: prove(circuit, [9], [3], session=7), TypeError, "session is int, and bytes are expected"),
            (lambda: prove(circuit, [9], [3], session="nonce"), TypeError, "session is str, and bytes are expected; encode() it"),
            (lambda: prove(circuit, [9], [3], session=None), TypeError, "session is NoneType, and bytes are expected"),
            (lambda: prove("c.lzc", [9], [3]), TypeError, "circuit is str, and bytes are expected; encode() it, or read the file"),
            (lambda: prove(circuit, [9.7], [3]), TypeError, "public[0] is float, and an integer is expected"),
            (lambda: prove(circuit, [9], [3.0]), TypeError, "private[0] is float, and an integer is expected"),
            (lambda: prove(circuit, ["9"], [3]), TypeError, "public[0] is str, and an integer is expected"),
            (lambda: prove(circuit, [9], [None]), TypeError, "private[0] is NoneType, and an integer is expected"),
            (lambda: prove(circuit, 9, [3]), TypeError, "public is int, and a list of integers, or the text of a number file, is expected"),
            (lambda: prove(circuit, None, [3]), TypeError, "public is NoneType, and a list of integers"),
            (lambda: prove(circuit, [9], {"x": 3}), TypeError, "private is dict, and a list of integers"),
            (lambda: prove(circuit, {9}, [3]), TypeError, "public is set, and a list of integers"),
            (lambda: explain(circuit, [9], session=b"nonce"), TypeError, "explain() needs proof="),
            (lambda: verify(circuit, [9], proof="p.lzp"), TypeError, "proof is str, and bytes are expected; encode() it, or read the file"),
            (lambda: verify(circuit, [9], proof, b"nonce", b"more"), TypeError, "verify() takes circuit and public, and then session= and proof= by name"),
            (lambda: lzk.explain_pieces(circuit, [9], pieces=proof), TypeError, "pieces is bytes, and a list of bytes is expected"),
            (lambda: lzk.explain_pieces(circuit, [9], pieces=[proof, 9]), TypeError, "pieces[1] is int, and bytes are expected"),
            (lambda: lzk.explain_each(circuit, [proof]), TypeError, "jobs[0] is bytes, and lzk.Job(public, session, proof) is expected"),
            (lambda: lzk.explain_each(circuit, [lzk.Job([9], 5, proof)]), TypeError, "jobs[0].session is int, and bytes are expected"),
            (lambda: lzk.Desk(circuit, [9]).feed(9), TypeError, "piece is int, and bytes are expected"),
            (lambda: lzk.compile(9), TypeError, "source is int, and bytes are expected"),
            (lambda: lzk.compile(SQUARE, version=3), ValueError, "version is 3, and a circuit's version is 1 or 2"),
            (lambda: lzk.compile(SQUARE, version="1"), TypeError, "version is str, and an integer is expected"),
            (lambda: lzk.sha_circuit(3.5), TypeError, "message_length is float, and an integer is expected"),
            (lambda: lzk.sha_circuit(-1), ValueError, "message_length is -1, and a length is not negative"),
            (lambda: lzk.upgrade(None), TypeError, "circuit is NoneType, and bytes are expected"),
            # what the library refuses
            (lambda: lzk.sha_circuit(56), lzk.TooLong, "a message for sha_circuit more than 55"),
            (lambda: prove(circuit, [9], [3], bytes(65)), lzk.TooLong, "session has 65 bytes, and at most 64 are taken"),
            (lambda: prove(circuit, b" " * 4_194_305, [3]), lzk.TooLong, "public has 4194305 bytes, and at most 4194304 are taken"),
            (lambda: lzk.compile("#" * 4_194_305), lzk.TooLong, "source has 4194305 bytes, and at most 4194304 are taken"),
            (lambda: prove(proof, [9], [3]), lzk.NoCircuit, "circuit at byte 0: Magic: the bytes begin with neither LZC1 nor LZC2"),
            (lambda: lzk.circuit_info(circuit[:-1]), lzk.NoCircuit, "Truncated: the bytes end inside the file; a part is missing"),
            (lambda: lzk.circuit_info(circuit + b"0"), lzk.NoCircuit, "Trailing: bytes are left after the last term"),
            (lambda: prove(circuit, [], [3]), lzk.NoNumbers, "public numbers at line 1: TooFew: the text ends before as many numbers as the circuit has (the circuit has 1 public number)"),
            (lambda: prove(circuit, [9, 9], [3]), lzk.NoNumbers, "public numbers at line 2: TooMany: there are more numbers than the circuit has (the circuit has 1 public number)"),
            (lambda: prove(circuit, [9], [3, 3]), lzk.NoNumbers, "private numbers at line 2: TooMany"),
            (lambda: prove(circuit, [PRIME], [3]), lzk.NoNumbers, f"public numbers at line 1: TooLarge: a number is not below the field's size (the size is {PRIME})"),
            (lambda: prove(circuit, [9], [-3]), lzk.NoNumbers, "private numbers at line 1: Syntax: a word is no number; write decimal digits, or hexadecimal ones after 0x, with no sign"),
            (lambda: prove(circuit, "y", [3]), lzk.NoNumbers, "public numbers at line 1: Syntax: a word is no number"),
            (lambda: lzk.evaluate(circuit, [9], [4]), lzk.Unsatisfied, "check 0 is 7, and has to be 0: the numbers do not satisfy the circuit; look at the assert"),
            (lambda: lzk.compile("field goldilocks\nassert z = 1\n"), lzk.NoSource, "source at line 2: Unknown: a name was not declared on an earlier line (the line is: assert z = 1)"),
            (lambda: lzk.compile("public y\n"), lzk.NoSource, "source at line 1: NoField: the first statement is no `field` line; begin with `field goldilocks`"),
            (lambda: lzk.compile("field goldilocks\nprivate x\n"), lzk.NoSource, "NoAssert: there is no assert"),
            (lambda: lzk.compile("field goldilocks\nprove x\n"), lzk.NoSource, "source at line 2: Keyword: the first word is no keyword; a line begins with field, public"),
            (lambda: verify(circuit, [9], session=b"other", proof=proof), lzk.Rejected, path),
            (lambda: verify(circuit, [16], session=b"nonce", proof=proof), lzk.Rejected, path),
            (lambda: verify(circuit, [9], session=b"nonce", proof=proof[:-1]), lzk.Rejected, "Truncated (the bytes are no proof's file for this circuit)"),
            (lambda: verify(circuit, [9], session=b"nonce", proof=circuit), lzk.Rejected, "rejected: format at byte 0: Magic"),
            (lambda: verify(lzk.compile(SQUARE, 2), [9], session=b"nonce", proof=proof), lzk.Rejected, "(the proof is for another circuit)"),
        )  # fmt: skip
        for call, kind, text in rows:
            with self.subTest(text), self.assertRaises(kind) as found:
                call()
            self.assertIn(text, str(found.exception))

    def test_over_limit_says_which(self):
        deep = "field goldilocks\nprivate x0\n" + "".join(f"let x{k + 1} = x{k}*x{k}\n" for k in range(520)) + "assert x520 = 0\n"
        with self.assertRaisesRegex(lzk.OverLimit, "Layers: the source's circuit would need 52[01], over the limit of 512 layers"):
            lzk.compile(deep)

    def test_no_private_number_is_in_a_text(self):
        circuit = lzk.compile(SQUARE)
        for private in (["31415926"], [31415926.5], [31415926, 1], "31415926 x", [31415926 << 64]):
            with self.assertRaises(Exception) as found:
                lzk.prove(circuit, [9], private)
            self.assertNotIn("31415926", str(found.exception))

    def test_a_wrong_library_is_an_error(self):
        for name in ("/nowhere/liblzk.so", os.path.abspath(__file__), ""):
            place = {**os.environ, "LZK_LIBRARY": name, "PYTHONPATH": os.path.dirname(os.path.dirname(lzk.__file__))}
            ended = subprocess.run([sys.executable, "-c", "import lzk"], env=place, capture_output=True, text=True, check=False)
            self.assertNotEqual(ended.returncode, 0)
            self.assertIn("ImportError", ended.stderr)


class Puts(unittest.TestCase):
    """python3 -m lzk puts files in one piece, and what is no file in place."""

    def setUp(self):
        held = tempfile.TemporaryDirectory()
        self.addCleanup(held.cleanup)
        self.folder = held.name
        with open(self.path("s.txt"), "w", encoding="utf-8") as file:
            file.write(SQUARE)

    def path(self, name):
        return os.path.join(self.folder, name)

    def run_words(self, *words, umask=0o022):
        place = {**os.environ, "PYTHONPATH": os.path.dirname(os.path.dirname(lzk.__file__))}
        return subprocess.run([sys.executable, "-m", "lzk", *words], env=place, capture_output=True, check=False, preexec_fn=lambda: os.umask(umask))

    def mode(self, name):
        return os.stat(self.path(name)).st_mode

    def test_a_new_file_is_as_the_umask_says(self):
        for umask in (0o022, 0o077, 0o002):
            name = f"{umask:o}.lzc"
            self.assertEqual(self.run_words("compile", self.path("s.txt"), self.path(name), umask=umask).returncode, 0)
            self.assertEqual(stat.S_IMODE(self.mode(name)), 0o666 & ~umask)

    def test_an_old_file_keeps_its_bits(self):
        with open(self.path("c.lzc"), "w", encoding="utf-8"):
            os.chmod(self.path("c.lzc"), 0o600)
        self.assertEqual(self.run_words("compile", self.path("s.txt"), self.path("c.lzc")).returncode, 0)
        self.assertEqual(stat.S_IMODE(self.mode("c.lzc")), 0o600)
        with open(self.path("c.lzc"), "rb") as file:
            self.assertEqual(file.read(), lzk.compile(SQUARE))
        self.assertEqual(sorted(os.listdir(self.folder)), ["c.lzc", "s.txt"])

    def test_a_pipe_stays_one(self):
        os.mkfifo(self.path("pipe"))
        os.symlink("pipe", self.path("link"))
        for name in ("pipe", "link"):
            got = []
            reader = threading.Thread(target=lambda name=name, got=got: got.append(subprocess.check_output(["cat", self.path(name)])))
            reader.start()
            self.assertEqual(self.run_words("compile", self.path("s.txt"), self.path(name)).returncode, 0)
            reader.join()
            self.assertEqual(got, [lzk.compile(SQUARE)])
            self.assertTrue(stat.S_ISFIFO(self.mode(name)))

    def test_a_device_stays_one(self):
        # A terminal of the test's own: code that replaces what it writes can do no harm there.
        ours, theirs = os.openpty()
        tty.setraw(theirs)
        self.assertEqual(self.run_words("compile", self.path("s.txt"), os.ttyname(theirs)).returncode, 0)
        self.assertEqual(os.read(ours, 4096), lzk.compile(SQUARE))
        self.assertTrue(stat.S_ISCHR(os.stat(os.ttyname(theirs)).st_mode))
        os.close(ours)
        os.close(theirs)
        ended = self.run_words("compile", self.path("s.txt"), "/dev/stdout")
        self.assertEqual(ended.returncode, 0)
        self.assertTrue(ended.stdout.startswith(lzk.compile(SQUARE)))

    def test_a_link_to_a_file_stays_one(self):
        os.symlink("c.lzc", self.path("link"))
        self.assertEqual(self.run_words("compile", self.path("s.txt"), self.path("link")).returncode, 0)
        self.assertTrue(os.path.islink(self.path("link")))
        self.assertEqual(os.path.getsize(self.path("c.lzc")), len(lzk.compile(SQUARE)))

    def test_a_folder_and_a_missing_place_are_told(self):
        for name in (self.folder, self.path("no/c.lzc")):
            ended = self.run_words("compile", self.path("s.txt"), name)
            self.assertEqual((ended.returncode, ended.stdout.decode()), (5, f"fault: writing {name}\n"))


if __name__ == "__main__":
    unittest.main()
