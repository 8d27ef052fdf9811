"""Compiles a statement, proves it and verifies the proof:  prove.py SOURCE PUBLIC PRIVATE

The last two are numbers in words, as "9" and "3". Prints the line that `zk verify` prints, or what is wrong, and ends with 1 unless it is accepted.
"""

import sys

import lzk

if len(sys.argv) != 4:
    sys.exit(__doc__)
name, public, private = sys.argv[1:]
with open(name, encoding="utf-8") as file:
    source = file.read()
try:
    circuit = lzk.compile(source)
    proof = lzk.prove(circuit, public, private, session=b"nonce")
    lzk.verify(circuit, public, session=b"nonce", proof=proof)
except lzk.Error as error:
    sys.exit(str(error))
print("accepted")
