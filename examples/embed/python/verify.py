"""Verifies proofs over one circuit by a pool of four threads:  verify.py CIRCUIT PUBLIC PROOF..

Prints a line for each proof, in order. Ends with 1 where one is rejected. Needs the package `lzk`: PYTHONPATH=../../python, or pip.
"""

import sys
from concurrent.futures import ThreadPoolExecutor

import lzk


def read(name):
    with open(name, "rb") as file:
        return file.read()


if len(sys.argv) < 4:
    sys.exit(__doc__)
circuit, public = read(sys.argv[1]), read(sys.argv[2])
with ThreadPoolExecutor(4) as pool:
    verdicts = list(pool.map(lambda name: lzk.explain(circuit, public, proof=read(name)), sys.argv[3:]))
for verdict in verdicts:
    print(verdict)
sys.exit(not all(verdicts))
