"""Verifies proofs while they arrive:  service.py PORT PUBLIC [COUNT]

For each of COUNT connections (without it, for ever) it sends a fresh nonce of 32 bytes, which is the session, feeds a desk what comes, and
answers with the line that `zk verify` prints. The circuit is compiled here: a service takes it from its own store, never from who proves.
"""

import itertools
import secrets
import socket
import sys

import lzk

STATEMENT = "field goldilocks\npublic y\nprivate x\nassert x*x = y\n"
MOST_PROOF = 2_097_152


def judge(circuit, public, wallet):
    """The verdict on the bytes that come, at most one byte more than a proof can have."""
    nonce = secrets.token_bytes(32)
    wallet.sendall(nonce)
    left = MOST_PROOF + 1
    with lzk.Desk(circuit, public, nonce) as desk:
        while left > 0 and (piece := wallet.recv(min(left, 65_536))):
            desk.feed(piece)
            left -= len(piece)
        return desk.explain()


if len(sys.argv) not in (3, 4):
    sys.exit(__doc__)
circuit = lzk.compile(STATEMENT)
with socket.create_server(("127.0.0.1", int(sys.argv[1]))) as server:
    print(server.getsockname()[1], flush=True)
    for _ in range(int(sys.argv[3])) if len(sys.argv) == 4 else itertools.count():
        wallet, _ = server.accept()
        with wallet:
            wallet.settimeout(10)
            try:
                verdict = judge(circuit, sys.argv[2], wallet)
                print(verdict, flush=True)
                wallet.sendall(f"{verdict}\n".encode())
            except OSError as error:
                print(error, flush=True)
