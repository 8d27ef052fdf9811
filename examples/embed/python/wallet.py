"""Proves that it knows a number whose square is public, and sends the proof to a service:  wallet.py PORT PUBLIC PRIVATE

The service sends a nonce, which is the session. The private number is asked for where no third word is given, so that it stands in no list of
processes. Prints what the service answers, and ends with 1 unless that is `accepted`.
"""

import getpass
import socket
import sys

import lzk

STATEMENT = "field goldilocks\npublic y\nprivate x\nassert x*x = y\n"

if len(sys.argv) not in (3, 4):
    sys.exit(__doc__)
circuit = lzk.compile(STATEMENT)
public = sys.argv[2]
private = sys.argv[3] if len(sys.argv) == 4 else getpass.getpass("private number: ")
with socket.create_connection(("127.0.0.1", int(sys.argv[1]))) as service:
    nonce = service.recv(32, socket.MSG_WAITALL)
    try:
        proof = lzk.prove(circuit, public, private, nonce)
    except lzk.Unsatisfied:
        sys.exit("the number is not the root")
    service.sendall(proof)
    service.shutdown(socket.SHUT_WR)
    answer = service.recv(256, socket.MSG_WAITALL).decode().strip()
print(answer)
sys.exit(answer != "accepted")
