#!/bin/sh
# Issuers, wallets and services over the loopback: who is let in, and what is refused. No program is started for a proof.
# Needs ./build library, Python 3.8, and openssl with Ed25519. `run.sh 20` plays it over a million leaves, by the library of
# the strong profile, which LZK_LIBRARY names.
here=$(cd "$(dirname "$0")" && pwd)
exec env PYTHONDONTWRITEBYTECODE=1 python3 "$here/play.py" "$@"
