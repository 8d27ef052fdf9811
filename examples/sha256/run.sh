#!/bin/sh
# I know a message of three bytes with this SHA-256 digest. Here it is "abc", whose bytes are 61 62 63.
here=$(cd "$(dirname "$0")" && pwd)
# shellcheck source=examples/common.sh
. "$here/../common.sh"
try_any shacircuit 3 abc.lzc
try_any sha256 abc.lzc abc.lzp message=616263 "$seed"
# The verifier has the digest, as eight public numbers, and not the message.
try verify abc.lzc "$here/public.txt" abc.lzp
# A circuit is for messages of one length.
try sha256 abc.lzc other.lzp message=61626364 "$seed"
