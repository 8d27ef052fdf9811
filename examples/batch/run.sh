#!/bin/sh
# Many proofs verified in one run, by two workers. Jobs of one circuit stand together, since a worker keeps what it made for the last.
here=$(cd "$(dirname "$0")" && pwd)
# shellcheck source=examples/common.sh
. "$here/../common.sh"
cp "$here/../square/public.txt" nine.txt
cp "$here/../range/public.txt" year.txt
cp "$here/jobs.txt" .
try compile "$here/../square/statement.txt" square.lzc
try prove square.lzc nine.txt "$here/../square/private.txt" square.lzp "$seed"
try compile "$here/../range/statement.txt" range.lzc
try prove range.lzc year.txt "$here/../range/private.txt" range.lzp "$seed" session=6e6f6e6365
try batch jobs.txt workers=2
