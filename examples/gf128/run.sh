#!/bin/sh
# A statement over GF(2^128), where plus is exclusive or.
here=$(cd "$(dirname "$0")" && pwd)
# shellcheck source=examples/common.sh
. "$here/../common.sh"
try_any compile "$here/statement.txt" gf128.lzc
try eval gf128.lzc "$here/public.txt" "$here/private.txt"
try_any prove gf128.lzc "$here/public.txt" "$here/private.txt" gf128.lzp "$seed"
try verify gf128.lzc "$here/public.txt" gf128.lzp
