#!/bin/sh
# I know a square root of y: compile, check the numbers, prove, verify.
here=$(cd "$(dirname "$0")" && pwd)
# shellcheck source=examples/common.sh
. "$here/../common.sh"
try compile "$here/statement.txt" square.lzc
try show square.lzc
try eval square.lzc "$here/public.txt" "$here/private.txt"
try prove square.lzc "$here/public.txt" "$here/private.txt" square.lzp "$seed"
try verify square.lzc "$here/public.txt" square.lzp
# 3 is no root of 10. The value is 3*3 - 10 = -1, as a number of the field.
try eval square.lzc "$here/wrong.txt" "$here/private.txt"
try prove square.lzc "$here/wrong.txt" "$here/private.txt" wrong.lzp "$seed"
