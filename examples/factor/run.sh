#!/bin/sh
# A product that wraps, and a statement of whole numbers: a factor is between 2 and 2^31 + 1.
here=$(cd "$(dirname "$0")" && pwd)
# shellcheck source=examples/common.sh
. "$here/../common.sh"
try_any compile "$here/wraps.txt" wraps.lzc
try eval wraps.lzc "$here/public.txt" "$here/wrapping.txt"
try_any prove wraps.lzc "$here/public.txt" "$here/wrapping.txt" wraps.lzp "$seed"
try verify wraps.lzc "$here/public.txt" wraps.lzp

try_any compile "$here/statement.txt" factor.lzc
try_any prove factor.lzc "$here/public.txt" "$here/private.txt" factor.lzp "$seed"
try verify factor.lzc "$here/public.txt" factor.lzp

# 2 and 9223372034707292168 again: the first has the bits of 0, the second less 2 has no 31 bits.
sed -e '1s/3/2/' -e '2s/5/9223372034707292168/' -e '3s/1/0/' "$here/private.txt" > other.txt
"$zk" eval factor.lzc "$here/public.txt" other.txt | sed -n -e '1,3p' -e '$p'
