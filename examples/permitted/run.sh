#!/bin/sh
# A private code is one of a table, and a public tariff fits it.
here=$(cd "$(dirname "$0")" && pwd)
# shellcheck source=examples/common.sh
. "$here/../common.sh"
try_any compile "$here/statement.txt" permitted.lzc
try eval permitted.lzc "$here/public.txt" "$here/private.txt"
try_any prove permitted.lzc "$here/public.txt" "$here/private.txt" permitted.lzp "$seed"
try verify permitted.lzc "$here/public.txt" permitted.lzp
# Output 0, the first assert, is not 0 for a code that is not in the table: (1003-1001)(1003-1002)(1003-2001)(1003-2002).
try eval permitted.lzc "$here/full-tariff.txt" "$here/not-permitted.txt"
