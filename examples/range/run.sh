#!/bin/sh
# A private number lies in a range, by its bits. The proof is for one public year and one session.
here=$(cd "$(dirname "$0")" && pwd)
# shellcheck source=examples/common.sh
. "$here/../common.sh"
try compile "$here/statement.txt" range.lzc
try eval range.lzc "$here/public.txt" "$here/private.txt"
try prove range.lzc "$here/public.txt" "$here/private.txt" range.lzp "$seed" session=6e6f6e6365
try verify range.lzc "$here/public.txt" range.lzp session=6e6f6e6365
# Another session, or another year: rejected. Which check fails first is by chance.
try verify range.lzc "$here/public.txt" range.lzp session=00 | sed 's/^rejected: .*/rejected/'
try verify range.lzc "$here/other-year.txt" range.lzp session=6e6f6e6365 | sed 's/^rejected: .*/rejected/'
