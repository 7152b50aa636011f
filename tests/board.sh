#!/bin/sh
# docs/BOARD.md against what it shows: its code, block after block, is the shim tests/c/board.h, and its stack is that of docs/PERFORMANCE.md.
# That the shim does what the page says is tests/c/board.c's to test. Writes what differs; exit status 0 if nothing does.
set -u
LC_ALL=C
export LC_ALL
cd "$(dirname "$0")/.." || exit 2
page=docs/BOARD.md
shim=tests/c/board.h
work=$(mktemp -d) || exit 2
trap 'rm -rf "$work"' EXIT
failed=0

wrong() {
    echo "board: $*"
    failed=1
}

# the file without its comment, guard and include; the page's blocks with a blank line between two
awk '/^#include "gritgarland.h"$/ { on = 1; next } /^#endif$/ { on = 0 } on' "$shim" | sed -e 1d -e '$d' >"$work/shim"
awk '/^```c$/ { on = 1; if (n++ > 0) print ""; next } /^```$/ { on = 0 } on' "$page" >"$work/page"
[ "$(wc -l <"$work/shim")" -gt 50 ] || wrong "$shim can't be read"
cmp -s "$work/shim" "$work/page" || { wrong "$page: < as $shim has it, > as it stands there"; diff "$work/shim" "$work/page"; }

stack=$(sed -n 's/^| `gritgarland_call_in_place` | \([0-9]*\),\([0-9]*\) |.*/\1\2/p' docs/PERFORMANCE.md)
said=$(sed -n 's/.*A call takes some \([0-9]*\) KB of stack.*/\1/p' "$page")
[ -n "$stack" ] && [ "$said" = "$(((stack + 500) / 1000))" ] || wrong "$page says $said KB of stack, docs/PERFORMANCE.md $stack bytes"

# what a reader must find
for words in "for x86-64 Linux" "nothing is proved for them" "The code comes before the running task" "The context is believed" "What is not there" "What the mask costs"; do
    grep -qF "$words" "$page" || wrong "$page does not say: $words"
done

[ "$failed" -eq 0 ] && echo "board: the page shows the shim that is tested"
exit "$failed"
