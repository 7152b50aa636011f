#!/bin/sh
# The stack of what prints: no frame on the way from a number to its bytes has room for a scratch of ten bytes, and a printer that is given one, which
# nobody proves, is seen. The figures of docs/PERFORMANCE.md are what tools/stack reads. Writes what is wrong; exit status 0 if nothing is.
set -u
LC_ALL=C
export LC_ALL
cd "$(dirname "$0")/.." || exit 2
page=docs/PERFORMANCE.md
work=$(mktemp -d) || exit 2
trap 'rm -rf "$work"' EXIT
failed=0

wrong() {
    echo "stack: $*"
    failed=1
}

# on another processor an objdump for x86-64 is needed, and Debian has one
if [ "$(uname -m)" != x86_64 ] && ! command -v x86_64-linux-gnu-objdump >/dev/null && ! command -v llvm-objdump >/dev/null; then
    (apt-get update && apt-get install -y binutils-x86-64-linux-gnu) >/dev/null 2>&1 || { echo "stack: no objdump for x86-64 is at hand: not looked at"; exit 0; }
fi

# roomy TABLE: the printers whose frame has ten bytes or more beside the return address and the saved registers; the header of the answer is no number
roomy() {
    awk -F ' *[|] *' '$2 ~ /^`(text|answers)::/ && $4 + 0 >= 10 { print $2 }' "$1"
}

tools/stack --printers >"$work/printers" || exit 1
[ "$(grep -cE '^\| `(text|answers)::[a-z_:]+` \| [0-9]+ \| [0-9]+ \|' "$work/printers")" -eq 4 ] || { wrong "the printers' frames can't be read"; cat "$work/printers"; }
found=$(roomy "$work/printers")
[ -z "$found" ] || { wrong "room for a scratch of ten bytes in the frame of:" $found; cat "$work/printers"; }

# the sources as they are, by the way that sources go which need not be proved: the same is seen
mkdir "$work/tree" && tar -cf - --exclude='crates/*/out' crates crates.txt | tar -xf - -C "$work/tree" || exit 1
tools/stack --tried-printers "$work/tree" >"$work/tried" || exit 1
found=$(roomy "$work/tried")
[ -z "$found" ] || { wrong "a scratch of ten bytes is seen where there is none:" $found; cat "$work/tried"; }

# the printer as it must not be: the digits into a scratch, the scratch into the buffer; what it writes is the same
cat >"$work/scratch" <<'END'
{
    let mut scratch = [0u8; 10];
    let mut k: usize = 10;
    let mut rest = n;
    while 9 < rest {
        k = k - 1;
        scratch[k] = (48 + rest % 10) as u8;
        rest = rest / 10;
    }
    k = k - 1;
    scratch[k] = (48 + rest) as u8;
    let digits = 10 - k;
    if !has_room(buf.len(), at, digits) {
        return at;
    }
    let mut i: usize = 0;
    while i < digits {
        buf[at + i] = scratch[k + i];
        i += 1;
    }
    at + digits
}
END
awk -v body="$work/scratch" '/^pub fn put_decimal/ { on = 1 } on && /^{$/ { while ((getline line < body) > 0) print line; exit } { print }' crates/text/src/decimals.rt >"$work/tree/crates/text/src/decimals.rt"
tools/stack --tried-printers "$work/tree" >"$work/scratched" || exit 1
found=$(roomy "$work/scratched")
[ "$found" = '`text::decimals::put_decimal`' ] || { wrong "a printer with a scratch of ten bytes is not seen"; cat "$work/scratched"; }

# the page, whose figures are those of the kit for x86-64
if [ "$(uname -m)" = x86_64 ]; then
    tools/stack >"$work/entries" || exit 1
    grep -h '^| `' "$work/entries" "$work/printers" >"$work/rows"
    while IFS= read -r row; do
        grep -qxF -e "$row" "$page" || wrong "$page does not have: $row"
    done <"$work/rows"
fi

[ "$failed" -eq 0 ] && echo "stack: what prints keeps no scratch, and the page has the figures"
exit "$failed"
