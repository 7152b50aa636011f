#!/bin/sh
# Holds every list under examples/ to its answer, byte for byte; and the pages that show them to both, to the words of ./play, and to the
# computed accounts. Prints what differs, or one line if nothing does.
cd "$(dirname "$0")/.." || exit 1
test=examples
. tests/lists.sh

# ---- every list and its answer
find examples -name '*.csv' | sort >"$work/lists"
find examples -name '*.answer' | sed 's/answer$/csv/' | sort | cmp -s - "$work/lists" || differs "a list has no answer, or an answer no list"
[ -s "$work/lists" ] || differs "there are no lists"
while read -r list; do
    answer=${list%.csv}.answer
    case $(sed 1q "$answer") in
    n,code,running*) plays "$list" 0 ;;
    *) plays "$list" 1 ;;
    esac
    cmp -s "$work/answer" "$answer" || differs "$list: runlist does not write $answer"
done <"$work/lists"

# the word of the hold and its digits get the same answer
sed 's/,forever$/,4294967295/' examples/hold-until-key.csv >"$work/digits"
cmp -s "$work/digits" examples/hold-until-key.csv && differs "examples/hold-until-key.csv has no timeout in a word"
plays "$work/digits" 0
cmp -s "$work/answer" examples/hold-until-key.answer || differs "examples/hold-until-key.csv is answered otherwise with digits for its word"

# ---- the pages
# both LIST FORM: each line of a list beside its row of the answer
both() {
    awk -v form="$2" -v answer="examples/$1.answer" '
        { getline row <answer; sub(/\r$/, ""); sub(/\r$/, "", row) }
        form == "table" && NR > 1 { print "| " NR " | `" $0 "` | `" row "` |" }
        form == "columns" { printf "    %-30s %s\n", $0, row }
    ' "examples/$1.csv"
}

for name in worked hold-until-key round-robin account reading-and-relay mistakes/refused-calls mistakes/refused-flags mistakes/refused-queues mistakes/clear-of-tnkernel; do
    both "$name" table >"$work/rows"
    awk -v file="\`examples/$name.csv\`" '
        /^#/ { on = index($0, file) }
        on && match($0, /^\| [0-9]+ \| `[^`]*` \| `[^`]*` \|/) { print substr($0, 1, RLENGTH) }
    ' docs/EXAMPLES.md | cmp -s - "$work/rows" || differs "docs/EXAMPLES.md shows another $name"
done
both worked columns >"$work/rows"
sed -n '/^    ctx,service,a,b,c  /,/^$/p' README.md | sed '/^$/d' | cmp -s - "$work/rows" || differs "README.md shows another worked list"
# each line with the account after it, computed in crates/turns/proofs/Pages.antt and shown on the page
awk '
    /^example =$/ { on = 1 }
    /^    \[\]$/ { on = 0 }
    on && sub(/^ *after /, "") {
        gsub(/∷|\[\]|[()]/, " ")
        name = $2
        gsub(/[A-Z]/, "_&", name)
        call = ($1 == "by_task" ? "T" : "I") ",tn" tolower(name)
        for (i = 3; i <= 5; i++) call = call "," (i <= NF - 6 ? $i : "")
        at = NF - 6
        print "`" call "` " $(at + 1) " + " $(at + 2) " = " $(at + 3) " + " $(at + 4) " + " $(at + 5) " + " $(at + 6)
    }
' crates/turns/proofs/Pages.antt >"$work/rows"
awk -F ' [|] ' '/^#/ { on = index($0, "`examples/account.csv`") } on && /^\| [0-9]/ { print $2 " " $4 }' docs/EXAMPLES.md >"$work/page"
[ -s "$work/rows" ] && cmp -s "$work/page" "$work/rows" || differs "docs/EXAMPLES.md shows other accounts than crates/turns/proofs/Pages.antt"

# ---- the words of ./play on the page
# each list that can't be read: its line, its number and the words, first the reason and then the line as it is quoted
for list in examples/mistakes/*.csv; do
    case $(sed 1q "${list%.csv}.answer") in
    -*)
        plays "$list" 1
        awk -v name="$(basename "$list" .csv)" -v answer="$(tr -d '\r\n' <"$work/answer")" '
            NR == 1 { number = $2; sub(/^line [0-9]* can\047t be read: /, ""); reason = $0 }
            NR == 2 && /^    / { quoted = "<br>`" substr($0, 5) "`" }
            END { print "| `" name "` | " number " | `" answer "` | `" reason "`" quoted " |" }
        ' "$work/words"
        ;;
    esac
done >"$work/rows"
awk '/^#/ { on = /Lines that can\047t be read/ } on && /^\| `/ && match($0, /^\| [^|]* \| [^|]* \| [^|]* \| [^|]* \|/) { print substr($0, 1, RLENGTH) }' docs/EXAMPLES.md |
    sort >"$work/page"
sort "$work/rows" | cmp -s - "$work/page" || { differs "docs/EXAMPLES.md has other lines that can't be read: < is right, > on the page"; sort "$work/rows" | diff - "$work/page"; }
# all words on a list, with the status of ./play, as a block of the page
for name in hold-until-key.csv:0 mistakes/clear-of-tnkernel.csv:0 mistakes/refused-calls.csv:0 mistakes/refused-flags.csv:0 mistakes/refused-queues.csv:0 mistakes/point-in-number.csv:1; do
    plays "examples/${name%:?}" "${name#*:}"
    awk '
        FNR == NR { want[NR] = "    " $0; count = NR; next }
        { at = $0 == want[at + 1] ? at + 1 : $0 == want[1] }
        at == count { found = 1 }
        END { exit !found }
    ' "$work/words" docs/EXAMPLES.md || differs "docs/EXAMPLES.md does not show what ./play says of ${name%:?}"
done

finish
