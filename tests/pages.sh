#!/bin/sh
# Holds pages to what they speak of: the map of docs/ARCHITECTURE.md to crates.txt, the names of docs/TRACE.md to the files that it says
# define them, CHANGELOG.md to the header's version, the limits that README.md says to what they are, and the files that pages name.
# Writes what is wrong; exit status 0 if nothing is.
set -u
LC_ALL=C
export LC_ALL
cd "$(dirname "$0")/.." || exit 2
work=$(mktemp -d) || exit 2
trap 'rm -rf "$work"' EXIT
failed=0

wrong() {
    echo "pages: $*"
    failed=1
}

# ---- the map: level, crate with a star if it has no function but theorems, and what it stands on, lowest level first
for crate in crates/*/; do
    name=$(basename "$crate")
    grep -hqE '(^| )fn ' "$crate"src/*.rt || [ "$name" = model ] || echo "$name"
done >"$work/theorems"
awk '
    FNR == NR { star[$1] = "*"; next }
    { sub(/#.*/, "") }
    /:/ {
        name = $1
        sub(/:.*/, "", name)
        sub(/^[^:]*: */, "")
        needs[name] = $0
        order[++count] = name
    }
    function level(name,    part, i, most) {
        if (name in known) return known[name]
        for (i = split(needs[name], part, " "); i > 0; i--) if (part[i] in needs && level(part[i]) > most) most = level(part[i])
        return known[name] = most + 1
    }
    END { for (i = 1; i <= count; i++) print "| " level(order[i]) " | " order[i] star[order[i]] " | " needs[order[i]] " |" }
' "$work/theorems" crates.txt | sed 's/|  |$/| |/' | sort -s -n -k2,2 >"$work/wanted"
awk -F'|' '/^## / { on = $0 == "## The map" } on && /^\| [0-9]/ { print "|" $2 "|" $3 "|" $4 "|" }' docs/ARCHITECTURE.md >"$work/map"
[ "$(wc -l <"$work/wanted")" -gt 30 ] || wrong "crates.txt can't be read"
sed 's/|  |$/| |/' "$work/map" | cmp -s "$work/wanted" - || { wrong "the map of docs/ARCHITECTURE.md: < as crates.txt has it, > as it stands there"; diff "$work/wanted" "$work/map"; }

# ---- docs/TRACE.md: in the second column of its tables a word in backquotes is a file, an edit, or a name that the file before it in its
# cell defines
awk -F'|' '
    /^\|/ && $3 !~ /^ *(where|-+) *$/ {
        n = split($3, part, "`")
        print NR, n % 2 ? "row" : "unpaired"
        for (i = 2; i <= n; i += 2) print NR, "word", part[i]
    }
' docs/TRACE.md >"$work/trace"
[ "$(grep -c ' row$' "$work/trace")" -gt 100 ] || wrong "docs/TRACE.md has not its tables"

# found FILE: where it is, from crates/ or from the top
found() {
    for at in "crates/$1" "$1"; do
        [ ! -f "$at" ] || { echo "$at"; return; }
    done
}

# defines FILE NAME: a line begins with the name, behind words such as pub and fn; in other files than sources it is a word of a line
defines() {
    case $1 in
    *.antt | *.rt)
        awk -v name="$2" '
            {
                sub(/^ +/, "")
                while (sub(/^(pub|pub\(crate\)|abbrev|unfoldable|data|record|fn|extern "C"|struct|enum|const|type) +/, "")) continue
                if (index($0, name) == 1 && substr($0, length(name) + 1, 1) !~ /[A-Za-z0-9_#-]/) { there = 1; exit }
            }
            END { exit !there }
        ' "$1"
        ;;
    *) grep -qw -e "$2" "$1" ;;
    esac
}

names=0
while read -r line what word; do
    where="docs/TRACE.md, line $line"
    case $what:$word in
    row:) file= ;;
    unpaired:) wrong "$where: a backquote without its other" ;;
    word:*/*)
        at=$(found "$word")
        if [ -n "$at" ]; then
            file=$at
        else
            [ -f "crates/${word%%/*}/must-fail/${word#*/}.edit" ] || wrong "$where: there is no file and no edit $word"
        fi
        ;;
    *)
        names=$((names + 1))
        [ -n "$file" ] || wrong "$where: no file is named before $word"
        [ -z "$file" ] || defines "$file" "$word" || wrong "$where: $file does not define $word"
        ;;
    esac
done <"$work/trace"

# ---- CHANGELOG.md: newest first, the first of the header's version, one entry a landing
version=$(sed -n 's/^#define GRITGARLAND_VERSION_STRING "\(.*\)"$/\1/p' include/gritgarland.h)
sed -n 's/^## \([0-9]*\.[0-9]*\.[0-9]*\)[: ].*/\1/p' CHANGELOG.md >"$work/versions"
[ "$(sed 1q "$work/versions")" = "$version" ] || wrong "CHANGELOG.md begins with '$(sed 1q "$work/versions")', the header has '$version'"
sort -t. -k1,1nr -k2,2nr -k3,3nr "$work/versions" | cmp -s - "$work/versions" || wrong "CHANGELOG.md is not newest first"
for note in docs/landings/*.md; do
    grep -qF "\`$note\`" CHANGELOG.md || wrong "CHANGELOG.md does not name $note"
done

# ---- limits: counted from the shortest call and from a tick, or as the headers have them, and said by the pages
thousands() {
    echo "$1" | sed 's/\(.*[0-9]\)\([0-9]\{3\}\)$/\1,\2/'
}
constant() {
    thousands "$(sed -n "s/.*$1 *[=]* \([0-9]*\).*/\1/p" "$2")"
}
# most HEADER LINE: how many such lines a file has room for, the last without its line end
most() {
    thousands $(((65536 - ${#1}) / (${#2} + 1)))
}
# says PAGE WORDS: over the ends of lines too
says() {
    tr '\n' ' ' <"$1" | tr -s ' ' | grep -qF -e "$2" || wrong "$1 does not say: $2"
}
for page in README.md docs/SERVICES.md; do
    says "$page" "at most $(constant GRITGARLAND_FILE_MOST include/gritgarland.h) bytes"
    says "$page" "$(most ctx,service,a,b,c T,tn_task_exit,,,) calls"
    says "$page" "$(most ctx,service,a,b,c,d T,tn_task_exit,,,,) with six fields a line"
    says "$page" "at most $(most ctx,service,a,b,c I,tn_tick_int_processing,,,) ticks"
    says "$page" "lines end in CRLF"
    says "$page" "where nothing waits"
done
says README.md "at most $(constant GRITGARLAND_ANSWER_MOST include/gritgarland.h) bytes"
says README.md "A state has $(constant 'sizeof(gritgarland_state)' include/gritgarland_state.h) bytes"
# in KB, as docs/PERFORMANCE.md has it in bytes
stack() {
    sed -n "s/^| \`$1\` | \([0-9]*\),\([0-9]*\) |.*/\1\2/p" docs/PERFORMANCE.md | awk '{ print int(($1 + 500) / 1000) }'
}
says README.md "A call takes some $(stack gritgarland_call_in_place) KB of stack, a list $(stack run_list) KB"

# ---- files that the pages name; what a build makes is under target/
for page in README.md CHANGELOG.md docs/ARCHITECTURE.md docs/SERVICES.md docs/TRACE.md docs/PROMISES.md docs/BOARD.md docs/PERFORMANCE.md; do
    awk -F'`' '{ for (i = 2; i <= NF; i += 2) if ($i ~ /^(crates|docs|examples|include|tests|tools)\/[A-Za-z0-9_.\/-]*$/ || $i ~ /^[A-Z]+\.md$/) print $i }' "$page" | sort -u |
        while read -r file; do
            [ -e "$file" ] || echo "$page names $file, which is not there"
        done
done >"$work/missing"
[ ! -s "$work/missing" ] || { wrong "files that are gone"; cat "$work/missing"; }

[ "$failed" -eq 0 ] && echo "pages: $(wc -l <"$work/wanted" | tr -d ' ') crates on the map, $names names traced to their definitions, version $version in the changelog"
exit "$failed"
