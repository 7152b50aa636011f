#!/bin/sh
# Holds the reasons of ./play (tools/reasons.awk) to the proved reader: a line that it refuses always gets a reason, and one that it reads
# never does. Lines of every service with right and wrong fields, with every small edit, and with every byte value at every place. The word
# for the endless timeout, and what is nearly it, is tried in every field of every service.
set -u
LC_ALL=C
export LC_ALL
cd "$(dirname "$0")/.." || exit 1
work=$(mktemp -d) || exit 1
trap 'rm -rf "$work"' EXIT
wrong=0
asked=0
refused=0

tools/build-c tests/reasons/reader.c "$work/reader" || { echo "reasons: the asking program does not build"; exit 1; }
awk -f tools/services.awk crates/model/specs/Services.antt >"$work/services" || exit 1

reader() {
    tools/run-x86 "$work/reader" "$@" && return
    echo "reasons: reader $* does not run" >&2
    return 1
}

# ask FILE AS [open]: the lines of the file, by the proved reader and by the reasons
ask() {
    reader "$2" ${3-} <"$1" >"$work/reads" || wrong=1
    awk -v as="$2" -v open="${3+1}" -f tools/reasons.awk "$work/services" "$work/shown" >"$work/reasons"
    sed 's/ .*//' "$work/reasons" >"$work/says"
    count=$(wc -l <"$1")
    missed=$(wc -l <"$work/reads")
    asked=$((asked + count))
    refused=$((refused + missed))
    # a set of lines of which all or none can be read shows nothing
    [ "$missed" -gt 0 ] && [ "$missed" -lt "$count" ] || { echo "reasons: $missed of $count lines refused as $*"; wrong=1; }
    cmp -s "$work/reads" "$work/says" && return
    wrong=1
    echo "reasons: as $2${3+, the end of the file}: < refused and without a reason, > read and with one"
    diff "$work/reads" "$work/says" | sed -n 's/^\([<>]\) \(.*\)/\1 \2/p' | sed 5q | while read -r side number; do
        sed -n "${number}s/^./$side [/p" "$work/shown" | sed 's/$/]/'
        sed -n "s/^$number /    /p" "$work/reasons"
    done
}

# lines WIDE: every service in both contexts; each field with numbers good and bad; fields blank, filled, too few and too many
lines() {
    awk -v wide="$1" '
        BEGIN {
            room = wide ? 4 : 3
            count = split("0 00 01 1 7 10 65535 65.535 4294967294 4294967295 4294967296 4294967305 4294967300 5000000000 9999999999 04294967295 10000000000 " \
                "42949672950 18446744073709551615 18446744073709551616 18446744073709551617 99999999999999999999 -1 +1 1. .1 1e3 0x10 1_0 \\1 a T " \
                "forever Forever FOREVER foreveR foreve orever forevers forever1 1forever forever4294967295 forever\t forever\r \"forever\" -forever for;ever endless", tried, " ")
            count++
            for (k = 0; k < 300; k++) tried[count] = tried[count] "9"
            tried[++count] = " 1"
            tried[++count] = "1 "
            tried[++count] = " forever"
            tried[++count] = "forever "
            tried[++count] = "for ever"
            tried[++count] = "\"1\""
            tried[++count] = " "
            tried[++count] = ""
        }
        {
            takes = NF - 2
            good(); put($2 "," $1, room)
            good(); put(($2 == "T" ? "I" : "T") "," $1, room)
            good(); put(tolower($2) "," $1, room)
            good(); put($2 "," toupper($1), room)
            good(); put($2 "," substr($1, 4), room)
            good(); put($2 " ," $1, room)
            good(); put("\"" $2 "\",\"" $1 "\"", room)
            for (n = 0; n <= 6; n++) { good(); put($2 "," $1, n) }
            for (i = 1; i <= room; i++) for (k = 1; k <= count; k++) { good(); value[i] = tried[k]; put($2 "," $1, room) }
        }
        function good(    i) { for (i = 1; i <= 6; i++) value[i] = i <= takes ? i : "" }
        function put(start, n,    i) {
            for (i = 1; i <= n; i++) start = start "," value[i]
            print start
        }
    ' "$work/services"
    awk -v header="ctx,service,a,b,c" 'BEGIN { print header; print header ",d"; print "T"; print ","; print "x"; print "# a note"; print "T;tn_task_exit;;;"; print "T,ready_ticks,1,,"; print "T,ready_ticks,1,,," }'
}

# right WIDE: one readable line of each service that has room, and with the word for its timeout another
right() {
    awk -v room="$((3 + $1))" '
        NF - 2 <= room {
            print line("")
            if (/ timeout/) print line("timeout")
        }
        function line(worded,    all, i) {
            all = $2 "," $1
            for (i = 3; i <= room + 2; i++) all = all "," (i > NF ? "" : $i == worded ? "forever" : 10 * i)
            return all
        }
    ' "$work/services"
}

for wide in 0 1; do
    [ "$wide" -eq 0 ] && as=five || as=six
    right "$wide" >"$work/right"
    [ "$(grep -c forever "$work/right")" -ge "$((2 + wide))" ] || { echo "reasons: fewer than $((2 + wide)) lines with the word"; wrong=1; }
    more=$([ "$wide" -eq 0 ] || echo ,)
    {
        lines "$wide"
        reader edits <"$work/right" || wrong=1
        printf '%s\n' "T,tn_task_sleep,10,,$more" "I,tn_sem_isignal,4294967295,,$more" "T,tn_sem_acquire,1,forever,$more" | reader bytes || wrong=1
    } >"$work/lines"
    od -An -v -tx1 <"$work/lines" | awk -f tools/shown.awk >"$work/shown"
    ask "$work/lines" "$as"
    ask "$work/lines" "$as" open
done

{
    printf '%s\n' ctx,service,a,b,c ctx,service,a,b,c,d | reader bytes || wrong=1
    printf '%s\n' ctx,service,a,b,c ctx,service,a,b,c,d CTX,SERVICE,A,B,C 'ctx;service;a;b;c' ctx,service,a,b ctx,service,a,b,c, ctx,service,a,b,c,d,e a,b,c ctx
    cat "$work/right"
} >"$work/lines"
od -An -v -tx1 <"$work/lines" | awk -f tools/shown.awk >"$work/shown"
ask "$work/lines" header
ask "$work/lines" header open

[ "$wrong" -eq 0 ] || exit 1
echo "reasons: $asked lines asked of the proved reader, $refused refused; each of these has its reason, and no other has one"
