#!/bin/sh
# The one table of services, crates/model/specs/Services.antt (name, context, fields; a service's number is its row), and the codes of
# Code.antt beside it, against what says them again: the constants, functions and names of the headers in include/, the tables of
# docs/SERVICES.md, the timeouts of ./play and of the page. Writes what differs; exit status 0 if nothing does.
set -u
LC_ALL=C
export LC_ALL
cd "$(dirname "$0")/.." || exit 2
work=$(mktemp -d) || exit 2
trap 'rm -rf "$work"' EXIT
table=crates/model/specs/Services.antt
codes=crates/model/specs/Code.antt
header=include/gritgarland.h
functions=include/gritgarland_services.h
names=include/gritgarland_names.h
page=docs/SERVICES.md
failed=0

# same WHAT: the two lists in $work/is and $work/wanted
same() {
    if cmp -s "$work/wanted" "$work/is"; then return; fi
    echo "services: $1: < as the table has it, > as it stands there"
    diff "$work/wanted" "$work/is"
    failed=1
}

# ---- the table: number, name, context, and a word for each field, as `1 tn_task_create T task priority option`; the library's own services
# are in no list, and all others have names of document 000, which begin with tn_
grep -q '^services = tasks ++ (system ++ (semaphores ++ (flags ++ (own ++ queues))))$' "$table" || { echo "services: the parts of $table stand in another order"; exit 1; }
awk '
    /^( *(∷ )?|[a-z]+ = )(a_service "tn_|own_service "[a-z])/ {
        split($0, quoted, "\"")
        rest = quoted[3]
        line = ++number " " quoted[2] " " substr(rest, 2, 1)
        if (rest !~ /^ [TI] (\[\]|\()/) line = line " no-context"
        if (rest ~ /^ [TI] \(/) {
            sub(/^ [TI] \(/, "", rest)
            sub(/ ∷ \[\]\).*/, "", rest)
            for (i = 1; i <= split(rest, kind, " ∷ "); i++) line = line " " (kind[i] ~ /^the_[a-z]+$/ ? substr(kind[i], 5) : "no-word-for-" kind[i])
        }
        print line
    }
' "$table" >"$work/table"
[ "$(wc -l <"$work/table")" -eq 41 ] || { echo "services: $table has not 41 rows that can be read"; exit 1; }
awk '$2 !~ /^tn_/ { print $2 }' "$work/table" >"$work/own"
[ "$(grep -c 'own_service "[a-z]' "$table")" -eq "$(wc -l <"$work/own")" ] || { echo "services: a row of $table is not in its part, or not named as those of its part"; exit 1; }

# ---- the header's constants
awk '{ sub(/^tn_/, "", $2); print "GRITGARLAND_" toupper($2), $1 }' "$work/table" >"$work/wanted"
awk '
    /---- services/ { on = 1 }
    on && /^};/ { exit }
    on && /^ *GRITGARLAND_/ { sub(/\/\*.*/, ""); gsub(/[=,]/, " "); print $1, $2 }
' "$header" >"$work/is"
same "the constants of $header"

# ---- the header's functions: their parameters, and that these go on in their order with 0 for the rest; the bits that a set or a
# clear takes are a pattern in the table, and the word of a parameter is free there
awk '
    {
        sub(/^tn_/, "", $2)
        line = "gritgarland_" $2
        for (i = 4; i <= NF; i++) line = line " " ($i == "pattern" ? "bits" : $i)
        line = line " : GRITGARLAND_" toupper($2)
        for (i = 4; i <= 7; i++) line = line " " (i > NF ? 0 : $i == "pattern" ? "bits" : $i)
        print line
    }
' "$work/table" >"$work/wanted"
awk '
    /^static inline gritgarland_report / {
        sub(/^static inline gritgarland_report /, "")
        if ($0 !~ /^[a-z_]*\(gritgarland_state \*state, uint32_t context[,)]/) print "no state and context: " $0
        sub(/\(gritgarland_state \*state, uint32_t context,?/, " ")
        gsub(/uint32_t|[,)]/, " ")
        line = words($0)
    }
    /^ *return gritgarland_call_in_place\(state, context, / && line != "" {
        sub(/^ *return gritgarland_call_in_place\(state, context, /, "")
        gsub(/[,);]/, " ")
        print line " : " words($0)
        line = ""
    }
    function words(s,    n, i, part, all) {
        n = split(s, part, " ")
        for (i = 1; i <= n; i++) all = all (i > 1 ? " " : "") (part[i] == "pattern" ? "bits" : part[i])
        return all
    }
' "$functions" >"$work/is"
same "the functions of $functions"

# ---- the names that the header gives: of every number from -400 to 400, by a program
cat >"$work/names.c" <<'END'
#include "gritgarland.h"
#include "libc.h"

int main(void)
{
    for (int32_t n = -400; n <= 400; n++)
        printf("code %d %s\n", (int)n, gritgarland_code_name(n));
    for (uint32_t n = 0; n <= 400; n++)
        printf("service %u %s\n", (unsigned)n, gritgarland_service_name(n));
    printf("service far %s\n", gritgarland_service_name(UINT32_MAX));
    return 0;
}
END
gcc -std=c99 -Iinclude -Itests/c "$work/names.c" -o "$work/names" && "$work/names" >"$work/named" || { echo "services: the names of $names can't be printed"; exit 1; }
awk '
    { name[$1] = $2 }
    END {
        for (i = 0; i <= 400; i++) print "service", i, (i in name ? name[i] : "no such service")
        print "service far no such service"
    }
' "$work/table" >"$work/wanted"
grep '^service' "$work/named" >"$work/is"
same "the services' names of $names"

# ---- the codes: number and name as the definitions have them, without case and underscores there
awk '
    function plain(s) { gsub(/_/, "", s); return toupper(s) }
    /^number [A-Z]/ { print ($4 == "pos" ? $5 : $4 == "negsuc" ? -($5 + 1) : $4 == "minus" ? -$5 : "no-number-in-" $4), plain($2) }
' "$codes" | sort -n >"$work/codes"
[ "$(wc -l <"$work/codes")" -eq 12 ] || { echo "services: $codes has not 12 codes that can be read"; exit 1; }
awk '
    /---- codes/ { on = 1 }
    on && /^};/ { exit }
    on && /^ *GRITGARLAND_/ { gsub(/[=,]/, " "); sub(/^GRITGARLAND_/, "", $1); print $2, $1 }
' "$header" | sort -n >"$work/constants"
cp "$work/codes" "$work/wanted"
tr -d _ <"$work/constants" >"$work/is"
same "the codes of $header"

awk '
    { name[$1] = $2 }
    END { for (i = -400; i <= 400; i++) print "code", i, (i in name ? name[i] : "no such code") }
' "$work/constants" >"$work/wanted"
grep '^code' "$work/named" >"$work/is"
same "the codes' names of $names"

cp "$work/constants" "$work/wanted"
awk -F'|' '
    /^## / { on = $0 == "## Codes" }
    on && /^\| -?[0-9]+ \|/ { gsub(/ /, "", $2); gsub(/ /, "", $3); print $2, $3 }
' "$page" | sort -n >"$work/is"
same "the codes of $page"

# ---- the page: the services with their numbers, and the context that each refuses
awk '{ line = $1 " " $2 " " $3; for (i = 4; i <= 7; i++) line = line " | " ($i == "pattern" ? "bits" : $i); print line }' "$work/table" >"$work/wanted"
awk -F'|' '
    /^## / { on = $0 == "## The services" }
    on && /^\| [0-9]+ \| `/ {
        gsub(/`/, "")
        line = cell($2) " " cell($3) " " cell($4)
        for (i = 5; i <= 8; i++) line = line " | " (cell($i) == "pattern" ? "bits" : cell($i))
        print line
    }
    function cell(s) { sub(/^ */, "", s); sub(/,.*/, "", s); sub(/ *$/, "", s); return s }
' "$page" >"$work/is"
same "the services of $page"

cp "$work/own" "$work/wanted"
awk -F'|' '/^## / { on = $0 == "## The services" } on && /^\| [0-9]+ \| `[a-z_]*`, in no list / { gsub(/ |`|, *in no list/, "", $3); print $3 }' "$page" >"$work/is"
same "the services that $page says are in no list"

awk '{ print $2, "in", ($3 == "T" ? "I" : "T") }' "$work/table" >"$work/wanted"
awk -F'|' '
    /^## / { on = $0 == "## Which service answers which code, and when" }
    on && /^\| `/ { gsub(/[ `]*/, "", $2); sub(/^ */, "", $5); sub(/ *$/, "", $5); print $2, $5 }
' "$page" >"$work/is"
same "the contexts that $page says are refused"

# ---- the page: where the word for the endless wait may stand
awk '{ for (i = 4; i <= NF; i++) if ($i == "timeout") print substr("abcd", i - 3, 1) " of `" $2 "`" }' "$work/table" >"$work/wanted"
[ "$(wc -l <"$work/wanted")" -ge 5 ] || { echo "services: $table has fewer than 5 timeouts"; failed=1; }
tr '\n' ' ' <"$page" | tr -s ' ' | sed 's/.* The timeouts are \([^.]*\)\..*/\1/' | awk '{ gsub(/ and |, /, "\n"); print }' >"$work/is"
same "the timeouts of $page"

# ---- the table as ./play reads it, by tools/services.awk: those that a list may hold
sed -n 's/^[0-9]* \(tn_.*\)/\1/p' "$work/table" >"$work/wanted"
awk -f tools/services.awk "$table" >"$work/is" || failed=1
same "the table that ./play reads"

[ "$failed" -eq 0 ] && echo "services: the header, the page and ./play say what the table says"
exit "$failed"
