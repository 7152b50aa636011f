#!/bin/sh
# The C headers of include/ under every compiler at hand: C99, C11, C17, C++11 and C++17, any two headers in either order and each twice,
# with no warning; a caller's own run_list beside them; README's program; the version, and the words that a reader must find.
# Needs no archive, so it is the same on every machine. Writes what is wrong; exit status 0 if nothing is.
set -u
LC_ALL=C
export LC_ALL
cd "$(dirname "$0")/.." || exit 2
work=$(mktemp -d) || exit 2
trap 'rm -rf "$work"' EXIT
failed=0
tried=

wrong() {
    echo "headers: $*"
    failed=1
}

# ---- what is compiled
for first in include/*.h; do
    for second in include/*.h; do
        printf '#include "%s"\n#include "%s"\n' "${first#include/}" "${second#include/}" >"$work/$(basename "$first" .h)-$(basename "$second" .h).c"
    done
done

cat >"$work/caller.c" <<'END'
#define GRITGARLAND_NO_RUN_LIST
#include "gritgarland.h"

#if GRITGARLAND_VERSION < 41000
#error "an old header"
#endif

int main(void);
static int run_list(int calls)
{
    return calls + 1;
}

int main(void)
{
    static gritgarland_state board;
    static uint8_t answer[GRITGARLAND_ANSWER_MOST];
    const char *version = GRITGARLAND_VERSION_STRING;
    gritgarland_state s = gritgarland_fresh();
    gritgarland_reply q = gritgarland_call(s, GRITGARLAND_T, GRITGARLAND_EVENT_CREATE, 1, GRITGARLAND_ATTR_NEITHER, 0, 0);
    gritgarland_report r = gritgarland_event_wait(&board, GRITGARLAND_T, 1, 1, GRITGARLAND_OR, GRITGARLAND_ENDLESS);
    switch (r.code) {
    case GRITGARLAND_UNSOUND: return 1;
    case GRITGARLAND_PENDING: r = gritgarland_tick_int_processing(&board, GRITGARLAND_I); break;
    default: break;
    }
    if (gritgarland_wait_code(board.tasks[r.running].code) == GRITGARLAND_TIMEOUT || !gritgarland_is_sound(q.state))
        return 1;
    if (gritgarland_queue_send(&board, GRITGARLAND_T, 1, 77, GRITGARLAND_ENDLESS).code == GRITGARLAND_NO_ERR && board.numbers.elements[1][0] != 77)
        return 1;
    if (gritgarland_ready_ticks(&board, GRITGARLAND_T, 1).value != board.numbers.time - board.tasks[1].entered)
        return 1;
    if (gritgarland_run_list(answer, 0, answer, sizeof answer) == -11)
        return gritgarland_code_name(q.code)[0] == gritgarland_service_name(GRITGARLAND_EVENT_WAIT)[0];
    return run_list(version[0]);
}
END

# README's programs: each block of C that has a main
awk -v folder="$work" '
    /^```c$/ { on = 1; text = ""; next }
    /^```$/ { if (on && text ~ /int main\(/) { programs++; printf "%s", text >(folder "/readme-" programs ".c") } on = 0 }
    on { text = text $0 "\n" }
' README.md
[ -f "$work/readme-1.c" ] || wrong "README.md has no program in C"

# ---- by whom, and how
# compiles COMPILER LANGUAGE STANDARD WARNING..: all of it, without a warning
compiles() {
    compiler=$1 language=$2 standard=$3
    shift 3
    command -v "$compiler" >/dev/null || { echo "headers: $compiler is not at hand"; return 1; }
    "$compiler" -x "$language" "-std=$standard" -O1 -Wall -Wextra -Wpedantic -Wconversion -Wsign-conversion -Wshadow "$@" -Werror -Iinclude -fsyntax-only \
        "$work"/*.c >"$work/said" 2>&1 || { wrong "$compiler -std=$standard"; sed -n 1,12p "$work/said"; }
    tried="$tried $compiler:$standard"
}
for compiler in gcc clang; do
    for standard in c99 c11 c17; do
        compiles "$compiler" c "$standard" -Wmissing-prototypes -Wstrict-prototypes || break
    done
done
for compiler in g++ clang++; do
    for standard in c++11 c++17; do
        compiles "$compiler" c++ "$standard" -Wold-style-cast || break
    done
done
case $tried in *gcc:c17*) ;; *) wrong "gcc is needed" ;; esac

# ---- the version counts the landings after the base
version=$(sed -n 's/^#define GRITGARLAND_VERSION_STRING "\([0-9]*\.[0-9]*\.[0-9]*\)"$/\1/p' include/gritgarland.h)
landings=$(find docs/landings -name '*.md' | wc -l | tr -d ' ')
case $version in
*.$((landings - 1)).*) ;;
*) wrong "version '$version' of include/gritgarland.h, and $landings notes in docs/landings, the base among them" ;;
esac

# ---- what a reader of the headers must find
finds() {
    tr '\n' ' ' <"include/$1" | tr -s ' ' | grep -qF "$2" || wrong "include/$1 does not say: $2"
}
finds gritgarland.h "for x86-64 Linux"
for header in gritgarland.h gritgarland_services.h gritgarland_names.h; do
    finds "$header" "tested and not proved"
done
finds gritgarland_state.h "must be zero, else the state is unsound"
finds gritgarland.h "Look at the code before the running task"
finds gritgarland.h 'the word `forever` is GRITGARLAND_ENDLESS'

[ "$failed" -eq 0 ] && echo "headers: version $version, no warning from$tried"
exit "$failed"
