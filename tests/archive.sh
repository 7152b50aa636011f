#!/bin/sh
# The static library as a C program meets it: what it exports, needs and keeps; that it can be linked into every kind of program; that
# tools/install puts it where pkg-config finds it, beside a caller's own run_list too, and refuses in words. The archive is for x86-64 Linux:
# elsewhere only that refusal is looked at. Writes what is wrong; exit status 0 if nothing is.
set -u
LC_ALL=C
export LC_ALL
cd "$(dirname "$0")/.." || exit 2
archive=$PWD/target/staticlib/libgritgarland.a
work=$(mktemp -d) || exit 2
trap 'rm -rf "$work"' EXIT
failed=0

wrong() {
    echo "archive: $*"
    failed=1
}

skipped() {
    echo "archive: $* is not at hand"
}

# a tree of its own, with what tools/install takes from this one
tree=$work/tree
mkdir -p "$tree/tools" "$tree/target/staticlib" "$work/bin" && cp -R include "$tree/" && cp tools/install "$tree/tools/" && cp "$archive" "$tree/target/staticlib/" || exit 1

# refuses STATUS WORDS ARGUMENT..: the installation does, and writes nothing
refuses() {
    status=$1 words=$2
    shift 2
    "$tree/tools/install" "$@" >"$work/said" 2>&1
    got=$?
    [ "$got" -eq "$status" ] || wrong "tools/install $*: status $got, not $status"
    grep -qF -e "$words" "$work/said" || { wrong "tools/install $* does not say: $words"; cat "$work/said"; }
    [ ! -e "$work/none" ] || wrong "tools/install $* is refused and writes"
}

printf '#!/bin/sh\ncase $1 in -s) echo Linux ;; *) echo aarch64 ;; esac\n' >"$work/bin/uname"
chmod +x "$work/bin/uname"
here=$PATH
PATH=$work/bin:$here
refuses 1 "for x86-64 Linux" "$work/none"
PATH=$here
if [ "$(uname -s) $(uname -m)" != "Linux x86_64" ]; then
    refuses 1 "for x86-64 Linux" "$work/none"
    [ "$failed" -eq 0 ] && echo "archive: it can't be linked on this machine, and tools/install says so"
    exit "$failed"
fi

# ---- what it exports, needs and keeps
declared=$(sed -n 's/^[a-z][a-z0-9_]* \([a-z_]*\)(.*);$/\1/p' include/gritgarland.h | sort)
if nm "$archive" >"$work/symbols" 2>/dev/null && size "$archive" >"$work/sizes" 2>/dev/null; then
    exported=$(awk 'NF == 3 && $2 ~ /^[A-Z]$/ { print $3 }' "$work/symbols" | sort)
    [ "$exported" = "$declared" ] || wrong "it exports [$(echo $exported)], the header declares [$(echo $declared)]"
    needed=$(awk 'NF == 2 && $1 == "U" { print $2 }' "$work/symbols" | sort | tr '\n' ' ')
    [ "$needed" = "memcpy memset " ] || wrong "it needs [$needed], not memcpy and memset"
    awk 'NF == 3 && $2 ~ /^[bBcCdDgGsS]$/ { found = 1; print "archive: it keeps " $3 } END { exit found }' "$work/symbols" || failed=1
    awk 'NR > 1 && ($2 != 0 || $3 != 0) { found = 1 } END { exit found || NR < 2 }' "$work/sizes" || wrong "it has data that can be written"
    symbols="exports what the header declares, keeps nothing, "
else
    symbols=
    skipped "nm or size"
fi

# ---- linked into every kind of program
cat >"$work/caller.c" <<'END'
#include "gritgarland.h"
int called(void);
int called(void)
{
    static const char list[] = "ctx,service,a,b,c\nT,tn_task_create,1,5,1\n";
    uint8_t answer[64];
    gritgarland_state s = gritgarland_fresh();
    gritgarland_reply q = gritgarland_call(s, GRITGARLAND_T, GRITGARLAND_TASK_CREATE, 1, 5, 1, 0);
    gritgarland_report r = gritgarland_task_create(&s, GRITGARLAND_T, 1, 5, 1);
    int64_t n = gritgarland_run_list((const uint8_t *)list, sizeof list - 1, answer, sizeof answer);
    int64_t m = run_list((const uint8_t *)list, sizeof list - 1, answer, sizeof answer);
    return q.running == 1 && r.running == 1 && n == 23 && m == 23 && answer[20] == '1' && gritgarland_is_sound(s) && gritgarland_wait_code(4) == -4;
}
END
cat >"$work/main.c" <<'END'
int called(void);
int main(void)
{
    return called() ? 0 : 1;
}
END
# links COMPILER WHAT FLAG..: the program builds and runs
links() {
    compiler=$1 what=$2
    shift 2
    "$compiler" -std=c99 -O1 -Iinclude "$@" -o "$work/program" >"$work/said" 2>&1 || { wrong "$compiler: $what does not link"; cat "$work/said"; return; }
    LD_LIBRARY_PATH=$work "$work/program" || wrong "$compiler: $what does not run as it must"
}
echo 'int main(void) { return 0; }' >"$work/plain.c"
for compiler in gcc clang; do
    command -v "$compiler" >/dev/null || { skipped "$compiler"; continue; }
    links "$compiler" "a PIE" -fPIE -pie "$work/main.c" "$work/caller.c" "$archive"
    links "$compiler" "a program that is no PIE" -fno-pie -no-pie "$work/main.c" "$work/caller.c" "$archive"
    if "$compiler" -static "$work/plain.c" -o "$work/plain" 2>/dev/null; then
        links "$compiler" "a static program" -static "$work/main.c" "$work/caller.c" "$archive"
    else
        skipped "a static C library for $compiler"
    fi
    if "$compiler" -std=c99 -Iinclude -fPIC -shared -Wl,-z,text -Wl,-z,defs "$work/caller.c" "$archive" -o "$work/libcaller.so" >"$work/said" 2>&1; then
        links "$compiler" "a shared object" "$work/main.c" -L"$work" -lcaller
    else
        wrong "$compiler: a shared object does not link"
        cat "$work/said"
    fi
done

# ---- installed
refuses 2 "usage: tools/install PREFIX"
refuses 2 "usage: tools/install PREFIX" --help
refuses 2 "usage: tools/install PREFIX" "$work/none" more
refuses 1 "white space" "$work/none "
mkdir "$work/closed" && : >"$work/closed/include"
refuses 1 "can't write under $work/closed" "$work/closed"
rm "$tree/target/staticlib/libgritgarland.a"
refuses 1 "tools/build-lib" "$work/none"
if command -v objcopy >/dev/null && command -v nm >/dev/null; then
    objcopy --redefine-sym gritgarland_wait_code=other "$archive" "$tree/target/staticlib/libgritgarland.a"
    refuses 1 "has no gritgarland_wait_code" "$work/none"
else
    skipped "objcopy or nm"
fi
cp "$archive" "$tree/target/staticlib/"

prefix=$work/usr
"$tree/tools/install" "$prefix" >"$work/said" 2>&1 || { wrong "tools/install $prefix"; cat "$work/said"; }
DESTDIR=$work/package "$tree/tools/install" "$work/none" >"$work/said" 2>&1 || { wrong "tools/install with DESTDIR"; cat "$work/said"; }
package=$work/package$work/none
grep -qx "prefix=$work/none" "$package/lib/pkgconfig/gritgarland.pc" && [ ! -e "$work/none" ] || wrong "DESTDIR is not where a package goes, or stands in its prefix"
for file in include/*.h; do
    cmp -s "$file" "$prefix/$file" && cmp -s "$file" "$package/$file" || wrong "$file is not installed"
done
version=$(sed -n 's/^#define GRITGARLAND_VERSION_STRING "\(.*\)"$/\1/p' include/gritgarland.h)
pc=$prefix/lib/pkgconfig/gritgarland.pc
if command -v pkg-config >/dev/null; then
    flags() { PKG_CONFIG_PATH=$prefix/lib/pkgconfig pkg-config "$@" gritgarland; }
    [ "$(flags --modversion)" = "$version" ] || wrong "pkg-config says version $(flags --modversion), the header $version"
    cflags=$(flags --cflags) libs=$(flags --libs)
else
    skipped "pkg-config"
    read_field() { sed -n "s/^$1: //p" "$pc" | sed "s|\${includedir}|$prefix/include|; s|\${libdir}|$prefix/lib|"; }
    [ "$(read_field Version)" = "$version" ] || wrong "gritgarland.pc has another version than the header"
    cflags=$(read_field Cflags) libs=$(read_field Libs)
fi

# README's program prints what it says that it prints
awk '/^```c$/ { on = 1; text = ""; next } /^```$/ { if (on && text ~ /int main\(/) { printf "%s", text; exit } on = 0 } on { text = text $0 "\n" }' README.md >"$work/readme.c"
sed -n 's|.*/\* prints: \(.*\) \*/.*|\1|p' "$work/readme.c" >"$work/prints"
[ -s "$work/prints" ] || wrong "README.md's program does not say what it prints"

# a program with a run_list of its own, and one that calls the library's by its first name
cat >"$work/own.c" <<'END'
#define GRITGARLAND_NO_RUN_LIST
#include "gritgarland.h"
int run_list(int calls);
int run_list(int calls)
{
    return calls + 1;
}
int main(void)
{
    uint8_t answer[64];
    return run_list(40) == 41 && gritgarland_run_list((const uint8_t *)"ctx,service,a,b,c", 17, answer, sizeof answer) == 16 && answer[0] == 'n' ? 0 : 1;
}
END
# installed COMPILER LANGUAGE PROGRAM WHAT: it builds with the installed files alone
installed() {
    "$1" -x "$2" -O1 $cflags "$work/$3.c" -x none $libs -o "$work/program" >"$work/said" 2>&1 || { wrong "$1: $4 does not link"; cat "$work/said"; return; }
    "$work/program" >"$work/printed" || wrong "$1: $4 does not run as it must"
}
cat "$work/caller.c" "$work/main.c" >"$work/first.c"
for row in gcc:c clang:c g++:c++ clang++:c++; do
    compiler=${row%:*}
    command -v "$compiler" >/dev/null || { skipped "$compiler"; continue; }
    installed "$compiler" "${row#*:}" readme "README.md's program"
    cmp -s "$work/prints" "$work/printed" || wrong "$compiler: README.md's program prints [$(cat "$work/printed")]"
    installed "$compiler" "${row#*:}" own "a program with its own run_list"
    installed "$compiler" "${row#*:}" first "a program that calls run_list"
done

[ "$failed" -eq 0 ] && echo "archive: $version ${symbols}links into every kind of program, and installs"
exit "$failed"
