# What tests/examples.sh, tests/play.sh and tests/build.sh share: a folder $work, runlist built, and how a list is played. The caller sets $test, its
# name, sources this file from the repository's top, and ends with `finish`.
set -u
LC_ALL=C
export LC_ALL
runlist=target/bin/runlist
tools/build-runlist >/dev/null 2>&1 || { echo "$test: runlist does not build; tools/build-runlist tells why"; exit 1; }
work=$(mktemp -d) || exit 1
trap 'rm -rf "$work"' EXIT

# a file and no variable, so that it also counts in a pipe
differs() {
    printf '%s\n' "$test: $*" >&2
    : >"$work/wrong"
}

# said WHAT: all that play said is what standard input has
said() {
    cat >"$work/wished"
    cmp -s "$work/words" "$work/wished" && return
    differs "$1: < wanted, > said"
    diff "$work/wished" "$work/words" >&2
}

# plays FILE STATUS: ./play writes what runlist writes, and ends with that status; $work/words has its words
plays() {
    tools/run-x86 "$runlist" <"$1" >"$work/answer" || differs "$1: runlist does not run"
    ./play "$1" >"$work/played" 2>"$work/words"
    status=$?
    cmp -s "$work/answer" "$work/played" || differs "$1: ./play does not write what runlist writes"
    [ "$status" -eq "$2" ] || differs "$1: ./play ends with status $status, not $2"
}

finish() {
    [ ! -e "$work/wrong" ] || exit 1
    echo "$test: all as they must be"
    exit 0
}
