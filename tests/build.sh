#!/bin/sh
# How ./play builds runlist, and when: in a small tree with a command rt that proves nothing and prints what the real one prints. Holds
# the words about progress, kit and failure to the letter, and that a changed source is never played with the old program.
cd "$(dirname "$0")/.." || exit 1
test=build
. tests/lists.sh
tree=$work/tree
kit=$(sed '/^#/d' tools/kit.txt)

# ---- the tree: runlist needs text and model, and nothing needs other
mkdir -p "$tree/examples" "$tree/crates/model/specs"
cp -R play tools "$tree"
cp examples/round-robin.csv "$tree/examples"
cp crates/model/specs/Services.antt "$tree/crates/model/specs"
printf '%s\n' '# a note: with a colon' 'text:' 'model:' 'other: text' 'runlist: text model anyhow' >"$tree/crates.txt"
for crate in text model other runlist; do
    mkdir -p "$tree/crates/$crate/src" "$tree/crates/$crate/proofs" "$tree/crates/$crate/must-fail"
    echo "// $crate" >"$tree/crates/$crate/src/lib.rt"
done

# ---- its rt: says what the file says has, copies the file makes as out/runlist if there is one, and ends with the number in the file ends;
# if there is a file watched, it waits at the first crate for play's word about it
mkdir "$work/bin"
real=$(command -v rt)
cat >"$work/bin/rt" <<END
#!/bin/sh
case "\$(basename "\$PWD") \$*" in
*' version') cat "$work/version" ;;
*' doc') exec "$real" doc ;;
'runlist run --cpu x86-64')
    echo asked >>"$work/asked"
    while IFS= read -r line; do
        printf '%s\\n' "\$line"
        tries=0
        while [ -f "$work/watched" ] && [ "\$line" = "logic=proved functions=18" ] && [ "\$tries" -lt 9 ]; do
            if grep -Fqx "1 of 3 proved: model" "$work/words"; then rm "$work/watched"; else sleep 1; fi
            tries=\$((tries + 1))
        done
    done <"$work/says"
    [ ! -f "$work/stops" ] || kill -TERM "\$(cat "$work/stops")"
    [ ! -f "$work/makes" ] || { mkdir -p out && cp "$work/makes" out/runlist; }
    exit "\$(cat "$work/ends")"
    ;;
*) exit 9 ;;
esac
END
chmod +x "$work/bin/rt"
path=$work/bin:$PATH
echo "$kit" >"$work/version"

# play STATUS ASKED: plays in the tree; it ends with that status, and rt was asked to check so often
play() {
    : >"$work/asked"
    PATH=$path "$tree/play" "$tree/examples/round-robin.csv" >"$work/played" 2>"$work/words"
    status=$?
    asked=$(wc -l <"$work/asked" | tr -d ' ')
    [ "$status" -eq "$1" ] && [ "$asked" -eq "$2" ] || differs "$what: status $status and rt asked $asked times, not $1 and $2"
    [ "$1" -ne 0 ] || cmp -s "$work/played" examples/round-robin.answer || differs "$what: not the answer of runlist"
    [ "$1" -eq 0 ] || [ ! -s "$work/played" ] || differs "$what: something is written"
}

# what rt says as it proves all three, as it proves two again, and as nothing has changed
all() {
    printf '%s\n' 'rt: chose --jobs 2 for model' 'struct model::Wait: proved' 'library std: modules loaded=0 checked=0' 'crate model: modules loaded=0 checked=90' 'logic=proved functions=18' \
        'note: no function with a body is declared' 'crate text: modules loaded=0 checked=44' 'logic=proved functions=23'
    nothing
}
again() {
    all | sed '/model: /d; /functions=18/d'
}
nothing() {
    printf '%s\n' 'fn runlist::main: proved' 'library text: modules loaded=20 checked=0' 'crate runlist: modules loaded=54 checked=0' 'logic=proved functions=1 target=x86_64-unknown-linux-gnu' \
        'linked target=x86_64-unknown-linux-gnu files=out/runlist.o' 'rt: running out/runlist; to give it other input, run that file yourself' '-11'
}
start() {
    echo "play: runlist must be built first, which proves 3 crates: about 10 minutes on two processors"
    echo "play: it may be stopped with Ctrl-C at any time; the next ./play goes on where it was"
}
seeing() {
    echo "play: seeing whether runlist is built from these sources; what changed is proved again, in a second or in up to 10 minutes"
}

# ---- from nothing
what="the first build"
all >"$work/says"
cp "$runlist" "$work/makes"
echo 0 >"$work/ends"
: >"$work/watched"
play 0 1
{ start && printf '%s\n' "1 of 3 proved: model" "2 of 3 proved: text" "3 of 3 proved: runlist"; } | said "$what"
[ ! -e "$work/watched" ] || differs "$what: progress is not said while rt is at work"
what="the second play"
play 0 0
said "$what" </dev/null

# ---- sources that change: rt is asked, once, and not for what runlist does not need
changes() {
    what="changed: $1"
    nothing >"$work/says"
    play 0 1
    { seeing && echo "3 of 3 proved: runlist"; } | said "$what"
    play 0 0
}
stays() {
    what="not changed: $1"
    play 0 0
    said "$what" </dev/null
}
touch -r "$tree/crates/text/src/lib.rt" "$work/time"
echo "// changed" >>"$tree/crates/text/src/lib.rt"
touch -r "$work/time" "$tree/crates/text/src/lib.rt"
changes "a source, its time being the old one"
echo new >"$tree/crates/model/proofs/New.antt" && changes "a new file of proofs"
mv "$tree/crates/model/proofs/New.antt" "$tree/crates/model/proofs/Other.antt" && changes "a file's name"
rm "$tree/crates/model/proofs/Other.antt" && changes "a file that is gone"
echo new >"$tree/crates/runlist/stdout" && changes "what runlist must print"
echo "walk:" >>"$tree/crates.txt" && changes "crates.txt"
echo >>"$tree/target/bin/runlist" && changes "the program"
rm "$tree/target/runlist.sum" && changes "a program that something else built"
touch "$tree/crates/text/src/lib.rt" && stays "a time alone"
echo "// changed" >>"$tree/crates/other/src/lib.rt" && stays "a crate that runlist does not need"
echo edit >"$tree/crates/text/must-fail/an.edit" && stays "an edit that must fail"
mv "$tree" "$work/moved" && cp -R "$work/moved" "$tree" && stays "a copy of the tree"
mv "$tree/target" "$work/target"
cp -R "$work/moved/target" "$tree"
echo "// changed" >>"$tree/crates/text/src/lib.rt" && changes "a source beside a copied target"

what="one crate proved again"
echo "// changed" >>"$tree/crates/text/src/lib.rt"
again >"$work/says"
play 0 1
{ seeing && printf '%s\n' "1 of 3 proved: text" "3 of 3 proved: runlist"; } | said "$what"

# ---- builds that fail: nothing is played, not even where an older program is there, and the next play asks again
what="a failing proof"
echo "// changed" >>"$tree/crates/text/src/lib.rt"
for line in 1 2 3 4 5 6 7 8 9 10; do echo "line $line"; done >"$work/says"
printf '%s\n' 'src/lib.rt:3:1: error: not proved' 'logic=not-proved' 'rt: the library text did not build, so nothing above it was checked' >>"$work/says"
echo 1 >"$work/ends"
play 2 1
{
    seeing
    echo "play: runlist does not build (rt run in crates/runlist ended with 1); the end of what it said:"
    sed '1d; s/^/    /' "$work/says"
} | said "$what"
# what rt says of the modules that it read is no end of it
sed 's/^logic=/library std: modules loaded=0 checked=0\nstatements core: modules loaded=0 checked=0\nlogic of the kit: libraries=16\n&/' "$work/says" >"$work/longer"
mv "$work/words" "$work/shorter"
mv "$work/longer" "$work/says"
play 2 1
said "$what, at length" <"$work/shorter"
play 2 1
what="a build that leaves no program"
rm -rf "$tree/target" "$work/makes"
all >"$work/says"
echo 0 >"$work/ends"
play 2 1
grep -Fqx "play: runlist does not build (rt run in crates/runlist ended with 0); the end of what it said:" "$work/words" || differs "$what: other words"

# ---- stopped on the way, and two at a time
cp "$runlist" "$work/makes"
what="a build that is stopped"
: >"$work/asked"
PATH=$path sh -c 'echo $$ >"$1"; exec "$2"' sh "$work/stops" "$tree/tools/build-runlist" 2>"$work/words"
[ $? -eq 2 ] && [ ! -e "$tree/target/runlist.sum" ] || differs "$what: it does not end with status 2"
[ "$(sed -n '$p' "$work/words")" = "play: stopped; what is proved stays proved, and the next ./play goes on from there" ] || differs "$what: other words"
rm "$work/stops"
what="a build beside another"
if command -v flock >/dev/null 2>&1; then
    again >"$work/says"
    flock "$tree/target/runlist.lock" sleep 2 &
    sleep 1
    play 0 1
    [ "$(sed -n 1p "$work/words")" = "play: a build of runlist is at work, or the end of one that was stopped: waiting for it" ] || differs "$what: other words"
    wait
fi

# ---- the kit: another version is played with and warned of; none is said, with the version that is needed
what="another kit"
rm -rf "$tree/target"
all >"$work/says"
echo "rattle-kit-9 logic 0" >"$work/version"
play 0 1
[ "$(sed -n 1p "$work/words")" = "play: warning: this is proved with the kit $kit; here rt version says 'rattle-kit-9 logic 0'" ] || differs "$what: other words"
what="no kit"
rm -rf "$tree/target"
mkdir "$work/tools"
for tool in sh awk sed cat rm mkdir mktemp find sort xargs sha256sum dirname wc tr cp; do ln -s "$(command -v $tool)" "$work/tools/$tool"; done
path=$work/tools
play 2 0
echo "play: the Rattle kit is missing: runlist must be built, and there is no command rt; needed is $kit" | said "$what"

finish
