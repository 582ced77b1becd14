#!/usr/bin/env bash
# How launch-check builds its program: that it says at once what it does, shows each crate, lets two calls wait for each other and works
# through a link. A stand-in for rt is on the path, which proves nothing and writes a program that always permits.
set -euo pipefail
top=$(cd "$(dirname "$0")/.." && pwd)
folder=$(mktemp -d)
trap 'rm -rf "$folder"' EXIT
mkdir -p "$folder/repository/crates/one/src" "$folder/repository/crates/launch_check" "$folder/bin" "$folder/elsewhere"
cp "$top/launch-check" "$folder/repository/"
cd "$folder/repository"
echo "one:" >crates.txt
program=crates/launch_check/out/launch_check
echo "a capture" >capture
export FOLDER=$folder PATH=$folder/bin:$PATH

cat >"$folder/bin/rt" <<'END'
#!/usr/bin/env bash
# Fails where another one runs. It waits until what it said is where its caller shows it.
echo run >>"$FOLDER/runs"
mkdir "$FOLDER/running" || { echo "two at once" >>"$FOLDER/faults"; exit 1; }
[ ! -e "$FOLDER/broken" ] || { rmdir "$FOLDER/running"; echo "error: why"; exit 1; }
[ "$* in $(basename "$PWD")" = "run in launch_check" ] || echo "rt was called as: $* in $PWD" >>"$FOLDER/faults"
grep -q minutes "$FOLDER/err" || echo "nothing was said before rt was called" >>"$FOLDER/faults"
for line in "rt: chose --jobs 2 for one" "checked one::f, 1 of 2" "fn one::f: proved" "rt: two: begins with what a check kept in three"; do
    echo "$line" >&2
done
for wait in $(seq 50); do
    grep -q "proving two" "$FOLDER/err" && break
    sleep 0.1
done
for name in one two; do
    [ "$(grep -c "proving $name" "$FOLDER/err")" -eq 1 ] || echo "a crate was not shown when it was proved" >>"$FOLDER/faults"
done
[ ! -e "$FOLDER/edit" ] || { rm "$FOLDER/edit"; sleep 0.1; touch ../one/src/lib.rt; }
sleep 1
mkdir -p out
printf '#!/bin/sh\ncat >/dev/null\necho "permitted pages=1 list=255"\n' >out/launch_check
chmod +x out/launch_check
rmdir "$FOLDER/running"
out/launch_check
END
chmod +x "$folder/bin/rt"

fail() {
    echo "launch_check: $1" >&2
    [ ! -s "$folder/err" ] || cat "$folder/err" >&2
    exit 1
}

# status EXPECTED WORDS..: calls launch-check.
status() {
    local expected=$1 got=0
    shift
    ./launch-check "$@" >"$folder/out" 2>"$folder/err" || got=$?
    [ "$got" -eq "$expected" ] || fail "status $got and not $expected for: $*"
}

# running: waits until rt runs.
running() {
    local wait
    for wait in $(seq 50); do
        [ ! -e "$folder/running" ] || return 0
        sleep 0.1
    done
}

# Two calls at once: both answer, rt runs once, and the later one says that it waits.
: >"$folder/err"
./launch-check capture >"$folder/out" 2>"$folder/err" &
first=$!
running
./launch-check capture >"$folder/out2" 2>"$folder/err2" || fail "the second call failed: $(cat "$folder/err2")"
wait "$first" || fail "the first call failed"
[ ! -e "$folder/faults" ] || fail "$(cat "$folder/faults")"
[ "$(cat "$folder/out")" = "permitted pages=1 list=255" ] || fail "no answer of the first call"
cmp -s "$folder/out" "$folder/out2" || fail "no answer of the second call"
if command -v flock >/dev/null; then
    [ "$(wc -l <"$folder/runs")" -eq 1 ] || fail "rt was called more than once"
    grep -q waiting "$folder/err2" || fail "the second call does not say that it waits"
fi
! grep -q "fn one::f" "$folder/err" || fail "more than the crates is shown"

# What is built is not built again, and then nothing is said.
status 0 capture
[ ! -s "$folder/err" ] || fail "something is said where nothing is built"

# Through a link, from another folder, with a relative name.
ln -s ../repository/launch-check "$folder/elsewhere/check"
cp capture "$folder/elsewhere/mine"
(cd "$folder/elsewhere" && ./check mine) >"$folder/out" 2>"$folder/err" || fail "not through a link"
[ ! -e "$folder/elsewhere/target" ] || fail "the sources are looked for where the link stands"

# A call that is killed: its rt goes on, and the next call waits for it.
if command -v flock >/dev/null; then
    rm "$program" "$folder/runs"
    : >"$folder/err"
    ./launch-check capture >"$folder/out" 2>"$folder/err" &
    first=$!
    running
    kill -9 "$first"
    wait "$first" 2>/dev/null || true
    ./launch-check capture >"$folder/out2" 2>"$folder/err2" || fail "the call after a killed one failed: $(cat "$folder/err2")"
    [ ! -e "$folder/faults" ] || fail "after a killed call: $(cat "$folder/faults")"
    grep -q waiting "$folder/err2" || fail "the call after a killed one does not wait"
    [ "$(wc -l <"$folder/runs")" -eq 1 ] || fail "the call after a killed one built too"
fi

# What is edited while rt runs is built by the next call.
rm -f "$program"
: >"$folder/runs"
: >"$folder/edit"
status 0 capture
status 0 capture
[ "$(wc -l <"$folder/runs")" -eq 2 ] || fail "an edit during a build counts as built"
status 0 capture
[ "$(wc -l <"$folder/runs")" -eq 2 ] || fail "what is built is built again"

# Standard input, the end of the flags, and what is no answer.
status 0 <capture
status 0 - <capture
cp capture ./--help
status 0 -- --help
status 2 --help
status 2 -x
status 2 capture capture
status 2 nowhere
status 2 "$folder"

# Standard input that is closed or cannot be read: no answer, and no waiting.
for words in "" -; do
    got=0
    timeout 20 ./launch-check $words >"$folder/out" 2>"$folder/err" <&- || got=$?
    [ "$got" -eq 2 ] || fail "status $got and not 2 for closed standard input: $words"
    grep -q "is closed" "$folder/err" || fail "it is not said that standard input is closed"
done
status 0 capture <&-
status 2 - <"$folder"
grep -q "cannot be read" "$folder/err" || fail "it is not said that the capture cannot be read"

# A file without end: one byte more than a capture has is read, and no more is written. The limit keeps a copy of all of it from filling the disk.
for file in - /dev/zero; do
    got=0
    (ulimit -f 1024 && exec timeout 20 ./launch-check "$file") >"$folder/out" 2>"$folder/err" </dev/zero || got=$?
    [ "$got" -eq 0 ] || fail "status $got and not 0 for a file without end: $file"
done

# A reader that has gone away is no signal, and a name that cannot be opened is shown without its control characters.
{
    sleep 0.2
    got=0
    ./launch-check capture 2>/dev/null || got=$?
    echo "$got" >"$folder/status"
} | true
[ "$(cat "$folder/status")" -eq 2 ] || fail "status $(cat "$folder/status") and not 2 where nobody reads"
name=$'a\eb'
ln -s /dev/tty "$name"
got=0
setsid --wait ./launch-check "$name" >"$folder/out" 2>"$folder/err" </dev/null || got=$?
[ "$got" -eq 2 ] || fail "status $got and not 2 for a file that cannot be opened"
! grep -q $'\e' "$folder/err" || fail "a control character of a name is printed"

# A build that fails shows all that rt said.
echo changed >crates/one/src/lib.rt
touch -d "1 hour" crates/one/src/lib.rt
: >"$folder/broken"
status 2 capture
grep -q "error: why" "$folder/err" || fail "a failed build does not say why"
echo "launch-check says what it does, and two at once wait for each other"
