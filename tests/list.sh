#!/usr/bin/env bash
# Tries list.sh in a copy of the repository, in a folder with a space in its name, once everything is built: usage, each error,
# the exit statuses, what is said while building, and two runs at once. Ends with 'N passed, M failed'.
set -u
cd "$(dirname "$0")/.." || exit 1
. tests/tally.sh
work=$folder
copy="$work/a copy"
program=crates/sheetlist/out/sheetlist
if [ ! -x "$program" ]; then
    lacking 'tests/list.sh: build crates/sheetlist/out/sheetlist (rt run in crates/sheetlist) first'
fi
mkdir -p "$copy" "$work/stub" "$work/none" "$work/tools"
cp -R crates.txt crates examples list.sh "$copy"
cp "$program" "$work/program"
: >"$work/nothing"

# What rt is replaced by where nothing is to be proved: it waits to be let go, tells of one crate and builds a given program. It
# fails where another one runs beside it. It is run in the folder of each crate in turn.
cat >"$work/stub/rt" <<END
#!/bin/sh
mkdir '$work/busy' || exit 1
until [ -e '$work/go' ]; do sleep 0.05; done
echo 'rt: begins with nothing'
case \$PWD in */sheetlist) mkdir -p out && cp '$work/program' out/sheetlist ;; esac
rmdir '$work/busy'
END
printf '#!/bin/sh\necho "rt: sheetlist NOT PROVED"\nexit 1\n' >"$work/none/rt"
chmod +x "$work/stub/rt" "$work/none/rt"

# tally NAME STATUS: counts one check by its exit status, and shows what list.sh printed where it failed.
tally() {
    if [ "$2" -eq 0 ]; then
        passed=$((passed + 1))
    else
        failed=$((failed + 1))
        printf 'failed: %s (exit status %s)\n' "$1" "$ended"
        head -n 5 "$work/out" "$work/err"
    fi
}

# expect NAME STATUS OUTPUT WORDS ARGUMENT..: list.sh ends with the status, prints the file OUTPUT and nothing else, and says one
# line with these words on standard error, or nothing where they are empty.
expect() {
    local name=$1 status=$2 output=$3 words=$4
    shift 4
    bash "$copy/list.sh" "$@" >"$work/out" 2>"$work/err"
    ended=$?
    [ "$ended" -eq "$status" ] && cmp -s "$work/out" "$output" && said "$words"
    tally "$name" $?
}

# Standard error holds one line with these words, or nothing.
said() {
    if [ -z "$1" ]; then
        [ ! -s "$work/err" ]
    else
        [ "$(wc -l <"$work/err")" -eq 1 ] && grep -qF -- "$1" "$work/err"
    fi
}

# A program in the place of sheetlist, which answers these shell commands.
stand_in() {
    printf '#!/bin/sh\n%s\n' "$1" >"$work/program"
    chmod +x "$work/program"
}

usage() {
    bash "$copy/list.sh" "$1" >"$work/out" 2>"$work/err"
    ended=$?
    [ "$ended" -eq 0 ] && grep -q '^Usage: bash list.sh' "$work/out" && said ''
    tally "usage by $1" $?
}

for name in measure cut empty-chest kinds; do
    "$program" <"examples/$name.msg" >"$work/$name"
done
cp examples/measure.msg "$work/a sheet.msg"
cp examples/measure.msg "$work/-x.msg"
cp examples/measure.msg "$work/-"
mkdir "$work/-h"

usage -h
usage --help
expect 'two arguments' 2 "$work/nothing" 'one file at most' examples/cut.msg examples/cut.msg
expect 'an empty name' 2 "$work/nothing" 'an empty name is no file' ''
expect 'a folder' 2 "$work/nothing" 'examples is a folder' examples
expect 'no such file' 2 "$work/nothing" 'there is no file examples/none.msg' examples/none.msg
expect 'a closed input' 2 "$work/nothing" 'standard input is closed' - <&-
expect 'a folder as input' 2 "$work/nothing" 'sheetlist: the sheet could not be read to its end' - <examples
expect 'accepted' 0 "$work/measure" '' examples/measure.msg
expect 'refused' 1 "$work/cut" '' examples/cut.msg
expect 'the example' 0 "$work/empty-chest" ''
expect 'from standard input' 0 "$work/kinds" '' - <examples/kinds.msg
expect 'a file beside a closed input' 0 "$work/kinds" '' examples/kinds.msg <&-
cd "$work" || exit 1
expect 'a name with a space, from another folder' 0 "$work/measure" '' 'a sheet.msg'
expect 'a name with a dash in front' 0 "$work/measure" '' -x.msg
expect 'a file that is named -' 0 "$work/measure" '' ./-
expect 'a folder that is named -h' 2 "$work/nothing" './-h is a folder' ./-h
ln -s "$copy/list.sh" "$work/linked"
bash "$work/linked" "$work/-" >"$work/out" 2>"$work/err"
ended=$?
[ "$ended" -eq 0 ] && cmp -s "$work/out" "$work/measure" && said ''
tally 'by a link' $?

# not_written NAME: list.sh, whose output went astray, says one line and ends with 4.
not_written() {
    ended=$?
    : >"$work/out"
    [ "$ended" -eq 4 ] && said "$2"
    tally "$1" $?
}
bash "$copy/list.sh" >/dev/full 2>"$work/err"
not_written 'a full output' 'list.sh: the listing could not be written'
bash "$copy/list.sh" >&- 2>"$work/err"
not_written 'a closed output' 'list.sh: standard output is closed'

# Without rt, and with one that proves nothing.
for tool in dirname readlink mktemp rm cat flock awk; do
    ln -s "$(command -v "$tool")" "$work/tools/$tool"
done
bash=$(command -v bash)
PATH="$work/tools" "$bash" "$copy/list.sh" >"$work/out" 2>"$work/err"
ended=$?
[ "$ended" -eq 3 ] && [ ! -s "$work/out" ] && said 'list.sh: not built: rt is not there'
tally 'without rt' $?
PATH="$work/none:$PATH" bash "$copy/list.sh" >"$work/out" 2>"$work/err"
ended=$?
[ "$ended" -eq 3 ] && [ ! -s "$work/out" ] && grep -q 'NOT PROVED' "$work/err" && [ "$(tail -n 1 "$work/err")" = 'list.sh: the program could not be built' ]
tally 'not proved' $?
PATH="$work/stub:$PATH"

# soon COMMAND..: the command succeeds within two seconds, which is before list.sh would say by itself that proving takes long.
soon() {
    local turns=40
    until "$@"; do
        turns=$((turns - 1))
        [ "$turns" -gt 0 ] || return 1
        sleep 0.05
    done
}

# ran FILES CRATE: one of two runs ended well, and named the crate: the first run names them all, one behind it what it built again.
ran() {
    mv "$work/out.$1" "$work/out"
    mv "$work/err.$1" "$work/err"
    [ "$ended" -eq 0 ] && cmp -s "$work/out" "$work/measure" && grep -qE "^list.sh: $2 proved \\([0-9]+ s\\)$" "$work/err"
}

# A first run says at once that it proves, and names the crate; two at once wait for each other.
rm "$copy/crates/sheetlist/out/sheetlist"
ended=none
bash "$copy/list.sh" "$work/-" >"$work/out.1" 2>"$work/err.1" &
first=$!
soon grep -qsx 'list.sh: proves and builds the program first; from nothing this takes some minutes' "$work/err.1"
tally 'a first run tells that it proves' $?
soon [ -d "$work/busy" ]
tally 'a first run proves' $?
bash "$copy/list.sh" "$work/-" >"$work/out.2" 2>"$work/err.2" &
second=$!
soon grep -qsx 'list.sh: waits for another run that builds or tests here' "$work/err.2"
tally 'the second of two at once tells that it waits' $?
: >"$work/go"
wait "$first"
ended=$?
ran 1 format
tally 'the first of two at once' $?
wait "$second"
ended=$?
ran 2 sheetlist
tally 'the second of two at once' $?

# The lock is for the build alone: a run that waits for its input keeps no other one waiting.
mkfifo "$work/pipe"
exec 5<>"$work/pipe"
bash "$copy/list.sh" - <"$work/pipe" >"$work/out.1" 2>"$work/err.1" 5>&- &
first=$!
soon grep -qsE '^list.sh: sheetlist proved \([0-9]+ s\)$' "$work/err.1"
sleep 0.5
timeout 10 bash "$copy/list.sh" "$work/-" >"$work/out.2" 2>"$work/err.2" 5>&-
ended=$?
ran 2 sheetlist
tally 'a run beside one that waits for its input' $?
cat "$work/-" >&5
exec 5>&-
wait "$first"
ended=$?
ran 1 sheetlist
tally 'a run that waited for its input' $?

# What the program answers is not taken at its word.
odd() {
    stand_in "$2"
    bash "$copy/list.sh" "$work/-" >"$work/out" 2>"$work/err"
    ended=$?
    [ "$ended" -eq 4 ] && [ ! -s "$work/out" ] && grep -qF "$3" "$work/err"
    tally "$1" $?
}
odd 'a program that ends by a signal' 'echo accepted; kill -SEGV $$' 'the program ended with status'
odd 'a program that lists nothing' ':' 'the program listed nothing'
odd 'a program that could not write' 'echo accepted; echo "sheetlist: the listing could not be written" >&2' 'could not be written'
odd 'a program with other words' 'echo listed' 'the program listed nothing'
stand_in 'cat; exit 0'
printf 'refused 4 at 0\n' >"$work/due"
bash "$copy/list.sh" - <"$work/due" >"$work/out" 2>"$work/err"
ended=$?
[ "$ended" -eq 1 ] && cmp -s "$work/out" "$work/due"
tally "the status by the listing's first word" $?
leftover=$(cd "$copy" && find . -maxdepth 1 ! -name . ! -name crates.txt ! -name crates ! -name examples ! -name list.sh ! -name target)
[ -z "$leftover" ]
tally "nothing left behind: $leftover" $?
end
