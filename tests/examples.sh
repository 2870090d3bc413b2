#!/usr/bin/env bash
# Builds the examples for C and those for Rust and runs them on the messages of examples/. Each 'measure' is run on every message,
# and what it prints and its exit status are compared with what is stored in examples/c/expected and bindings/rust/expected. Both
# 'changes' are run on every two messages and print the same with the same exit status, which for some pairs is stored in
# examples/changes. Both 'salvage' are run on every message, print the same and write the same, which for some messages is stored
# in examples/salvage. Both 'why' are run on every message, and on some bytes for each number and each evidence, and print the same
# with the same exit status, which for some messages is stored in examples/why. Both 'sheet' write a message of examples/ byte for
# byte, and what they write is read by 'measure'. The archive is that of target/staticlib, or of the folder that MSDTP_LIB_DIR names.
# The last line is 'N passed, M failed', and the exit status is 0 only when nothing failed.
set -u
crate=msdtp
messages=14
pairs=9
salvages=4
reasons=7
cd "$(dirname "$0")/.." || exit 1
archive=lib$crate.a
library=$(cd "${MSDTP_LIB_DIR:-target/staticlib}" 2>/dev/null && pwd)
[ -z "${MSDTP_LIB_DIR:-}" ] || export MSDTP_LIB_DIR="$library"
. tests/tally.sh

build_c() {
    gcc -std=c99 -O2 -Wall -Wextra -pedantic -Werror -Iinclude "examples/c/$1.c" "$library/$archive" -o "$folder/$1"
}

# run_c EXAMPLE FILE..
run_c() {
    "$folder/$1" "${@:2}"
}

# cargo_example COMMAND EXAMPLE ARGUMENT..
cargo_example() {
    cargo "$1" --quiet --release --offline --locked --manifest-path bindings/rust/Cargo.toml --example "$2" "${@:3}"
}

# run_rust EXAMPLE FILE..
run_rust() {
    cargo_example run "$1" -- "${@:2}"
}

# with_status COMMAND..: what the command prints, its exit status after it.
with_status() {
    "$@"
    printf 'exit status %s\n' "$?"
}

# compare EXPECTED COMMAND..: the command prints what is stored, its exit status after it.
compare() {
    with_status "${@:2}" >"$folder/printed"
    diff "$1" "$folder/printed"
}

# alike EXAMPLE ARGUMENT..: the same is printed in C and in Rust, with the same exit status.
alike() {
    with_status run_c "$@" >"$folder/alike"
    grep -qE '^exit status [012]$' "$folder/alike" && compare "$folder/alike" run_rust "$@"
}

# fails STATUS LANGUAGE EXAMPLE ARGUMENT..: this exit status, a word about it on standard error, and nothing on standard output.
fails() {
    with_status "run_$2" "${@:3}" >"$folder/printed" 2>"$folder/said"
    [ -s "$folder/said" ] && [ "$(cat "$folder/printed")" = "exit status $1" ]
}

# trouble LANGUAGE FILE..: the changes cannot be told.
trouble() {
    fails 2 "$1" changes "${@:2}"
}

# mended LANGUAGE MESSAGE: salvages a message into a new file, $folder/kept.LANGUAGE, and prints what was changed, with the exit
# status.
mended() {
    rm -f "$folder/kept.$1"
    with_status "run_$1" salvage "$2" "$folder/kept.$1"
}

# mended_alike MESSAGE: both languages print the same and write the same, in which nothing is left to be changed.
mended_alike() {
    mended c "$1" >"$folder/mended.c"
    grep -qE '^exit status [01]$' "$folder/mended.c" || return
    mended rust "$1" | diff "$folder/mended.c" - && cmp "$folder/kept.c" "$folder/kept.rust" || return
    cp "$folder/kept.c" "$folder/again.msg"
    mended c "$folder/again.msg" | grep -qx 'exit status 0' && cmp "$folder/kept.c" "$folder/again.msg"
}

# kept LANGUAGE NAME KEPT: what is stored of a message is printed, and what is kept of it is this file.
kept() {
    mended "$1" "examples/$2.msg" | diff "examples/salvage/$2.txt" - && cmp "$folder/kept.$1" "$3"
}

# not_mended LANGUAGE BYTES COUNT WORDS: so many of these bytes are refused with these words, and there is no new file.
not_mended() {
    head -c "$3" /dev/zero | tr '\0' "$2" >"$folder/bad.msg"
    mended "$1" "$folder/bad.msg" | diff - <(printf '%s; nothing is written\nexit status 2\n' "$4") && [ ! -e "$folder/kept.$1" ]
}

# not_over LANGUAGE OLD NEW: a file that is there already is not written over, and both stay as they are.
not_over() {
    cp examples/damaged-batch.msg "$folder/old.msg"
    cp examples/note.msg "$folder/new.msg"
    fails 2 "$1" salvage "$folder/$2" "$folder/$3" || return
    cmp "$folder/old.msg" examples/damaged-batch.msg && cmp "$folder/new.msg" examples/note.msg
}

# explained_alike STATUS HEX WORDS: these bytes are explained alike where so many words are lent, with this exit status.
explained_alike() {
    xxd -r -p <<<"$2" >"$folder/some.msg"
    alike why "$folder/some.msg" "$3" && grep -qx "exit status $1" "$folder/alike"
}

# not_explained LANGUAGE BYTES COUNT LINE..: so many of these bytes are refused, and these lines are printed.
not_explained() {
    head -c "$3" /dev/zero | tr '\0' "$2" >"$folder/bad.msg"
    with_status "run_$1" why "$folder/bad.msg" | diff - <(printf '%s\n' "${@:4}" 'exit status 1')
}

# writes LANGUAGE MESSAGE ARGUMENT..: the sheet of these arguments is this message.
writes() {
    "run_$1" sheet "${@:3}" >"$folder/sheet.msg" && cmp "$folder/sheet.msg" "$2"
}

# refused LANGUAGE ARGUMENT..: the sheet of these arguments is refused with 22, in words.
refused() {
    fails 1 "$1" sheet "${@:2}" && [ "$(cat "$folder/said")" = 'refused 22: a figure of the sheet is not from 1 to 20,000' ]
}

# measured LANGUAGE OTHER: a sheet that one language writes is read by the other.
measured() {
    "run_$1" sheet -4711 eighths 1 272 20000 >"$folder/sheet.msg" || return
    "run_$2" measure "$folder/sheet.msg" | head -n 4 | diff - <(
        printf 'order -4711, in eighths of an inch\n  chest 1, 3175 micrometres\n'
        printf '  waist 272, 863600 micrometres\n  sleeve 20000, 63500000 micrometres\n'
    )
}

if [ -z "$library" ] || [ ! -f "$library/$archive" ]; then
    lacking "The archive $archive is not there. Build it with bash archive.sh, or set MSDTP_LIB_DIR to its folder."
fi
for example in measure changes salvage why sheet; do
    check "C example $example: build" build_c "$example"
    check "Rust example $example: build" cargo_example build "$example"
done
met=0
for message in examples/*.msg; do
    met=$((met + 1))
    name=$(basename "$message" .msg)
    check "C example: $name" compare "examples/c/expected/$name.txt" run_c measure "$message"
    check "Rust example: $name" compare "bindings/rust/expected/$name.txt" run_rust measure "$message"
    check "salvage $message: alike in C and Rust" mended_alike "$message"
    check "why $message: alike in C and Rust" alike why "$message"
    for other in examples/*.msg; do
        check "changes from $message to $other: alike in C and Rust" alike changes "$message" "$other"
    done
done
check "$messages messages, $met met" [ "$met" -eq "$messages" ]
met=0
for expected in examples/changes/*.txt; do
    met=$((met + 1))
    name=$(basename "$expected" .txt)
    for language in c rust; do
        check "changes in $language: $name" compare "$expected" "run_$language" changes "examples/${name%.*}.msg" "examples/${name#*.}.msg"
    done
done
check "$pairs pairs, $met met" [ "$met" -eq "$pairs" ]
met=0
for expected in examples/why/*.txt; do
    met=$((met + 1))
    name=$(basename "$expected" .txt)
    read -ra of <<<"${name/./ }"
    for language in c rust; do
        check "why in $language: $name" compare "$expected" "run_$language" why "examples/${of[0]}.msg" "${of[@]:1}"
    done
done
check "$reasons reasons, $met met" [ "$met" -eq "$reasons" ]
deep=$(printf 'C282%04X' {61..1..-4})C2
for bytes in E201 C283 C280 C201E1 C202C205 C102E201 C204C402E201 81C7 C201C0 "$deep" F100 C202F100 C101FE C103FFFFC0 C1029000 \
    C102E1F8 C109E08000000000000000 C18100 C101FF C4 C4028280 C205C403E1FF80 C203C40141 C203C48100 C5028141 C509C4028041C4028281FE \
    C303418182 C3028CFE C38100 C30187 C206C404E2400080 C207C405E302000141 C209C407E300FFFFC60141 C209C407E3010000C60141; do
    check "why $bytes: alike in C and Rust" explained_alike 1 "$bytes" 65540
done
check 'why 81, six words lent: alike in C and Rust' explained_alike 1 81 6
check 'why 81, seven words lent: alike in C and Rust' explained_alike 0 81 7
check 'why 81, as many words lent as there may be: alike in C and Rust' explained_alike 0 81 18446744073709551615
check 'why C60141, seven words lent: alike in C and Rust' explained_alike 1 C60141 7
check "$salvages salvaged" [ "$(find examples/salvage -name '*.txt' | wc -l)" -eq "$salvages" ]
for language in c rust; do
    check "salvage in $language: a damaged batch" kept "$language" damaged-batch examples/mended-batch.msg
    check "salvage in $language: what comes out of it" kept "$language" mended-batch examples/mended-batch.msg
    check "salvage in $language: a sound batch" kept "$language" batch examples/batch.msg
    check "salvage in $language: a sheet that was cut" kept "$language" cut /dev/null
    check "salvage in $language: too long" not_mended "$language" '\377' 65537 'refused 1: the message is longer than 65,536 bytes'
    check "salvage in $language: too many rows" not_mended "$language" '\201' 16385 \
        'refused 10: more than 16,384 rows, or more than 16,384 words of bits and strings'
    check "salvage in $language: another file is there" not_over "$language" old.msg new.msg
    check "salvage in $language: the same file" not_over "$language" old.msg old.msg
    check "salvage in $language: no such file" fails 2 "$language" salvage examples/none.msg "$folder/none.msg"
    check "salvage in $language: no such folder" fails 2 "$language" salvage examples/batch.msg "$folder/none/new.msg"
    check "salvage in $language: one file" fails 2 "$language" salvage examples/batch.msg
    check "salvage in $language: three files" fails 2 "$language" salvage examples/batch.msg "$folder/1.msg" "$folder/2.msg"
    check "why in $language: too long" not_explained "$language" '\377' 65537 \
        'refused 1 at 0: the message is longer than 65,536 bytes' 'Nothing of it was read.'
    check "why in $language: too many rows" not_explained "$language" '\201' 16385 \
        'refused 10 at 0: more than 16,384 rows, or more than 16,384 words of bits and strings' \
        'There is too much in the message for one table: it takes 16385 rows and 0 words of bits and strings.'
    check "why in $language: no such file" fails 2 "$language" why examples/none.msg
    check "why in $language: no file" fails 2 "$language" why
    check "why in $language: three arguments" fails 2 "$language" why examples/cut.msg 4 4
    check "why in $language: words that are none" fails 2 "$language" why examples/cut.msg ''
    check "why in $language: words that are no number" fails 2 "$language" why examples/cut.msg 4x
    check "why in $language: fewer than no words" fails 2 "$language" why examples/cut.msg -4
    check "why in $language: more words than there may be" fails 2 "$language" why examples/cut.msg 18446744073709551616
    check "changes in $language: no files" trouble "$language"
    check "changes in $language: one file" trouble "$language" examples/note.msg
    check "changes in $language: three files" trouble "$language" examples/note.msg examples/note.msg examples/note.msg
    check "changes in $language: no such file" trouble "$language" examples/note.msg examples/none.msg
    check "measure in $language: no such file" fails 2 "$language" measure examples/none.msg
    check "sheet in $language: order 4711" writes "$language" examples/measure.msg 4711 tenths 1016 864 650
    check "sheet in $language: a figure of 0" refused "$language" 4711 tenths 0 864 650
    check "sheet in $language: a figure of 20,001" refused "$language" 4711 eighths 1016 864 20001
    check "sheet in $language: another unit" fails 2 "$language" sheet 4711 inches 1016 864 650
    check "sheet in $language: an EMPTY" fails 2 "$language" sheet 4711 tenths EMPTY 864 650
    check "sheet in $language: a negative figure" fails 2 "$language" sheet 4711 tenths 1016 -864 650
    check "sheet in $language: two figures" fails 2 "$language" sheet 4711 tenths 1016 864
done
check 'a sheet from C to Rust' measured c rust
check 'a sheet from Rust to C' measured rust c
end
