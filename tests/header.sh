#!/usr/bin/env bash
# Checks include/msdtp.h: that it declares the archive's functions and no others; and, as C99 and as C++, that it compiles by
# itself, that the five examples in it compile and print what it says there, and that what it tells holds of the archive
# (tests/header). The archive is that of target/staticlib, or of the folder that MSDTP_LIB_DIR names. The last line is 'N passed,
# M failed', and the exit status is 0 only when nothing failed.
set -u
cd "$(dirname "$0")/.." || exit 1
archive=${MSDTP_LIB_DIR:-target/staticlib}/libmsdtp.a
. tests/tally.sh

# compile LANGUAGE ARGUMENT..: with every warning an error.
compile() {
    local flags=(-O2 -Wall -Wextra -pedantic -Werror -Iinclude)
    case $1 in
    C99) gcc -std=c99 "${flags[@]}" -x c "${@:2}" ;;
    C++) g++ "${flags[@]}" -x c++ "${@:2}" ;;
    esac
}

# The lines of the header's comment after one heading, up to another or to the comment's end, as they stand there.
lines_after() {
    awk -v from="$1" -v to="$2" '
        on && (index($0, to) == 4 || $0 == " */") { exit }
        on { if (!sub(/^ \*     /, "")) sub(/^ \*/, ""); print }
        index($0, from) == 4 { on = 1 }' include/msdtp.h
}

# The functions that the header declares are those by whose names the archive can be called.
functions() {
    sed -nE 's/^[a-z0-9_ ]+ (msdtp_[a-z_]+)\(.*/\1/p' include/msdtp.h | sort >"$folder/declared"
    test -s "$folder/declared" && nm -g --defined-only "$archive" | sed -nE 's/^.* T (msdtp_[a-z_]+)$/\1/p' | sort | diff "$folder/declared" -
}

# An example of the header prints what the header says that it prints.
example() {
    compile "$1" "$folder/$2.c" -x none "$archive" -o "$folder/$2" && "$folder/$2" | diff "$folder/$2.prints" -
}

# Runs the checks of tests/header and counts its lines; one that ends otherwise than its lines say is a failure.
run_checks() {
    local status
    "$folder/checks" "$version" >"$folder/printed"
    status=$?
    sed -E "s/^(passed|failed): /\\1: $1: /" "$folder/printed"
    passed=$((passed + $(grep -c '^passed: ' "$folder/printed")))
    failed=$((failed + $(grep -c '^failed: ' "$folder/printed")))
    check "$1: exit status of the checks" test "$status" -eq 0
}

[ -f "$archive" ] || lacking 'The archive libmsdtp.a is not there. Build it with bash archive.sh, or set MSDTP_LIB_DIR to its folder.'
version=$(sed -nE 's/^version = "(.*)"$/\1/p' bindings/rust/Cargo.toml)
printf '#include "msdtp.h"\n#include "msdtp.h"\n' >"$folder/alone.c"
lines_after 'AN EXAMPLE' 'It prints' >"$folder/example.c"
lines_after 'It prints' 'END' | sed '/^$/d' >"$folder/example.prints"
lines_after 'ANOTHER EXAMPLE' 'This one prints' >"$folder/another.c"
lines_after 'This one prints' 'END' | sed '/^$/d' >"$folder/another.prints"
lines_after 'A THIRD EXAMPLE' 'The third prints' >"$folder/third.c"
lines_after 'The third prints' 'END' | sed '/^$/d' >"$folder/third.prints"
lines_after 'A FOURTH EXAMPLE' 'The fourth prints' >"$folder/fourth.c"
lines_after 'The fourth prints' 'END' | sed '/^$/d' >"$folder/fourth.prints"
lines_after 'A FIFTH EXAMPLE' 'The fifth prints' >"$folder/fifth.c"
lines_after 'The fifth prints' 'END' | sed '/^$/d' >"$folder/fifth.prints"
check 'the functions of the header and of the archive' functions
check 'the example prints something' test -s "$folder/example.prints"
check 'the other example prints something' test -s "$folder/another.prints"
check 'the third example prints something' test -s "$folder/third.prints"
check 'the fourth example prints something' test -s "$folder/fourth.prints"
check 'the fifth example prints something' test -s "$folder/fifth.prints"
for language in C99 C++; do
    check "$language: alone" compile "$language" -c "$folder/alone.c" -o "$folder/alone.o"
    check "$language: the example" example "$language" example
    check "$language: the other example" example "$language" another
    check "$language: the third example" example "$language" third
    check "$language: the fourth example" example "$language" fourth
    check "$language: the fifth example" example "$language" fifth
    rm -f "$folder/checks"
    check "$language: the checks are built" compile "$language" tests/header/*.c -x none "$archive" -o "$folder/checks"
    run_checks "$language"
done
end
