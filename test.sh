#!/usr/bin/env bash
# Runs every proof and every test, or the parts that are named. 'bash test.sh -h' lists the parts. Prints how long
# each part took and names those that failed; the last line is 'N passed, M failed', and the exit status is 0 only when something
# passed and nothing failed.
set -u

# Nothing of the caller's environment reaches a part, but for where the tools are and how many jobs rt runs at a time.
for name in $(compgen -A function); do
    unset -f "$name"
done
for name in $(compgen -e); do
    case $name in
    PATH | HOME | TMPDIR | CARGO_HOME | RUSTUP_HOME | RUSTUP_TOOLCHAIN | RATTLE_HOME | RT_JOBS) ;;
    SHELLOPTS | BASHOPTS) ;;
    *) unset "$name" ;;
    esac
done
export -n SHELLOPTS BASHOPTS
export LC_ALL=C
cd "$(dirname "$0")" || exit 1
passed=0
failed=0
failures=''

in_folder() {
    (cd "$1" && shift && "$@")
}

# Proves every crate that is listed, and tries every edit that is there, at least one of each: what rt ci passed on this machine is
# kept, and proved again where something changed.
proofs() {
    local crates edits
    crates=$(grep -cE '^[A-Za-z0-9_]+[^:]*:' crates.txt)
    edits=$(find crates -path '*/must-fail/*.edit' | wc -l)
    rt ci | tee "$work/proofs"
    [ "${PIPESTATUS[0]}" -eq 0 ] || return 1
    [ "$crates" -gt 0 ] && [ "$edits" -gt 0 ] &&
        grep -qE "^rt: ok; .*must-fail edits: $edits refused(, [0-9]+ of them only by a limit)?;" "$work/proofs" &&
        ! grep -qE '^rt: ok; .*, [0-9]+ bad' "$work/proofs" && return
    printf 'rt did not prove the %s crates and try the %s must-fail edits that are there\n' "$crates" "$edits"
    return 1
}

# The parts, in their order: a name, whether it counts tests or is one check, what it is, and the command.
parts() {
    part proofs counts 'every proof and every must-fail edit (rt ci)' proofs
    part second-layout once 'second program: layout' in_folder second cargo fmt --check
    part second-lints once 'second program: lints' in_folder second cargo clippy --quiet --all-targets --offline --locked -- -D warnings
    part second-tests counts 'second program: tests' in_folder second cargo test --release --offline --locked
    part archive once 'archive for C' bash archive.sh
    part compare-layout once 'comparison: layout' in_folder tests/compare cargo fmt --check
    part compare-lints once 'comparison: lints' in_folder tests/compare cargo clippy --quiet --all-targets --offline --locked -- -D warnings
    part compare-tests counts 'comparison: tests' in_folder tests/compare cargo test --release --offline --locked
    part linear counts 'instructions linear in bytes and words, for hostile messages and tables' bash tests/linear.sh
    part rust-layout once 'Rust crate: layout' in_folder bindings/rust cargo fmt --check
    part rust-lints once 'Rust crate: lints' in_folder bindings/rust cargo clippy --quiet --all-targets --offline --locked -- -D warnings
    part rust-tests counts 'Rust crate: tests' in_folder bindings/rust cargo test --release --offline --locked
    part header counts 'the header for C, alone' bash tests/header.sh
    part examples counts 'examples for C and Rust' bash tests/examples.sh
    part program once 'the program sheetlist' in_folder crates/sheetlist rt run
    part listings counts 'listings of sheetlist beside those of the second program' bash tests/listings.sh
    part list counts 'list.sh' bash tests/list.sh
    part pages counts 'pages and words about the numbers, from one source' python3 docs/pages.py --check
    part tour once "README's tour, drawn from crates.txt" python3 docs/tour.py --check
}

usage() {
    printf 'Usage: bash test.sh [PART..]\n\nRuns the parts that are named, or all, in this order. A part that is run alone takes what earlier ones have built.\n\n'
    parts
}

# part NAME KIND WHAT COMMAND..: tells of a part, or runs it if it is wanted.
part() {
    case $mode in
    tell) printf '  %-16s %s\n' "$1" "$3" ;;
    name) printf '%s\n' "$1" ;;
    run) [ -n "$wanted" ] && ! grep -qxF -- "$1" <<<"$wanted" || run "$@" ;;
    esac
}

# Runs one part, shows what it prints but for the lines of what is proved, and counts it.
run() {
    local name=$1 kind=$2 start=$SECONDS status
    printf -- '---- %s: %s\n' "$name" "$3"
    shift 3
    "$@" 2>&1 </dev/null | tee "$work/log" | grep -vE '^(fn|enum|struct) .*: proved$|note: (large solution|deriving)'
    status=${PIPESTATUS[0]}
    count "$kind" "$status"
    passed=$((passed + good))
    failed=$((failed + bad))
    [ "$bad" -eq 0 ] || failures="$failures $name"
    printf -- '---- %s: %s passed, %s failed, %s seconds\n' "$name" "$good" "$bad" "$((SECONDS - start))"
}

# Adds up numbers, one a line.
sum() {
    awk '{n += $1} END {print n + 0}'
}

# Counts a part, as good and bad. One that counts tests is counted by its lines 'N passed, M failed' and cargo's 'test result: ..
# N passed; M failed'; none at all is a failure. Any other is one check.
count() {
    good=0 bad=0
    if [ "$1" = counts ]; then
        good=$(sed -nE 's/^([0-9]+) passed, [0-9]+ failed$/\1/p; s/^test result: .* ([0-9]+) passed; .*/\1/p' "$work/log" | sum)
        bad=$(sed -nE 's/^[0-9]+ passed, ([0-9]+) failed$/\1/p; s/^test result: .* ([0-9]+) failed; .*/\1/p' "$work/log" | sum)
        [ $((good + bad)) -gt 0 ] || printf 'no test was run\n'
        [ $((good + bad)) -gt 0 ] && [ "$2" -eq 0 ] || bad=$((bad > 0 ? bad : 1))
    elif [ "$2" -eq 0 ]; then
        good=1
    else
        bad=1
    fi
}

# Names the parts that failed, and ends with the counts as the last line.
end() {
    [ -z "$failures" ] || printf 'failed parts:%s\n' "$failures"
    printf '%s passed, %s failed\n' "$passed" "$failed"
    [ "$failed" -eq 0 ] && [ "$passed" -gt 0 ]
    exit
}

# lack WORDS: something that keeps every part from running.
lack() {
    printf 'test.sh: %s\n' "$1"
    failed=$((failed + 1))
}

tools() {
    local tool
    for tool in rt cargo gcc g++ nm xxd valgrind flock python3 awk sed grep sort tee diff cmp find mktemp timeout; do
        command -v "$tool" >/dev/null || lack "$tool is not there"
    done
    cargo fmt --version >/dev/null 2>&1 || lack 'cargo fmt (rustfmt) is not there'
    cargo clippy --version >/dev/null 2>&1 || lack 'cargo clippy is not there'
}

# Takes the lock on building here, for the whole run. list.sh takes the same one.
lock() {
    exec 9<crates.txt
    flock -n 9 && return
    printf 'test.sh: waits for another run that builds or tests here\n' >&2
    flock 9
}

case ${1-} in
-h | --help)
    mode=tell
    usage
    exit
    ;;
esac
mode=name
known=$(parts)
for name in "$@"; do
    grep -qxF -- "$name" <<<"$known" || lack "there is no part '$name'; bash test.sh -h lists them"
done
tools
[ "$failed" -eq 0 ] || end
lock
work=$(mktemp -d) || exit 1
trap 'rm -rf "$work"' EXIT
mode=run
wanted=$(printf '%s\n' "$@")
parts
printf 'all parts: %s seconds\n' "$SECONDS"
end
