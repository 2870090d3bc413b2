#!/usr/bin/env bash
# Counts the instructions of one call, of the library and of the second program, for each operation and load of the benchmark.
# Unlike times, the counts repeat. Needs valgrind and the archive; takes some minutes. It asserts nothing.
set -eu
cd "$(dirname "$0")/compare"
cargo build --quiet --release --offline --locked --bin speed
speed=target/release/speed

# The instructions of a run with so many calls.
instructions() {
    valgrind --tool=callgrind --callgrind-out-file=/dev/null "$speed" "$@" 2>&1 >/dev/null | sed -nE 's/.*Collected : ([0-9]+).*/\1/p'
}

# The instructions of one call: what eight more calls add, by eight.
for_one() {
    echo $((($(instructions "$1" "$2" "$3" 10) - $(instructions "$1" "$2" "$3" 2)) / 8))
}

for operation in read write ask normalise compare measure_read measure_write salvage explain; do
    printf '\n%s: instructions for a call\n%-34s %10s %10s %6s\n' "$operation" '' library second ratio
    load=0
    while told=$("$speed" "$operation" "$load" second 1); do
        ours=$(for_one "$operation" "$load" library)
        theirs=$(for_one "$operation" "$load" second)
        printf '%-34s %10s %10s %6s\n' "${told%%|*}" "$ours" "$theirs" "$(awk "BEGIN {printf \"%.2f\", $ours / ($theirs > 0 ? $theirs : 1)}")"
        load=$((load + 1))
    done
done
