#!/usr/bin/env bash
# Counts the instructions of calls with hostile messages, tables, pairs of tables, measure sheets, batches and faults, in two sizes
# of each shape, and holds them to a loose linear bound: so many for each byte or word lent and word used or written, and a constant;
# and the longer of two sizes takes no more than twice its share of the shorter one. Prints what was counted. Needs valgrind and the
# archive. Ends with 'N passed, M failed'.
set -u
cd "$(dirname "$0")/compare" || exit 1
for_each=500
constant=20000
calls=1232
work=$(mktemp -d)
trap 'rm -rf "$work"' EXIT

# One call for each shape, size and operation; the tool writes a total after each, and one at the end.
count() {
    cargo build --quiet --release --offline --locked --bin linear || return
    valgrind --tool=callgrind --callgrind-out-file="$work/counts" --combine-dumps=yes --collect-atstart=no --toggle-collect=counted_call --dump-after=counted_call \
        target/release/linear >"$work/calls" 2>"$work/said" || return
    sed -n 's/^totals: //p' "$work/counts" >"$work/totals"
    [ "$(wc -l <"$work/calls")" -eq "$calls" ] && [ "$(wc -l <"$work/totals")" -eq $((calls + 1)) ]
}

if ! count; then
    [ ! -f "$work/said" ] || tail -n 20 "$work/said"
    printf 'the instructions of %s calls could not be counted\n0 passed, 1 failed\n' "$calls"
    exit 1
fi
printf '%-14s %-42s %7s %12s %9s %9s %16s %9s\n' '' 'a quarter, then the whole' units instructions each units instructions each
head -n "$calls" "$work/totals" | paste -d '|' "$work/calls" - | awk -F '|' -v each="$for_each" -v constant="$constant" '
    function check(good, words) {
        if (good) passed++
        else { failed++; printf "failed: %s, %s: %s\n", $1, $2, words }
    }
    {
        check($5 > 0 && $5 <= constant + each * $4, $5 " instructions for " $4 " bytes and words, a " $3)
        shape = $1 "|" $2
        if ($3 == "quarter") { units[shape] = $4; counted[shape] = $5; next }
        printf "%-14s %-42s %7d %12d %9.1f %9d %16d %9.1f\n", $1, $2, units[shape], counted[shape], counted[shape] / units[shape], $4, $5, $5 / $4
        check($5 <= constant + 2 * counted[shape] * $4 / units[shape], counted[shape] " instructions for " units[shape] ", and " $5 " for " $4)
    }
    END {
        printf "%d passed, %d failed\n", passed, failed
        exit !(passed > 0 && failed == 0)
    }'
