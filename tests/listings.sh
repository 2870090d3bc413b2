#!/usr/bin/env bash
# Holds what sheetlist writes against the second program's text: every example, every message of the vectors that can be put on
# one line, and messages at sheetlist's own limits; then inputs that cannot be read to their end, and outputs that cannot be
# written. Ends with 'N passed, M failed'.
set -u
cd "$(dirname "$0")/.." || exit 1
program=crates/sheetlist/out/sheetlist
second=second/target/release/second
examples=14
vectors=1067
unread='sheetlist: the sheet could not be read to its end; nothing is listed'
unwritten='sheetlist: the listing could not be written'
. tests/tally.sh
if [ ! -x "$program" ] || [ ! -x "$second" ]; then
    lacking 'listings.sh: build crates/sheetlist/out/sheetlist (rt run in crates/sheetlist) and second/ (cargo build --release) first'
fi

# The program lists the message of $folder/message, and says nothing on standard error.
ours() {
    "$program" <"$folder/message" >"$folder/ours" 2>"$folder/said" && [ ! -s "$folder/said" ] && grep -qE '^(accepted|refused) ' "$folder/ours"
}

# The second program's listing of a message in hexadecimal.
theirs() {
    local line
    line=$(printf 'list %s\n' "${1:--}" | "$second") || return
    line=${line#text }
    printf '%s' "${line//\\n/$'\n'}" >"$folder/theirs"
}

# Both list one message, given in hexadecimal, alike.
alike() {
    printf '%s' "$1" | xxd -r -p >"$folder/message"
    ours && theirs "$1" && cmp "$folder/ours" "$folder/theirs"
}

# A byte as often as said, in hexadecimal.
many() {
    printf "$1%.0s" $(seq "$2")
}

# Lists with input and output as the caller set them: nothing is listed, and one line on standard error says why.
complains() {
    local words=$1
    shift
    "$@" 2>"$folder/said"
    [ "$(cat "$folder/said")" = "$words" ] && [ ! -s "$folder/ours" ]
}

of_folder() { "$program" <examples >"$folder/ours"; }
of_nothing() { "$program" <&- >"$folder/ours"; }
to_full() { : >"$folder/ours" && "$program" <examples/kinds.msg >/dev/full; }
to_nothing() { : >"$folder/ours" && "$program" <examples/kinds.msg >&-; }

# The first bytes of a message from a terminal that is then hung up: the next read fails, and none after it answers otherwise.
of_terminal() {
    python3 - "$program" "$1" >"$folder/ours" <<'END'
import os, subprocess, sys, tty
master, slave = os.openpty()
tty.setraw(slave)
os.write(slave, open("examples/batch.msg", "rb").read()[:int(sys.argv[2])])
os.close(slave)
subprocess.run([sys.argv[1]], stdin=master, check=True)
END
}

met=0
for file in examples/*.msg; do
    check "$file" alike "$(xxd -p "$file" | tr -d '\n')"
    met=$((met + 1))
done
check "$examples examples, $met met" [ "$met" -eq "$examples" ]
met=0
while read -r line; do
    check "the vector $line" alike "${line// /}"
    met=$((met + 1))
done < <(sed -nE 's/^message ?([0-9A-Fa-f ]*)$/\1/p' tests/vectors/*.txt | sort -u)
check "$vectors messages of vectors, $met met" [ "$met" -eq "$vectors" ]
check '32,768 bytes' alike "$(many FF 32768)"
check '32,769 bytes' alike "$(many FF 32769)"
check '2,665 rows' alike "$(many 81 2665)"
check '2,666 rows' alike "$(many 81 2666)"
check '235,680 bits' alike "C1827318E30398A0$(many A5 29460)"
check '1,998 bit strings' alike 'C20EC40CE207CEF0FEDCBA9876543210'
check '1,999 bit strings' alike 'C20EC40CE207CFF0FEDCBA9876543210'
check 'a string of 32,764 characters' alike "C6827FFC$(many C8 32764)"
check '63,944 characters of three digits' alike 'C207C405E300F9C87F'
check '63,945 characters' alike 'C207C405E300F9C97F'
check '1,998 strings of eight' alike 'C20FC40DE207CEC6085A5A5A5A5A5A5A5A'
check '1,999 strings of eight' alike 'C20FC40DE207CFC6085A5A5A5A5A5A5A5A'
check 'a folder as input' complains "$unread" of_folder
check 'a closed input' complains "$unread" of_nothing
check 'a read that fails at once' complains "$unread" of_terminal 0
check 'a read that fails after 17 of 48 bytes' complains "$unread" of_terminal 17
check 'a read that fails after all 48 bytes' complains "$unread" of_terminal 48
check 'a full output' complains "$unwritten" to_full
check 'a closed output' complains "$unwritten" to_nothing
end
