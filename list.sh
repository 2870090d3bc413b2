#!/usr/bin/env bash
# Lists a message: a file, standard input, or an example. Builds what it needs the first time, which takes some minutes, since
# only proved code is built. 'bash list.sh -h' tells the usage and the exit statuses.
set -u
unset CDPATH RT_CUT
export LC_ALL=C

usage() {
    cat <<'END'
Usage: bash list.sh [FILE | -]

Lists the message in FILE, on standard input for '-', or in an example where nothing is named. Standard output is the listing
and nothing else. The first run proves and builds the program, which takes some minutes.

Exit status: 0 accepted; 1 refused; 2 not readable, or wrong usage; 3 not built; 4 the listing could not be made or written.
END
}

# stop STATUS WORDS: says one line on standard error and ends.
stop() {
    printf 'list.sh: %s\n' "$2" >&2
    exit "$1"
}

# Opens the message as descriptor 8, before anything is built.
open_message() {
    if [ "$1" = - ]; then
        { exec 8<&0; } 2>/dev/null || stop 2 'standard input is closed'
        return
    fi
    [ -n "$1" ] || stop 2 'an empty name is no file; bash list.sh -h tells the usage'
    [ -e "$1" ] || stop 2 "there is no file $1"
    [ ! -d "$1" ] || stop 2 "$1 is a folder"
    { exec 8<"$1"; } 2>/dev/null || stop 2 "cannot read $1"
}

# Takes the lock on building here as descriptor 9. It is on a file that is always there, so nothing is left behind.
lock() {
    exec 9<"$top/crates.txt" || stop 3 'not built: crates.txt cannot be read'
    flock -n 9 && return
    printf 'list.sh: waits for another run that builds or tests here\n' >&2
    flock 9 || stop 3 'not built: the lock on crates.txt cannot be taken'
}

# Says once that proving is under way.
tell() {
    [ -n "$told" ] || printf 'list.sh: proves and builds the program first; from nothing this takes some minutes\n' >&2
    told=1
}

# The crates that the program stands on, lowest first, as crates.txt has them.
crates() {
    awk -F: '/^[a-z]/ { sub(/ .*/, "", $1); sub(/#.*/, "", $2); names[++n] = $1; below[$1] = $2 }
        END {
            for (i = n; i > 0; i--) {
                if (names[i] != "sheetlist" && !(names[i] in wanted)) continue
                split(below[names[i]], deps, " ")
                for (k in deps) wanted[deps[k]] = 1
            }
            for (i = 1; i <= n; i++) if (names[i] in wanted) print names[i]
        }' "$top/crates.txt"
}

# A line by which rt says that it has something to do.
proves() {
    case $1 in
    'rt: nothing has changed'* | 'rt: running '*) return 1 ;;
    'rt: '*) ;;
    *) return 1 ;;
    esac
}

# Keeps what rt prints, and tells that proving is under way if that takes a while or if rt says that it proves.
follow() {
    local part
    while true; do
        if IFS= read -r -t 3 part; then
            printf '%s\n' "$part" >>"$work/log"
            ! proves "$part" || tell
        elif [ $? -gt 128 ]; then
            tell
        else
            return
        fi
    done
}

# Runs rt in a crate's folder, and where that had something to do names the crate, with the time that it took.
prove() {
    local crate=$1 start=$SECONDS lines line did=''
    shift
    lines=$(wc -l <"$work/log")
    (cd "$top/crates/$crate" && exec rt "$@" 2>&1 </dev/null 8<&-) | follow
    [ "${PIPESTATUS[0]}" -eq 0 ] || return 1
    while IFS= read -r line; do
        ! proves "$line" || did=1
    done < <(tail -n "+$((lines + 1))" "$work/log")
    [ -z "$did" ] || printf 'list.sh: %s proved (%s s)\n' "$crate" "$((SECONDS - start))" >&2
}

# Proves and builds the program under the lock, and copies it out of the way of later builds. Where it was built before, rt builds
# what has changed since; the empty listing that it runs it for is of no interest here.
build() {
    local crate
    lock
    if [ ! -x "$program" ]; then
        tell
        for crate in $(crates); do
            prove "$crate" lib || fail
        done
    fi
    prove sheetlist run || fail
    cp "$program" "$work/sheetlist" || fail
    exec 9<&-
}

fail() {
    tail -n 20 "$work/log" >&2
    stop 3 'the program could not be built'
}

# Lists the message into a file. Whatever went wrong was said on standard error, by the program or by the shell.
list() {
    "$work/sheetlist" <&8 8<&- >"$work/listing" 2>"$work/said"
    local ended=$?
    cat "$work/said" >&2
    [ "$ended" -eq 0 ] || stop 4 "the program ended with status $ended"
    case $(cat "$work/said") in
    '') ;;
    *'could not be read'*) exit 2 ;;
    *) exit 4 ;;
    esac
}

# Writes the listing out. Its first word tells the exit status.
write() {
    local word status
    IFS=' ' read -r word _ <"$work/listing"
    case $word in
    accepted) status=0 ;;
    refused) status=1 ;;
    *) stop 4 'the program listed nothing' ;;
    esac
    cat "$work/listing" 2>/dev/null || stop 4 'the listing could not be written'
    exit "$status"
}

[ $# -le 1 ] || stop 2 'one file at most; bash list.sh -h tells the usage'
case ${1-} in
-h | --help)
    usage
    exit
    ;;
esac
top=$(cd -- "$(dirname -- "$(readlink -f -- "$0")")" && pwd) || stop 3 'not built: the folder of list.sh cannot be entered'
program=$top/crates/sheetlist/out/sheetlist
{ exec 7>&1 7>&-; } 2>/dev/null || stop 4 'standard output is closed'
open_message "${1-$top/examples/empty-chest.msg}"
for tool in rt flock awk; do
    command -v "$tool" >/dev/null || stop 3 "not built: $tool is not there"
done
told=''
work=$(mktemp -d) || stop 3 'not built: no temporary folder can be made'
trap 'rm -rf "$work"' EXIT
: >"$work/log"
build
list
write
