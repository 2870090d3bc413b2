# Shared by the test scripts that source it: counting checks, and a folder that is gone afterwards.
passed=0
failed=0
folder=$(mktemp -d) || exit 1
trap 'rm -rf "$folder"' EXIT

# check NAME COMMAND..: counts the command by its exit status. A failure is named, and what the command printed follows.
check() {
    local name=$1
    shift
    if "$@" >"$folder/log" 2>&1; then
        passed=$((passed + 1))
    else
        failed=$((failed + 1))
        printf 'failed: %s\n' "$name"
        cat "$folder/log"
    fi
}

# lacking WORDS: what is missing keeps every check from being made.
lacking() {
    printf '%s\n0 passed, 1 failed\n' "$1"
    exit 1
}

# The last line, and the exit status: 0 only when something passed and nothing failed.
end() {
    printf '%s passed, %s failed\n' "$passed" "$failed"
    [ "$failed" -eq 0 ] && [ "$passed" -gt 0 ]
    exit
}
