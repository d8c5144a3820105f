# shellcheck shell=sh
# Counting checks, for scripts that source it: one line a check, and the last line is 'N passed, M failed'. What this host has no
# way to check is printed and counted as neither.
passed=0
failed=0

pass() {
    passed=$((passed + 1))
    printf 'ok: %s\n' "$1"
}

fail() {
    failed=$((failed + 1))
    printf 'FAILED: %s\n' "$1"
}

skip() { printf 'skipped: %s\n' "$1"; }

# Says whether a command went well, with what it said where it did not.
try() { # WHAT COMMAND..
    what=$1
    shift
    count_log=$(mktemp) || exit 1
    if "$@" >"$count_log" 2>&1; then
        pass "$what"
        rm -f "$count_log"
    else
        fail "$what"
        sed 's/^/  /' "$count_log"
        rm -f "$count_log"
        return 1
    fi
}

# Runs a command that ends with such a count of its own, shows what it prints, and adds the count. What it printed is left in counted_log,
# where that is set to the name of a file.
counted() { # NAME COMMAND..
    name=$1
    shift
    count_log=$(mktemp) || exit 1
    {
        "$@" 2>&1
        echo $? >"$count_log.status"
    } | tee "$count_log"
    last=$(tail -n 1 "$count_log")
    status=$(cat "$count_log.status")
    [ -z "${counted_log-}" ] || cp "$count_log" "$counted_log"
    rm -f "$count_log" "$count_log.status"
    case $last in
    *[0-9]' passed, '[0-9]*' failed')
        passed=$((passed + ${last%% *}))
        last=${last#* passed, }
        failed=$((failed + ${last%% *}))
        ;;
    *) fail "$name ended without its count" ;;
    esac
    if [ "$status" = 0 ]; then pass "$name"; else fail "$name (exit status $status)"; fi
}

finish() {
    printf '%s passed, %s failed\n' "$passed" "$failed"
    [ "$failed" -eq 0 ] && [ "$passed" -gt 0 ]
    exit
}
