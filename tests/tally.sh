# shellcheck shell=bash
# To be sourced: adds up tests that end in a line 'N passed, M failed'. Sets passed and failed.
passed=0 failed=0

# Runs one and counts what its last line says. One that says nothing, or ends with 0 though it counts a failure, or the other way, is a failure itself.
tally() {
    local log status good='' bad=''
    log=$(mktemp)
    "$@" 2>&1 | tee "$log"
    status=${PIPESTATUS[0]}
    read -r good bad < <(tail -n 1 "$log" | sed -n 's/^\([0-9]*\) passed, \([0-9]*\) failed$/\1 \2/p')
    rm -f "$log"
    case "${bad:-none} $status" in
        '0 0' | [1-9]*\ [1-9]*) ;;
        *)
            printf '%s\n' "FAILED: $* ended with status $status"
            bad=$((${bad:-0} + 1))
            ;;
    esac
    passed=$((passed + ${good:-0})) failed=$((failed + bad))
}

# Runs one that only has a status.
once() {
    if "$@"; then
        passed=$((passed + 1))
    else
        printf '%s\n' "FAILED: $*"
        failed=$((failed + 1))
    fi
}

# The last line, and the status.
told() {
    printf '%s\n' "$passed passed, $failed failed"
    [[ $failed -eq 0 ]]
}
