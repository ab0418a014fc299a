# shellcheck shell=bash
# Comparing and counting for the shell tests, to be sourced.

passed=0 failed=0

# Compares what was found with what is expected, and counts.
expect() { # NAME EXPECTED FOUND
    if [ "$2" = "$3" ]; then
        passed=$((passed + 1))
    else
        failed=$((failed + 1))
        printf 'FAILED: %s\n  expected: %s\n  found:    %s\n' "$1" "$2" "$3"
    fi
}

# Prints the counts as the last line; status 1 if one failed.
conclude() {
    echo "$passed passed, $failed failed"
    [ "$failed" -eq 0 ]
}
