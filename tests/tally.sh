# shellcheck shell=bash
# Counts of a gate's step, to be sourced: from what the step printed and its
# exit status to 'PASSED FAILED'.

# The counts in the last line 'N passed, M failed'; nothing if it is another.
last_line_counts() { # LOG
    tail -n 1 "$1" | sed -nE 's/^([0-9]+) passed, ([0-9]+) failed$/\1 \2/p'
}

# The sums over cargo's lines 'test result: ..'; nothing if there is none.
cargo_counts() { # LOG
    sed -nE 's/^test result: [a-zA-Z]+\. ([0-9]+) passed; ([0-9]+) failed;.*/\1 \2/p' "$1" |
        awk '{ passed += $1; failed += $2 } END { if (NR) print passed + 0, failed + 0 }'
}

# Status 0 if the line 'rt: ok' of what `rt ci` printed calls no must-fail edit bad. `rt ci` passes over an
# edit that could not be tried, so the gate asks for more. Prints the line if it does; a run without it says nothing.
no_edit_is_bad() { # LOG
    local said
    said=$(grep '^rt: ok' "$1" | tail -n 1) || true
    [ -n "$said" ] || { echo "rt ci has no line 'rt: ok'"; return 1; }
    [[ ! $said =~ ,\ [0-9]+\ bad(;|$) ]] || { echo "$said"; return 1; }
}

# Prints 'PASSED FAILED' of a step. KIND says where its counts stand:
#   line    in its last line
#   cargo   in cargo's lines
#   plain   nowhere: it counts only if it fails
# A step that ended with a non-zero status has at least one failure, and so has
# a step that was to count and counted nothing.
counts() { # KIND STATUS LOG
    local kind=$1 status=$2 log=$3 found='0 0' passed failed
    case $kind in
    line) found=$(last_line_counts "$log") ;;
    cargo) found=$(cargo_counts "$log") ;;
    esac
    read -r passed failed <<<"${found:-0 0}"
    if [ "$failed" -eq 0 ]; then
        if [ "$status" -ne 0 ]; then failed=1; fi
        if [ "$kind" != plain ] && [ "$passed" -eq 0 ]; then failed=1; fi
    fi
    echo "$passed $failed"
}
