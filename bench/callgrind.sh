# shellcheck shell=bash
# Counting instructions with callgrind, to be sourced from the root of the tree: a scratch folder $work, runs that are
# counted, and bounds.

for command in valgrind callgrind_annotate; do
    command -v "$command" >/dev/null || { echo "$command is not found: valgrind is needed to count instructions"; exit 1; }
done
command -v gcc >/dev/null || { echo "gcc is not found: it builds the program for C"; exit 1; }
[ -f target/staticlib/libwaggleloft.a ] ||
    { echo "target/staticlib/libwaggleloft.a is not there: run './archive' first"; exit 1; }

work=$(mktemp -d)
trap 'rm -rf "$work"' EXIT
passed=0 failed=0

# A program for C, built into $work.
build() { # NAME SOURCE
    gcc -std=c11 -O2 @tests/c/flags "$2" target/staticlib/libwaggleloft.a -o "$work/$1"
}

# Counts a run on this function's standard input; what it writes is in $work/said.
counted() { # PROGRAM ARGUMENTS..
    valgrind --tool=callgrind --callgrind-out-file="$work/out" "$@" >"$work/said" 2>"$work/err" ||
        { echo "valgrind did not run $1:" >&2; tail -n 3 "$work/err" >&2; return 1; }
    callgrind_annotate --inclusive=yes --threshold=100 "$work/out" >"$work/listing" 2>/dev/null
}

# Instructions of a function, callees included, in the run that was counted last.
instructions() { # FUNCTION
    local found
    found=$(awk -v name=":$1 \\\\[" '$0 ~ name && !seen { gsub(",", "", $1); print $1; seen = 1 }' "$work/listing")
    [ -n "$found" ] || { echo "no function $1 was counted" >&2; return 1; }
    echo "$found"
}

# Compares a count with its bound.
bound() { # WHAT INSTRUCTIONS BOUND
    if [ "$2" -gt 0 ] && [ "$2" -le "$3" ]; then
        passed=$((passed + 1))
    else
        failed=$((failed + 1))
        echo "FAILED: $1 takes $2 instructions; the bound is $3"
    fi
}

# The last line, and the exit status.
tell() {
    echo "$passed passed, $failed failed"
    [ "$failed" -eq 0 ]
}
