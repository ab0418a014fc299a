#!/usr/bin/env bash
# Checks that docs/SPEC.md and docs/PROOF.md name what is there: each name in backquotes that stands before
# a place, as `well_formed` (tree/Tree), must stand in the file of that place.
#
# Prints a line for each name that does not; the last line is 'N passed, M failed'.
set -euo pipefail
cd "$(dirname "$(readlink -f "${BASH_SOURCE[0]}")")/.."
. tests/shell.sh

only_help "usage: tests/spec-names.sh [--help]
  Checks the names of docs/SPEC.md and docs/PROOF.md against the files that they are said to stand in." "$@"

# The file of a place: CRATE/NAME is a file of definitions; a path below the crate stands as it is.
file_of() { # PLACE
    case $1 in
    */*.*) echo "crates/$1" ;;
    *) echo "crates/${1%%/*}/specs/${1#*/}.antt" ;;
    esac
}

passed=0 failed=0
while read -r place names; do
    file=$(file_of "$place")
    for name in $names; do
        if [ -f "$file" ] && grep -qE "(^|[^[:alnum:]_-])$name([^[:alnum:]_-]|\$)" "$file"; then
            passed=$((passed + 1))
        else
            echo "$name is not in $file"
            failed=$((failed + 1))
        fi
    done
done < <(grep -ohE '(`[A-Za-z][A-Za-z0-9_-]*`(, | and )?)+ \([a-z_0-9]+/[A-Za-z0-9_./]+\)' docs/SPEC.md docs/PROOF.md |
    sed -E 's/^(.*) \(([^)]*)\)$/\2 \1/; s/`|,//g; s/ and / /g')
echo "$passed passed, $failed failed"
[ "$failed" -eq 0 ] && [ "$passed" -gt 0 ]
