#!/usr/bin/env bash
# Checks that crates.txt and the folders of crates/ name the same crates.
#
# Usage: tests/listed.sh [ROOT]     (ROOT: this repository if left out)
# Prints a line for each crate that has only one of the two; exit status 1 then.
set -euo pipefail
export LC_ALL=C

cd "${1:-$(dirname "${BASH_SOURCE[0]}")/..}"

listed() {
    sed 's/#.*//; /:/!d; s/:.*//; s/^[[:space:]]*//; s/[[:space:]].*//' crates.txt | sort
}

folders() {
    find -L crates -mindepth 1 -maxdepth 1 -type d | sed 's|.*/||' | sort
}

# Assigned first, so that a missing file or folder ends the check.
listed=$(listed)
folders=$(folders)
unlisted=$(comm -13 <(echo "$listed") <(echo "$folders"))
missing=$(comm -23 <(echo "$listed") <(echo "$folders"))
for name in $unlisted; do echo "crates/$name is not listed in crates.txt"; done
for name in $missing; do echo "crates.txt lists $name and there is no crates/$name"; done
[ -z "$unlisted$missing" ]
