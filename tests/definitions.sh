#!/usr/bin/env bash
# Tries wrong definitions that stand in another crate than the contracts that cite them, which a
# must-fail edit does not reach. Each file of tests/definitions/ says
#
#   refused: CRATE        the crate of the contract
#   file: PATH            the definition's file, from the root
#   old: TEXT, new: TEXT  what is replaced in it, once
#
# The definition's crate must still be proved and CRATE be refused, at a proof of its own. The last line
# is 'N passed, M failed'; exit status 1 if one failed. Where the tree's own crates are built (`./archive`
# builds most), what does not rest on the definition is taken from there and not proved again.
set -euo pipefail
cd "$(dirname "$(readlink -f "${BASH_SOURCE[0]}")")/.."
. tests/shell.sh
. tests/expect.sh

only_help "usage: tests/definitions.sh [--help]
  Tries each wrong definition of tests/definitions/." "$@"
make_scratch

# The value of a line 'KEY: ..' of an edit.
value() { sed -n "s/^$1: //p" "$2"; } # KEY EDIT

# Makes a copy of the tree in which the definition is wrong, with nothing that is built.
copy() { # EDIT TREE
    local part
    mkdir -p "$2"
    cp crates.txt "$2/"
    for part in crates/*/{src,specs,proofs}; do
        [ -d "$part" ] || continue
        mkdir -p "$2/${part%/*}"
        cp -R "$part" "$2/$part"
    done
    OLD=$(value old "$1") NEW=$(value new "$1") awk '
        { text = text $0 "\n" }
        END {
            at = index(text, ENVIRON["OLD"]); rest = substr(text, at + length(ENVIRON["OLD"]))
            if (!at || index(rest, ENVIRON["OLD"])) exit 3
            printf "%s%s%s", substr(text, 1, at - 1), ENVIRON["NEW"], rest
        }' "$(value file "$1")" >"$2/edited" || { echo "the old text does not stand once in its file"; return 1; }
    mv "$2/edited" "$2/$(value file "$1")"
}

# `rt check` in a crate of the copy: the status, and what it said in the file LOG. It says last of which crate it
# checked the proofs, after the crates beneath it.
check() { # TREE CRATE LOG
    local status=0
    (cd "$1/crates/$2" && rt check --jobs 1 </dev/null) >"$3" 2>&1 || status=$?
    echo "$status $(sed -n 's/^crate \([a-z0-9_]*\): modules .*/\1/p' "$3" | tail -n 1)"
}

# Whether a proof is refused, and every text of src/ and specs/ can be read.
is_refused() { # LOG
    grep -q '^logic=not-proved' "$1" && grep -qE '^(\./)?proofs/.*: error|^fn .*: no proof: ' "$1" &&
        ! grep -qE '^(\./)?(src|specs)/.*: error' "$1"
}

# Says what becomes of a wrong definition.
try() { # EDIT
    local tree log crate home below above
    crate=$(value refused "$1") home=$(value file "$1" | cut -d/ -f2)
    tree=$scratch/$(basename "$1" .edit) log=$scratch/$(basename "$1" .edit).log
    copy "$1" "$tree" || return 0
    below=$(check "$tree" "$home" "$log.home")
    above=$(check "$tree" "$crate" "$log")
    # Renamed first: rt takes a library from whichever copy has it, and is not to find one that is half removed.
    mv "$tree" "$tree.tried" && rm -rf "$tree.tried"
    if [ "$below" != "0 $home" ]; then
        echo "$home is not proved, status and crate $below: $(grep -m 1 'error' "$log.home" || tail -n 1 "$log.home")"
    elif [ "$above" = "1 $crate" ] && is_refused "$log"; then
        echo refused
    else
        echo "status and crate $above: $(grep -m 1 'error' "$log" || tail -n 1 "$log")"
    fi
}

# As many at a time as there are cores, at most four: each takes one, and some memory.
at_once=$(nproc)
[ "$at_once" -le 4 ] || at_once=4
said=()
for edit in tests/definitions/*.edit; do
    while [ "$(jobs -rp | wc -l)" -ge "$at_once" ]; do wait -n; done
    try "$edit" >"$scratch/$(basename "$edit").said" &
    said+=("$(basename "$edit")")
done
wait
for name in "${said[@]}"; do
    expect "${name%.edit} is refused by $(value refused "tests/definitions/$name")" refused "$(cat "$scratch/$name.said")"
done
conclude
