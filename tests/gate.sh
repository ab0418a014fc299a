#!/usr/bin/env bash
# Tests of the gate's own pieces: each check that can pass is shown to fail too.
# The last line is 'N passed, M failed'; exit status 1 if one failed.
set -euo pipefail
cd "$(dirname "${BASH_SOURCE[0]}")/.."
. tests/tally.sh
. tests/expect.sh
. tests/sizes.sh

work=$(mktemp -d)
trap 'rm -rf "$work"' EXIT

# ---- the listing check, on a copy of the tree's skeleton

skeleton() {
    local folder
    rm -rf "$work/tree"
    mkdir -p "$work/tree/crates"
    cp crates.txt "$work/tree/"
    for folder in crates/*/; do mkdir "$work/tree/$folder"; done
}

# Prints what the check says of the skeleton, and its exit status.
listing() {
    local status=0
    tests/listed.sh "$work/tree" 2>&1 || status=$?
    echo "status $status"
}

skeleton
expect 'the tree itself is listed' 'status 0' "$(listing)"

mkdir "$work/tree/crates/stowaway"
expect 'an unlisted crate folder is refused' \
    $'crates/stowaway is not listed in crates.txt\nstatus 1' "$(listing)"

echo '# stowaway:' >>"$work/tree/crates.txt"
expect 'a crate listed in a comment is refused' \
    $'crates/stowaway is not listed in crates.txt\nstatus 1' "$(listing)"

echo 'stowaway: # no dependency' >>"$work/tree/crates.txt"
expect 'the same folder is taken once it is listed' 'status 0' "$(listing)"

mkdir "$work/tree/crates/archive"
echo 'archive staticlib: stowaway' >>"$work/tree/crates.txt"
expect 'a listed static library is taken' 'status 0' "$(listing)"

rmdir "$work/tree/crates/archive"
expect 'a listed static library without its folder is refused' \
    $'crates.txt lists archive and there is no crates/archive\nstatus 1' "$(listing)"
sed -i '$d' "$work/tree/crates.txt"

rmdir "$work/tree/crates/stowaway"
expect 'a listed crate without its folder is refused' \
    $'crates.txt lists stowaway and there is no crates/stowaway\nstatus 1' "$(listing)"

skeleton
rm "$work/tree/crates.txt"
expect 'a tree without crates.txt is refused' refused \
    "$(tests/listed.sh "$work/tree" >"$work/log" 2>&1 && echo taken || echo refused)"

# ---- the counts of a step

# Prints the counts of a step with that output and status.
counted() { # KIND STATUS TEXT
    printf '%b' "$3" >"$work/log"
    counts "$1" "$2" "$work/log"
}

expect 'counts of a last line' '7 0' "$(counted line 0 'x\n7 passed, 0 failed\n')"
expect 'failures of a last line' '7 2' "$(counted line 1 '7 passed, 2 failed\n')"
expect 'failures count whatever the status' '7 2' "$(counted line 0 '7 passed, 2 failed\n')"
expect 'a non-zero status fails a fine line' '7 1' "$(counted line 2 '7 passed, 0 failed\n')"
expect 'a missing last line fails' '0 1' "$(counted line 0 '7 passed, 0 failed\nmore\n')"
expect 'no output fails' '0 1' "$(counted line 0 '')"
expect 'nothing run fails' '0 1' "$(counted line 0 '0 passed, 0 failed\n')"
two='test result: FAILED. 3 passed; 1 failed; 0 ignored\ntest result: FAILED. 4 passed; 2 failed; 0 ignored\n'
expect 'cargo lines add up' '7 3' "$(counted cargo 101 "$two")"
expect 'a non-zero status fails fine cargo lines' '3 1' \
    "$(counted cargo 101 'test result: ok. 3 passed; 0 failed; 0 ignored\n')"
expect 'cargo without a result fails' '0 1' "$(counted cargo 101 'error: no\n')"
expect 'cargo without a test fails' '0 1' "$(counted cargo 0 'test result: ok. 0 passed; 0 failed; 0 ignored\n')"
expect 'a plain step that passes counts nothing' '0 0' "$(counted plain 0 '9 passed, 9 failed\n')"
expect 'a plain step that fails counts once' '0 1' "$(counted plain 3 '')"

# ---- the must-fail edits that `rt ci` could not try

# What is said of a run of `rt ci` that printed this, and the exit status.
edits() { # TEXT
    local status=0
    printf '%b' "$1" >"$work/log"
    no_edit_is_bad "$work/log" || status=$?
    echo "status $status"
}
whole='every proof and must-fail edit was done in this run'
ok="rt: ok; handles allowed: none; must-fail edits: 3 refused"
expect 'edits that are all refused' 'status 0' "$(edits "x\\n$ok; $whole\\n9 passed, 0 failed\\n")"
expect 'edits refused only by a limit' 'status 0' "$(edits "$ok, 1 of them only by a limit; $whole\\n9 passed, 0 failed\\n")"
expect 'a bad edit' "$ok, 2 bad; $whole"$'\nstatus 1' "$(edits "$ok, 2 bad; $whole\\n9 passed, 0 failed\\n")"
expect 'a bad edit beside one refused only by a limit' "$ok, 1 of them only by a limit, 2 bad; $whole"$'\nstatus 1' \
    "$(edits "$ok, 1 of them only by a limit, 2 bad; $whole\\n9 passed, 0 failed\\n")"
expect 'a run that does not say ok' $'rt ci has no line \'rt: ok\'\nstatus 1' "$(edits 'rt: FAILED: layout\n9 passed, 1 failed\n')"

# ---- the sizes that scripts take from the header

expect 'words of the image, nodes, where they stand, words of a node' '1520 32 400 35' \
    "$IMAGE_WORDS $NODES $NODES_AT $NODE_WORDS"
expect 'digest and svn of a node' '8 34' "$NODE_CURRENT $NODE_SVN"
expect 'stores of a cold boot, a stash, an extension, an update' '1521 54 14 62' \
    "$COLD_STORES $STASH_STORES $EXTENSION_STORES $UPDATE_STORES"
expect 'bytes of a handle' 20 "$HANDLE_BYTES"
expect 'stores of a derive with and without retain, an extend, a rotate, a destroy of 1 and of 31 nodes' '37 42 26 7 37 1087' \
    "$RETAINING_STORES $RETIRING_STORES $EXTEND_STORES $ROTATE_STORES $(destroy_stores 1) $(destroy_stores 31)"
expect 'a size that the header has not' refused "$(header NODE >"$work/log" && echo taken || echo refused)"

# ---- the picture of docs/ANSWER.md

# Prints the last line of the check of a picture, and its exit status.
pictured() { # FILE
    local status=0
    tests/picture.sh --check "$1" >"$work/log" 2>&1 || status=$?
    echo "$(tail -n 1 "$work/log"), status $status"
}

sed '0,/>1 to /s//>2 to /' docs/answer.svg >"$work/other.svg"
expect 'another picture is refused' '0 passed, 1 failed, status 1' "$(pictured "$work/other.svg")"
expect 'a picture that is not there is refused' '0 passed, 1 failed, status 1' \
    "$(pictured "$work/none.svg")"

complaint() { # WORDS..
    local status=0
    tests/picture.sh "$@" >"$work/out" 2>"$work/log" || status=$?
    echo "$(wc -l <"$work/out") $(wc -l <"$work/log") status $status"
}
expect 'the picture: an unknown word' '0 1 status 2' "$(complaint --chekc)"
expect 'the picture: too many words' '0 1 status 2' "$(complaint --check a b)"
expect 'the picture: a file that cannot be written' '0 1 status 1' "$(complaint --write "$work/no/file")"

# ---- the deepest stack from an archive's code

# Prints the last line that bench/stack says of a C file, and its exit status.
stacked() { # LINES OF C
    local status=0
    printf '%s\n' "$1" | gcc -O1 -fno-inline -fno-optimize-sibling-calls -c -x c - -o "$work/code.o"
    bench/stack "$work/code.o" >"$work/log" 2>&1 || status=$?
    echo "$(tail -n 1 "$work/log"), status $status"
}

# A function that takes a little more than N bytes.
frame() { # N BODY
    echo "void use(char *); unsigned waggleloft_sha384(unsigned n) { char b[$1]; use(b); ${2-} return b[0] + n; }"
}
expect 'a digest with little stack' '1 passed, 0 failed, status 0' "$(stacked "$(frame 1000)")"
expect 'a digest with too much stack' '0 passed, 1 failed, status 1' "$(stacked "$(frame 1600)")"
expect 'what a called function takes counts' '0 passed, 1 failed, status 1' \
    "$(stacked "void use(char *); static void deep(void) { char b[900]; use(b); } $(frame 900 'deep();')")"
expect 'a digest that calls itself' '1 passed, 1 failed, status 1' "$(stacked "$(frame 100 'if (n) waggleloft_sha384(n - 1);')")"
expect 'a digest that calls through a pointer' '1 passed, 1 failed, status 1' \
    "$(stacked "extern void (*call)(void); $(frame 100 'call();')")"
expect 'an archive without the digest' '1 passed, 1 failed, status 1' "$(stacked 'int other(void) { return 1; }')"
expect 'another function with too much stack' '1 passed, 1 failed, status 1' \
    "$(stacked "$(frame 100) void other(void) { char b[3200]; use(b); }")"
for function in begin feed finish; do
    expect "a running digest's $function within its bound" '2 passed, 0 failed, status 0' \
        "$(stacked "$(frame 100) void waggleloft_sha384_$function(void) { char b[1600]; use(b); }")"
    expect "a running digest's $function with too much stack" '1 passed, 1 failed, status 1' \
        "$(stacked "$(frame 100) void waggleloft_sha384_$function(void) { char b[1700]; use(b); }")"
done

# ---- the digest's speed

# Prints the last line of bench/speed with these bounds, and its exit status.
timed() { # BOUND SLICES_BOUND
    local status=0
    bench/speed "$@" >"$work/log" 2>&1 || status=$?
    echo "$(tail -n 1 "$work/log"), status $status"
}
# A bound of 100 is kept on any machine.
expect 'a digest that takes longer than its bound' '1 passed, 1 failed, status 1' "$(timed 0.01 100)"
expect 'slices that take longer than their bound' '1 passed, 1 failed, status 1' "$(timed 100 0.01)"
expect 'a bound that is no number' 'status 2' "$(timed 2 x | grep -o 'status 2')"

conclude
