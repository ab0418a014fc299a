#!/usr/bin/env bash
# Builds the C and C++ programs over the archive, with the flags of tests/c/flags, and runs them: plain,
# and with the address and undefined behaviour sanitizers. With the argument 'valgrind' each is run
# once more under valgrind.
# Needs target/staticlib/libwaggleloft.a (`./archive`).
# The last line is 'N passed, M failed'; exit status 1 if one failed.
set -euo pipefail
cd "$(dirname "${BASH_SOURCE[0]}")/../.."
. tests/expect.sh
. tests/digests.sh
. tests/unit.sh
archive=target/staticlib/libwaggleloft.a
built=target/c
[ -f "$archive" ] || { echo "$archive is not there: run './archive' first"; exit 1; }
mkdir -p "$built"

# The programs that count their own checks, and the examples.
tests=(tests/c/*.c tests/c/*.cpp)
examples=(examples/*.c)

# The stores of a stash.
stash_stores=54

name_of() { basename "${1%.*}"; } # SOURCE

# Builds one program.
build() { # SUFFIX SOURCE FLAGS..
    local suffix=$1 source=$2 compiler=(gcc -std=c11)
    shift 2
    case $source in *.cpp) compiler=(g++ -std=c++17) ;; esac
    "${compiler[@]}" "$@" @tests/c/flags "$source" "$archive" -o "$built/$(name_of "$source")$suffix"
}

# Runs a program that counts its own checks, and adds them.
counted() { # COMMAND..
    local status=0 last counts
    "$@" >"$built/out" 2>&1 || status=$?
    last=$(tail -n 1 "$built/out")
    counts=$(sed -nE 's/^([0-9]+) passed, ([0-9]+) failed$/\1 \2/p' <<<"$last")
    if [ "$status" -ne 0 ] || [ -z "$counts" ]; then
        echo "FAILED: $* (status $status)"
        cat "$built/out"
        failed=$((failed + 1))
    else
        passed=$((passed + ${counts% *}))
    fi
}

# What a program writes to standard output, and its status if it is not 0.
refused() { # COMMAND..
    "$@" 2>/dev/null || echo "status $?"
}

# What the example of the buyer's midnight says of a cut, in its last line.
midnight() { # COMMAND..
    "$@" | tail -n 1
}

# The example of a digest in pieces on a file of that many bytes, by its name and on standard input.
pieces() { # SUFFIX BYTES COMMAND..
    local suffix=$1 bytes=$2 digest
    shift 2
    head -c "$bytes" "$built/numbers" >"$built/image"
    digest=$(sha384sum <"$built/image" | cut -d' ' -f1)
    expect "pieces$suffix of $bytes bytes" "$digest" "$("$@" "$built/pieces$suffix" "$built/image")"
    expect "pieces$suffix of $bytes bytes from a pipe" "$digest" "$(head -c "$bytes" "$built/numbers" | "$@" "$built/pieces$suffix")"
}

# What the example of the buyer's midnight prints as its list: the root, whose digest is that of both boots, and
# the program with its svn if it is in.
boots=("$(of 'the runtime')" "$(of 'its manifest')")
list_without=$(printf '  node 0  RTJM  %.12s..  svn 0' "$(extended "$zero" "${boots[@]}" "${boots[@]}")")
list_with=$(printf '%s\n  node 1  HOUR  %.12s..  svn 300' "$list_without" "$(of 'counts hours')")

# What the example of the gearbox maker prints of a register: zero extended by the digest of his program.
register_value=$(extended "$zero" "$(of 'shifts gears')")

# What the example of the tree prints: the root, and the child while it is there, with the digest of its program.
tree_root=$(printf '  node 0  RTJM  %.12s..  the default handle' "$(extended "$zero" "$(times 48 11)" "$(times 48 33)")")
tree_child() { # PROGRAM
    printf '%s\n  node 1 below node 0  HOUR  %.12s..  a handle of its own' "$tree_root" "$(of "$1")"
}
tree_steps=$(printf '%s\n' "$tree_root" \
    'derive: 37 stores, dpe result 0' "$(tree_child 'counts hours')" \
    'extend: 26 stores, dpe result 0' "$(tree_child 'counts hours better')" \
    'rotate: 7 stores, dpe result 0' \
    'destroy by the old handle: 0 stores, dpe result 6' "$(tree_child 'counts hours better')" \
    'destroy: 37 stores, dpe result 0' "$tree_root")

# What the example of a journal leaves: the unit made by hand, without its secret.
new_unit
cold_boot "${boots[@]}"
stash $((0x52554F48)) "$(of 'counts hours')" 300 1 # HOUR
extension 4 "$(of 'shifts gears')"
update "$(of 'the next runtime')" "$(of 'its manifest too')"
stash $((0x54534552)) "$(of 'counts rest')" 1 1 # REST
save_unit "$built/unit"

# Whether the example's image and journal are these.
same_unit() {
    cmp "$built/kept.image" "$built/unit.image" && cmp "$built/kept.journal" "$built/unit.journal" && echo same
}

# All examples; COMMAND comes before each program.
run_examples() { # SUFFIX COMMAND..
    local suffix=$1 bytes register
    shift
    expect "gearbox$suffix" "PCR4 $register_value" "$("$@" "$built/gearbox$suffix")"
    expect "gearbox$suffix 30" "PCR30 $register_value" "$("$@" "$built/gearbox$suffix" 30)"
    for register in 3 31 0x104; do
        expect "gearbox$suffix $register" 'the extension was refused with number 12'$'\n''status 1' \
            "$(refused "$@" "$built/gearbox$suffix" "$register")"
    done
    expect "tree$suffix" "$tree_steps" "$("$@" "$built/tree$suffix")"
    "$@" "$built/journal$suffix" "$built/kept.image" "$built/kept.journal"
    expect "journal$suffix" same "$(same_unit)"
    rm "$built/kept.image" "$built/kept.journal"
    for bytes in 0 1 4096 65535 65536 1000000; do pieces "$suffix" "$bytes" "$@"; done
    expect "boot$suffix" "$(printf abc | sha384sum | cut -d' ' -f1)"$'\n'FFFFFEDB "$("$@" "$built/boot$suffix")"
    expect "midnight$suffix 0" 'Attestation is on. The new measurement is not in the list, and all earlier ones are.' \
        "$(midnight "$@" "$built/midnight$suffix" 0)"
    expect "midnight$suffix 0, its list" "$list_without" "$("$@" "$built/midnight$suffix" 0 | grep '^  node')"
    for cut in 1 $((stash_stores - 1)); do
        expect "midnight$suffix $cut" \
            'The unit found a work that was cut: attestation is off and the secret is erased, until a cold boot starts a new list. You are shown no list, so none with a hole in it.' \
            "$(midnight "$@" "$built/midnight$suffix" "$cut")"
        expect "midnight$suffix $cut, no list" '' "$("$@" "$built/midnight$suffix" "$cut" | grep '^  node' || true)"
    done
    expect "midnight$suffix $stash_stores" 'Attestation is on. The new measurement is in the list, and all earlier ones are.' \
        "$(midnight "$@" "$built/midnight$suffix" "$stash_stores")"
    expect "midnight$suffix $stash_stores, its list" "$list_with" "$("$@" "$built/midnight$suffix" "$stash_stores" | grep '^  node')"
    expect "midnight$suffix $stash_stores, its answer" 'The unit had its answer of 12 bytes ready, its checksum fine.' \
        "$("$@" "$built/midnight$suffix" "$stash_stores" | grep answer)"
}

all() { # SUFFIX COMMAND..
    local suffix=$1 source
    shift
    for source in "${tests[@]}"; do counted "$@" "$built/$(name_of "$source")$suffix"; done
    run_examples "$suffix" "$@"
}

# What the archive needs from outside, and the kinds of instructions in it that not every x86-64 processor has: SSE3 and
# later, AVX, bit counts.
needed() { nm --undefined-only "$archive" | awk '$1 == "U" { print $2 }' | sort -u | tr '\n' ' '; }
later() {
    objdump --disassemble --no-show-raw-insn "$archive" |
        awk '$1 ~ /^[0-9a-f]+:$/ && $2 ~ /^(v[a-z]|popcnt|lzcnt|crc32|andn|bextr|bls|pext|pdep|[rs][aoh][lr]x$|mulx|adc?ox|movbe|palignr|pshufb|ph(add|sub)|pabs|psign|pmaddubsw|pmulhrsw|pinsr[bdq]|pextr[bdq]|insertps|extractps|pmov[sz]x|pm(in|ax)(s[bd]|u[wd])|pmul(ld|dq)|packusdw|pcmp(eqq|gtq|[ei]str)|p?blend|round[ps]|ptest|dpp|mpsadbw|phminpos|movntdqa|h(add|sub)p|addsubp|mov(ddup|s[lh]dup)|lddqu|cmpxchg16b|aes|pclmul|sha[0-9])/ { print $2 }' |
        sort -u | tr '\n' ' '
}
expect 'what the archive needs from outside' 'memcpy memset ' "$(needed)"
expect 'instructions that not every x86-64 processor has' '' "$(later)"

seq 200000 >"$built/numbers"
for suffix in '' .san; do
    flags=(-O2)
    [ -z "$suffix" ] || flags=(-g -fsanitize=address,undefined -fno-sanitize-recover=all)
    for source in "${tests[@]}" "${examples[@]}"; do build "$suffix" "$source" "${flags[@]}"; done
    all "$suffix" env --
done

expect 'midnight without a number' 'status 2' "$(refused "$built/midnight")"
expect 'midnight with a store too many' 'status 2' "$(refused "$built/midnight" $((stash_stores + 1)))"
expect 'gearbox with no number' 'status 2' "$(refused "$built/gearbox" four)"
expect 'gearbox with 2^32 + 4' 'status 2' "$(refused "$built/gearbox" 4294967300)"
expect 'journal without files' 'status 2' "$(refused "$built/journal")"
expect 'journal in no folder' 'status 1' "$(refused "$built/journal" "$built/none/image" "$built/none/journal")"
expect 'journal with an image on a full disk' 'status 1' "$(refused "$built/journal" /dev/full "$built/kept.journal")"
expect 'journal on a full disk' 'status 1' "$(refused "$built/journal" "$built/kept.image" /dev/full)"
expect 'pieces of no file' 'status 1' "$(refused "$built/pieces" "$built/none")"
expect 'pieces of a folder' 'status 1' "$(refused "$built/pieces" "$built")"
expect 'pieces of two files' 'status 2' "$(refused "$built/pieces" "$built/image" "$built/image")"
if [ "${1:-}" = valgrind ]; then all '' valgrind -q --error-exitcode=3 --leak-check=full; fi

conclude
