#!/usr/bin/env bash
# Tests of ./run, ./archive and ./demo, from another folder and with the caller's standard input.
# The last line is 'N passed, M failed'; exit status 1 if one failed.
set -euo pipefail
root=$(cd "$(dirname "${BASH_SOURCE[0]}")/.." && pwd)
. "$root/tests/expect.sh"
. "$root/tests/digests.sh"

work=$(mktemp -d)
trap 'rm -rf "$work"' EXIT
cd "$work"
"$root/run" --build sha384sum mailbox driver replay

# Prints what a command writes to standard output, and its exit status; its error stream goes to the
# file stderr.
outcome() { # WORDS..
    local status=0
    "$@" 2>"$work/stderr" || status=$?
    echo "status $status"
}

# The same of ./run on a file.
result() { # FILE WORDS..
    local file=$1
    shift
    outcome "$root/run" "$@" <"$file"
}

# ---- digests

printf abc >abc
head -c 200000 /dev/zero >slices
truncate -s 4294967296 too_long

expect 'a short file' "$(sha384sum <abc)"$'\nstatus 0' "$(result abc sha384sum)"
expect 'a file of several slices' "$(sha384sum <slices)"$'\nstatus 0' "$(result slices sha384sum)"
expect 'no digest: status 1' 'status 1' "$(result too_long sha384sum)"
expect 'the message says why' 1 "$(grep -c 4294967295 stderr)"
rm too_long

# ---- inputs that cannot be read to their end

# Three bytes, a pause, three more.
slow() { printf abc && sleep 0.5 && printf def; }

# ./run on that pipe, which does not block: the flag is the pipe's, so it stays when dd is gone.
impatient() { # NAME
    slow | {
        dd iflag=nonblock count=0 status=none
        outcome "$root/run" "$1"
    }
}

expect 'a slow pipe is read to its end' "$(printf abcdef | sha384sum)"$'\nstatus 0' \
    "$(slow | outcome "$root/run" sha384sum)"
for name in sha384sum mailbox driver; do
    said="$name: the input cannot be read: "
    expect "$name on a folder: no output, status 1" 'status 1' "$(result . $name)"
    expect "$name on a folder: the message" 1 "$(grep -c "^$said" stderr)"
    expect "$name on a closed input: no output, status 1" 'status 1' \
        "$(outcome "$root/run" $name <&-)"
    expect "$name on a closed input: the message" 1 "$(grep -c "^$said" stderr)"
    expect "$name on a pipe that does not block: no output, status 1" 'status 1' "$(impatient $name)"
    expect "$name on a pipe that does not block: the message" 1 "$(grep -c "^$said" stderr)"
done

# Standard output takes nothing.
full() { "$root/run" sha384sum <abc >/dev/full; }
expect 'a digest that cannot be written: status 1' 'status 1' "$(outcome full)"

# ---- what a stranger types

# Checks the exit status, and that the error stream is one line that has the words.
complains() { # NAME STATUS WORDS COMMAND..
    local name=$1 status=$2 words=$3
    shift 3
    expect "$name: status $status" "status $status" "$(outcome "$@" <abc)"
    expect "$name: one line that says '$words'" '1 1' \
        "$(wc -l <stderr) $(grep -cF -- "$words" stderr || true)"
}

complains 'an unknown name' 2 "no program 'nope'" "$root/run" nope
complains 'a path is no name' 2 'no program' "$root/run" ../bin/sha384sum
complains 'an argument too many' 2 'too many arguments' "$root/run" sha384sum abc
complains 'an unknown option' 2 "no option '--nope'" "$root/run" --nope
complains 'no name to build' 2 '--build needs' "$root/run" --build
complains 'no folder for temporary files' 2 '/no/such/folder' \
    env TMPDIR=/no/such/folder "$root/run" sha384sum
expect 'no name: status 2' 'status 2' "$(result abc)"
expect 'no name: the usage' 1 "$(grep -c '^usage: ' stderr)"
expect 'help is on standard output: status 0' '1 status 0' \
    "$(result abc --help | awk '/^usage: /{n++} END{print n, $0}')"
ln -s "$root/run" "$work/linked"
expect 'through a symbolic link' "$(sha384sum <abc)"$'\nstatus 0' \
    "$(outcome "$work/linked" sha384sum <abc)"

# The version has one place; the list of changes opens with it.
version=$(cat "$root/VERSION")
expect 'the version of ./run' "waggleloft $version" "$("$root/run" --version)"
expect 'the newest entry of CHANGES.md' "## $version" "$(grep -m 1 '^## ' "$root/CHANGES.md")"
expect 'the version of the header' "$version" "$(sed -n 's/^#define WAGGLELOFT_VERSION "\(.*\)"/\1/p' "$root/include/waggleloft.h")"

# A tree in which nothing is built, and a toolchain of its own.
mkdir -p tree/crates/sha384sum/src bin
cp "$root/run" "$root/VERSION" tree/
printf 'low: # rests on nothing\nhigh: low io\nother staticlib: low\nsha384sum: high low libc\n' >tree/crates.txt
touch tree/crates/sha384sum/src/main.rt
for tool in awk bash basename cat chmod cp dirname find grep mkdir mktemp mv readlink rm tee tr; do
    ln -s "$(command -v "$tool")" "bin/$tool"
done
tree_run() { env PATH="$work/bin" "$work/tree/run" "$@"; }
complains 'no toolchain' 2 'rt is not found' tree_run sha384sum
touch tree/target
printf '#!/bin/sh\nexit 0\n' >bin/rt
chmod +x bin/rt
complains 'a tree that cannot be written' 2 'cannot be written' tree_run sha384sum
rm tree/target
# `rt run` says where the program is that it has built, and then runs it.
cat >bin/rt <<'END'
#!/bin/sh
[ "$*" = run ] || exit 2
echo "rt: chose --jobs 2 for sha384sum" >&2
mkdir -p out
printf '#!/bin/sh\ncat\n' >out/sha384sum
chmod +x out/sha384sum
echo "logic=proved" >&2
echo "rt: running out/sha384sum; to give it other input, run that file yourself" >&2
echo "what it prints"
exit 1
END
expect 'a first run builds, and says so' 'abcstatus 0' "$(outcome tree_run sha384sum <abc)"
expect 'a first run names the crates and the log' 1 \
    "$(grep -c 'building and proving sha384sum: 3 crates, .* log: target/build.log' stderr)"
expect 'a second run builds nothing' 'abcstatus 0' "$(outcome tree_run sha384sum <abc)"
expect 'a second run says nothing' '' "$(cat stderr)"
rm -r tree/target
printf '#!/bin/sh\necho broken\nexit 1\n' >bin/rt
expect 'a program that is built already is taken' 'abcstatus 0' "$(outcome tree_run sha384sum <abc)"
expect 'a program that is built already: nothing is said' '' "$(cat stderr)"
touch -d '1 minute' tree/crates/sha384sum/src/main.rt
expect 'a build that fails: status 2' 'status 2' "$(outcome tree_run sha384sum <abc)"
expect 'a build that fails: where the log is' 1 "$(grep -c 'target/build.log says why' stderr)"
touch -d '1 hour ago' tree/crates/sha384sum/src/main.rt
touch -d '1 minute' tree/crates.txt
expect 'another crates.txt asks for a build' 'status 2' "$(outcome tree_run sha384sum <abc)"

# The static library in that tree.
cp "$root/archive" tree/
mkdir -p tree/crates/waggleloft
tree_archive() { env PATH="$work/bin" "$work/tree/archive" "$@"; }
complains 'a word that the archive has not' 2 "there is no 'nope'" tree_archive nope
expect 'help of the archive' '1 status 0' "$(outcome tree_archive --help | awk '/^usage: /{n++} END{print n, $0}')"
printf '#!/bin/sh\n[ "$*" = "lib --cpu=x86-64" ] || exit 2\nmkdir -p out\npwd -P >out/libwaggleloft.a\n' >bin/rt
expect 'the archive is built' 'status 0' "$(outcome tree_archive)"
expect 'the archive: where it is put' "$(cd tree/crates/waggleloft && pwd -P)" "$(cat tree/target/staticlib/libwaggleloft.a)"
printf '#!/bin/sh\necho broken\nexit 1\n' >bin/rt
expect 'an archive that is not proved: status 1' $'broken\nstatus 1' "$(outcome tree_archive)"
rm bin/rt
complains 'an archive without a toolchain' 2 'rt is not found' tree_archive

# ---- the demo

root_digest=$(extended "$zero" "$(of 'runtime 1')" "$(of 'manifest 1')" "$(of 'runtime 2')" "$(of 'manifest 2')")

# The demo's tree of that many programs: of each the name, the digest and the svn.
tree() { # COUNT
    local names=('driving hours' 'resting hours' clock 'night shift') svns=(3 1 300 7) k
    printf '     runtime 1, then 2  %.12s..  svn 0\n' "$root_digest"
    for ((k = 0; k < $1; k++)); do
        printf '     %*s└─ %s  %.12s..  svn %d\n' $((3 * k)) '' "${names[k]}" "$(of "${names[k]}")" "${svns[k]}"
    done
}

# The stores of a stash.
stores=54

outcome "$root/demo" >demo.out
expect 'the demo: status 0' 'status 0' "$(tail -n 1 demo.out)"
expect 'the demo: three trees' "$(tree 3 && tree 3 && tree 4)" "$(sed '/^The inspector/,$d' demo.out | grep '^     ')"
expect 'the demo: four cuts' \
    "$(printf '%s\n' \
        "Cut after 0 of $stores stores. The restart gives outcome 1" \
        'The new program is not in the list' \
        "Cut after 1 of $stores stores. The restart gives outcome 3" \
        'The measurement was torn' \
        "Cut after $((stores - 1)) of $stores stores. The restart gives outcome 3" \
        'The measurement was torn' \
        "Cut after $stores of $stores stores. The restart gives outcome 1" \
        'The new program is in the list')" \
    "$(grep -oE 'Cut after [0-9]+ of [0-9]+ stores. The restart gives outcome [0-9]|The new program is( not)? in the list|The measurement was torn' demo.out)"

# The inspector's part: every entry's offset and kind, and three verdicts.
inspection=$(printf '%s\n' ALIKE '1 0 cold' '2 97 stash' '3 153 stash' '4 209 extension' '5 259 update' '6 356 stash' \
    'NOT ALIKE' 'NOTHING TO COMPARE')
# What the demo says of these.
said_of_journal() {
    sed '1,/^The inspector/d' | grep -oE '^ *(NOT )?ALIKE$|^ *NOTHING TO COMPARE$|^ +[0-9]+ +[0-9]+ [a-z]+' | awk '{ $1 = $1; print }'
}
expect 'the demo: a journal inspected' "$inspection" "$(said_of_journal <demo.out)"
expect 'the demo: what the last entry made' 1 "$(grep -c 'than the image has: PCR31, node 2 and node 3\.$' demo.out)"
mkdir kept
expect "the demo's journal alone" "$inspection"$'\nstatus 0' "$({ echo && outcome "$root/demo" journal kept; } >demo.out && said_of_journal <demo.out && tail -n 1 demo.out)"
expect "the demo's journal is kept" 'status 0' "$(outcome "$root/inspect" kept/unit.image kept/unit.journal | tail -n 1)"

expect 'card 10 in words' \
    'The result is 0 (accepted). The answer of 8 bytes has the checksum 0x00000000 and FIPS status 0 (always 0).' \
    "$("$root/demo" request 2>/dev/null | tail -n 1)"
printf 'LBSD\0\0\0\0' >bad_checksum
expect 'a refusal in words' \
    'The result is 1111705675 (0x4243484B, refused: bad checksum, "BCHK"): nothing was stored, and there is no answer.' \
    "$("$root/demo" request bad_checksum 2>/dev/null | tail -n 1)"
{ printf 'SAEM\xda\xfe\xff\xff' && head -c 56 /dev/zero; } >stash
expect 'a dpe result in words' 'Its dpe result is 0 (the measurement was taken).' \
    "$("$root/demo" request stash 2>/dev/null | tail -n 1)"
# An extension by 48 zero bytes, and what the demo says of it first and last.
extension() { # CHECKSUM REGISTER: the lowest byte of each
    # shellcheck disable=SC2059
    { printf "ERCP\\x$1\xfe\xff\xff\\x$2\0\0\0" && head -c 48 /dev/zero; } >extension
    "$root/demo" request extension 2>/dev/null | sed -n '3p;$p'
}
expect 'an extension in words' \
    'The command code is 0x50435245: extend a register.
The result is 0 (accepted). The answer of 8 bytes has the checksum 0x00000000 and FIPS status 0 (always 0).' \
    "$(extension d2 04)"
expect 'a register that is not extended in words' \
    'The command code is 0x50435245: extend a register.
The result is 12 (0xC, refused: the register is none of PCR4 to PCR30): nothing was stored, and there is no answer.' \
    "$(extension b7 1f)"
# A tree command that names the default handle's node, the root, and what the demo says of it first and last. The
# program lends no fresh handle.
tree_command() { # CHECKSUM SIZE COMMAND DATA: the lowest byte of each number; the data behind the handle
    # shellcheck disable=SC2059
    { printf "CEPD\\x$1\xfe\xff\xff\\x$2\0\0\0\\x$3" && head -c 20 /dev/zero && printf "$4"; } >tree_command
    "$root/demo" request tree_command 2>/dev/null | sed -n '3p;$p'
}
expect 'a destroy of the root in words' \
    'The command code is 0x44504543: a tree command.
Its dpe result is 9 (declined: the root can be neither extended nor destroyed).' \
    "$(tree_command cb 15 04 '')"
expect 'a rotate without a fresh handle in words' \
    'The command code is 0x44504543: a tree command.
Its dpe result is 8 (declined: there is no fresh handle that could be given).' \
    "$(tree_command cc 15 03 '')"
expect 'a byte too many in words' \
    'The command code is 0x44504543: a tree command.
Its dpe result is 5 (declined: the data are not exactly one tree command).' \
    "$(tree_command ca 16 04 '\0')"
printf AB >short
expect 'a short request in words' \
    'The result is 3 (0x3, refused: unknown command code): nothing was stored, and there is no answer.' \
    "$("$root/demo" request short 2>/dev/null | tail -n 1)"
complains 'a request in a folder' 1 'cannot be read' "$root/demo" request .
complains 'a request that is not there' 1 'cannot be read' "$root/demo" request no_such_file
complains 'no folder for the demo' 1 "no folder 'none'" "$root/demo" journal none
complains 'a word that the demo has not' 2 "there is no 'nope'" "$root/demo" nope
complains 'an option that the demo has not' 2 "no option '--nope'" "$root/demo" --nope
complains 'too many words for the demo' 2 'too many arguments' "$root/demo" request abc abc
complains 'no folder for temporary files in the demo' 2 '/no/such/folder' \
    env TMPDIR=/no/such/folder "$root/demo" request abc
expect 'the version of ./demo' "waggleloft $version" "$("$root/demo" --version)"
ln -s "$root/demo" "$work/linked_demo"
expect 'the demo through a symbolic link' 'status 0' "$(outcome "$work/linked_demo" | tail -n 1)"

conclude
