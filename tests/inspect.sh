#!/usr/bin/env bash
# Tests of ./inspect, from another folder, on images and journals made by hand (tests/unit.sh).
# The last line is 'N passed, M failed'; exit status 1 if one failed.
set -euo pipefail
root=$(cd "$(dirname "${BASH_SOURCE[0]}")/.." && pwd)
. "$root/tests/expect.sh"
. "$root/tests/digests.sh"
. "$root/tests/unit.sh"

work=$(mktemp -d)
trap 'rm -rf "$work"' EXIT
cd "$work"
replay=${WAGGLELOFT_REPLAY:-$root/target/bin/replay}
[ -n "${WAGGLELOFT_REPLAY:-}" ] || "$root/run" --build replay

# Prints what a command writes to standard output, and its exit status; its error stream goes to the file
# stderr, without the line that names another judge.
outcome() { # WORDS..
    local status=0
    "$@" 2>said || status=$?
    sed '/^inspect: judged by /d' said >stderr
    echo "status $status"
}

# The first line and the status of ./inspect.
verdict() { # WORDS..
    outcome "$root/inspect" "$@" | sed -n '1p;$p' | paste -sd' '
}

# The lines of ./inspect that a pattern finds.
lines() { # PATTERN WORDS..
    local pattern=$1
    shift
    outcome "$root/inspect" "$@" | grep -E -- "$pattern" || true
}

# The lines of a part of its text, without the title.
part() { # TITLE IMAGE JOURNAL
    "$root/inspect" "$2" "$3" 2>said | sed -n "/^$1/,/^\$/p" | sed '1d; /^$/d'
}

# How many of its lines are longer than 100 columns.
too_long() { # IMAGE JOURNAL
    "$root/inspect" "$@" 2>said | LC_ALL=C.UTF-8 awk 'length > 100' | wc -l
}

# Checks the exit status, that nothing is on standard output, and that the error stream is one line with the
# words.
complains() { # NAME WORDS COMMAND..
    local name=$1 words=$2
    shift 2
    expect "$name: no output, status 2" 'status 2' "$(outcome "$@" </dev/null)"
    expect "$name: one line that says '$words'" '1 1' \
        "$(wc -l <stderr) $(grep -cF -- "$words" stderr || true)"
}

# A digest's first 8 and last 4 digits.
short() { # DIGEST
    echo "${1:0:8}..${1:92}"
}

# ---- a unit: a cold boot, two programs, an extension, an update

runtime=$(of 'runtime 1') manifest=$(of 'manifest 1') hours=$(of 'driving hours') rest=$(of 'resting hours')
HOUR=$((0x52554F48)) # the four characters, the first lowest

new_unit
cold_boot "$runtime" "$manifest"
stash "$HOUR" "$hours" 3 1
stash 7 "$rest" 300 4294967295
extension 4 "$(of gears)"
update "$(of 'runtime 2')" "$(of 'manifest 2')"
save_unit unit
whole=$journal stashed=${registers[31]}
bytes=$((${#whole} / 2))

expect 'alike' 'ALIKE status 0' "$(verdict unit.image unit.journal)"
expect 'alike: nothing on the error stream' '' "$(cat stderr)"
expect 'the journal, entry by entry' "$(printf '%s\n' \
    " order offset entry" \
    "     1      0 cold boot runtime $(short "$runtime")  manifest $(short "$manifest")" \
    "     2     97 stash     \"HOUR\" $(short "$hours") svn 3 caller 1 node 1" \
    "     3    153 stash     0x00000007 $(short "$rest") svn 300 caller 4294967295 node 2" \
    "     4    210 extension PCR4 by $(short "$(of gears)")" \
    "     5    260 update    runtime $(short "$(of 'runtime 2')")  manifest $(short "$(of 'manifest 2')")")" \
    "$(part Journal unit.image unit.journal)"
expect 'the nodes' "$(printf '%s\n' \
    '  node    type       digest                svn   locality handle' \
    "  0       \"RTJM\"     $(short "${registers[3]}")          0          0 retired" \
    "  └─ 1    \"HOUR\"     $(short "$hours")          3          1 retired" \
    "     └─ 2 0x00000007 $(short "$rest")        300 4294967295 default")" \
    "$(part Tree unit.image unit.journal)"
expect 'the registers' "$(printf '%s\n' \
    "  PCR2   $(short "${registers[2]}")  current: the running software" \
    "  PCR3   $(short "${registers[3]}")  journey: all software since the cold boot" \
    "  PCR4   $(short "${registers[4]}")  a part maker's" \
    "  PCR31  $(short "${registers[31]}")  the stashed measurements" \
    '  the 28 others are zero')" \
    "$(part Registers unit.image unit.journal)"
expect 'at most 100 columns' 0 "$(too_long unit.image unit.journal)"

# ---- words of the image changed

for at in 40 399 400 435 1519; do
    cp unit.image other.image
    set_word other.image "$at" 123456789
    expect "word $at changed" 'NOT ALIKE status 1' "$(verdict other.image unit.journal)"
done
cp unit.image other.image
set_word other.image $((400 + 35 + 34)) 9
expect 'an svn changed: the node is marked' "≠ └─ 1    \"HOUR\"     $(short "$hours")          9          1 retired"$'\n''    svn: image 9, replayed 3' \
    "$(lines '^≠ └|^    svn' other.image unit.journal)"
cp unit.image other.image
set_word other.image $((16 + 12 * 17)) 1
expect 'a register changed: it is marked' "≠ PCR17  01000000..0000  a part maker's"$'\n''    replayed 00000000..0000 (unlike from byte 0 on)' \
    "$(lines '^≠ PCR|^    replayed' other.image unit.journal)"

# What a verdict does not compare.
warned() { # NAME WORD NUMBER WORDS
    cp unit.image other.image
    set_word other.image "$2" "$3"
    expect "$1" 'ALIKE, WITH A WARNING status 5' "$(verdict other.image unit.journal)"
    expect "$1: it says so" "$4" "$(lines '^WARNING' other.image unit.journal | cut -c 10- | cut -c "-${#4}")"
}
warned 'a work is unfinished' 0 0 "The image's mark is 0x0 and not 1: a work is unfinished."
warned 'off, and no disabling in the journal' 1 0 'Attestation is off in the image (word 1 is 0x0), though the journal has no disabling'
warned 'a spare word' 3 1 'Words 2 and 3 of the image are not zero'
warned 'PCR1' 39 1 'PCR1 is not zero in the image'
cp unit.image other.image
set_word other.image 15 1
expect 'a secret is no warning' 'ALIKE status 0' "$(verdict other.image unit.journal)"
expect 'a secret is worth a note' 1 "$(lines '^note .* holds the device secret' other.image unit.journal | wc -l)"

# ---- an image that is older or newer than the journal

extension 9 "$(of more)"
save_unit later
expect 'an older image' 'NOT ALIKE status 1' "$(verdict unit.image later.journal)"
expect 'an older image: where it stood' 'note     After entry 5 the registers and nodes were the image'"'"'s: 1 entry behind it is not in the' \
    "$(lines '^note' unit.image later.journal)"
expect 'a newer image' 'NOT ALIKE status 1' "$(verdict later.image unit.journal)"

# ---- a disabling, a further cold boot

disabling
save_unit off
expect 'a disabling' 'NOTHING TO COMPARE status 4' "$(verdict off.image off.journal)"
expect 'a disabling: no warning' '' "$(lines '^WARNING' off.image off.journal)"
expect 'a disabling in the journal alone' 'NOTHING TO COMPARE status 4' "$(verdict later.image off.journal)"
expect 'a disabling in the journal alone: a warning' 1 "$(lines '^WARNING  Attestation is on' later.image off.journal | wc -l)"
cold_boot "$(of 'runtime 3')" "$(of 'manifest 3')"
save_unit anew
expect 'a further cold boot' 'ALIKE status 0' "$(verdict anew.image anew.journal)"
expect 'a further cold boot: what it erased' '· erased by the cold boot, entry 8' "$(lines '^· erased' anew.image anew.journal)"
expect 'a further cold boot: seven entries are gone' 7 "$(lines '^· +[0-9]' anew.image anew.journal | wc -l)"

# ---- refusals

# A refusal at the whole journal's end: its number, the bytes with their mark, and why.
refused() { # NAME DIGITS NUMBER MARKED WHY
    unhex "$whole$2" >bad.journal
    expect "$1: number $3" "REFUSED: $3 status 3" "$(verdict unit.image bad.journal)"
    expect "$1: its offset" 1 "$(lines "begins at offset $bytes: " unit.image bad.journal | wc -l)"
    expect "$1: the mark" "$4" "$(marked unit.image bad.journal)"
    expect "$1: why" "$5" "$("$root/inspect" unit.image bad.journal 2>said | sed -n '/^  Why: /,/^$/p' | paste -sd' ' | sed 's/   */ /g; s/^ *Why: //; s/ *$//')"
}

# The bytes over the marks.
marked() { # IMAGE JOURNAL
    lines '' "$@" | awk '/^ *\^\^/ { n = length($0) - 1; if (/ends here/) { print "the end"; next }
        text = ""; for (i = 1; i < length($0); i++) if (substr($0, i, 2) == "^^") text = text substr(before, i, 2); print text }
        { before = $0 }'
}

last_group="is not in the shortest form: a number's last group may not be zero."
kinds='01 cold boot, 02 update, 03 disabling, 04 stash, 05 extension, 06 derive, 07 extend, 08 rotate, 09 destroy'
for kind in 00 0a ff; do
    refused "kind $kind" $kind 20 $kind "$kind is no kind of entry; the kinds are $kinds."
done
refused 'a longer form' 058400 21 00 "its register $last_group"
refused 'a number over 32 bits' 04ffffffff10 21 10 'its type has more than 32 bits.'
refused 'a sixth group' "0401${hours}ffffffff80" 21 80 'its svn has more than 32 bits.'
refused 'a longer caller' "0401${hours}01ff8000" 21 00 "its caller $last_group"
refused 'a kind alone' 01 22 'the end' 'the journal ends before the end of its runtime digest.'
refused 'a number that goes on' 04ffffffff 22 'the end' 'the journal ends before the end of its type.'
refused 'a cut digest' "0503${hours:2}" 22 'the end' 'the journal ends before the end of its digest.'
refused 'register 3' "0503$hours" 24 03 'register 3 is none of PCR4 to PCR30, which may be extended.'
refused 'register 31' "051f$hours" 24 1f 'register 31 is none of PCR4 to PCR30, which may be extended.'
refused 'register 260' "058402$hours" 24 8402 'register 260 is none of PCR4 to PCR30, which may be extended.'
expect 'a cut entry may be an interrupted append' 1 "$(unhex "${whole}01" >bad.journal && lines '^note     Before the last 1 byte the journal has 5 whole entries' unit.image bad.journal | wc -l)"

# After a disabling, and before any cold boot.
bytes=$((bytes + 1)) whole+=03
off_words='attestation is off: there was a disabling, and no cold boot since; the last disabling is entry 6.'
refused 'an update while off' "02$hours$hours" 24 02 "$off_words"
refused 'a stash while off' "0401${hours}0101" 24 04 "$off_words"
refused 'an extension while off' "0504$hours" 24 05 "$off_words"
bytes=0 whole=''
first_words='nothing is counted before the first cold boot.'
refused 'a disabling first' 03 24 03 "$first_words"
refused 'a stash first' "0401${hours}0101" 24 04 "$first_words"

# All nodes in use.
cold_boot "$runtime" "$manifest"
journal=01$runtime$manifest
while [ "$used" -lt 32 ]; do stash "$HOUR" "$hours" "$used" 0; done
save_unit full
expect 'a chain of all nodes' 'ALIKE status 0' "$(verdict full.image full.journal)"
expect 'a chain of all nodes: at most 100 columns' 0 "$(too_long full.image full.journal)"
expect 'a chain of all nodes: the last' 1 "$(lines '^ {32}└31 "HOUR"' full.image full.journal | wc -l)"
whole=$journal bytes=$((${#journal} / 2))
refused 'a stash with no free node' "0401${hours}0101" 24 04 'all 32 nodes are in use: none is free for it.'

# ---- a tree

# A handle of one byte.
handle() { # BYTE
    times 20 "$1"
}
NODE=$((0x45444F4E))
a=$(of 'node a') b=$(of 'node b') c=$(of 'node c')
new_unit
cold_boot "$runtime" "$manifest"
derive 0 1 1 "$NODE" "$a" "$(handle a1)"
derive 1 0 2 "$NODE" "$b" "$(handle a2)"
derive 0 1 3 "$HOUR" "$c" "$(handle a3)"
extend_node 3 "$hours"
rotate 2 "$(handle b2)"
save_unit tree_first
destroy 2 1
derive 3 1 1 7 "$b" "$(handle a1)"
stash_below 0 2 "$HOUR" "$rest" 9 300
save_unit tree
expect 'a tree' 'ALIKE status 0' "$(verdict tree.image tree.journal)"
expect 'a tree: no note' '' "$(lines '^note' tree.image tree.journal)"
expect 'a tree: the journal' "$(printf '%s\n' \
    " order offset entry" \
    "     1      0 cold boot runtime $(short "$runtime")  manifest $(short "$manifest")" \
    "     2     97 derive    \"NODE\" $(short "$a") caller 0 node 1" \
    "                        handle a1a1a1a1..a1a1, below node 0 (default), which is kept" \
    "     3    193 derive    \"NODE\" $(short "$b") caller 0 node 2" \
    "                        handle a2a2a2a2..a2a2, below node 1 (a1a1a1a1..a1a1), which is retired" \
    "     4    289 derive    \"HOUR\" $(short "$c") caller 0 node 3" \
    "                        handle a3a3a3a3..a3a3, below node 0 (default), which is kept" \
    "     5    385 extend    node 3 (a3a3a3a3..a3a3) by $(short "$hours") caller 0" \
    "     6    455 rotate    node 2 (a2a2a2a2..a2a2) is now b2b2b2b2..b2b2 caller 0" \
    "     7    497 destroy   node 2 (b2b2b2b2..b2b2) caller 0" \
    "                        with it node 1: retired, and nothing left below" \
    "     8    519 derive    0x00000007 $(short "$b") caller 0 node 1" \
    "                        handle a1a1a1a1..a1a1, below node 3 (a3a3a3a3..a3a3), which is kept" \
    "     9    611 stash     \"HOUR\" $(short "$rest") svn 9 caller 300 node 2")" \
    "$(part Journal tree.image tree.journal)"
expect 'a tree: the nodes' "$(printf '%s\n' \
    '  node    type       digest                svn   locality handle' \
    "  0       \"RTJM\"     $(short "${registers[3]}")          0          0 retired" \
    "  ├─ 2    \"HOUR\"     $(short "$rest")          9        300 default" \
    "  └─ 3    \"HOUR\"     $(short "$hours")          0          0 a3a3a3a3..a3a3" \
    "     └─ 1 0x00000007 $(short "$b")          0          0 a1a1a1a1..a1a1")" \
    "$(part Tree tree.image tree.journal)"
expect 'a tree: at most 100 columns' 0 "$(too_long tree.image tree.journal)"
expect 'a tree from earlier' 'NOT ALIKE status 1' "$(verdict tree_first.image tree.journal)"
expect 'a tree from earlier: where it stood' 1 "$(lines '^note     After entry 6 the registers and nodes were' tree_first.image tree.journal | wc -l)"
expect 'a tree from earlier: how its nodes differ' '≠ 0 ≠ 1 ≠ 2 ' \
    "$(lines '^[≠+-] .*(RTJM|NODE|HOUR)' tree_first.image tree.journal | sed 's/[├└│─]//g' | awk '{ printf "%s %s ", $1, $2 }')"
# Two nodes with one handle, and two on each other.
cp tree.image other.image
set_word other.image $((400 + 35 + 2)) $((0xA3A3A3A3))
for k in 3 4 5 6; do set_word other.image $((400 + 35 + k)) $((0xA3A3A3A3)); done
expect 'a handle on two nodes' 'NOT ALIKE status 1' "$(verdict other.image tree.journal)"
expect 'a handle on two nodes: it says so' 1 "$(lines '^note     .* not well formed: nodes 1 and 3 have the same handle\.' other.image tree.journal | wc -l)"
set_word other.image $((400 + 3 * 35)) $((1 << 16 | 1))
expect 'nodes on each other' 2 "$(lines '^≠ [13] \(on [13]\)' other.image tree.journal | wc -l)"
expect 'a page of nodes on each other' 'NOT ALIKE status 1' "$(verdict --html page.html other.image tree.journal)"

# Each ground on which a tree command is declined. The nodes: 2 (caller 300, default) and 3 on 0, 1 on 3.
whole=$journal bytes=$((${#journal} / 2))
gone=$(handle b2) no=$(handle 00) none=$(handle ff)
may='has locality 0: caller 1 may not use it.'
refused 'a retain of 2' "06$none$(number7 2)07$hours${no}01" 24 02 'its retain is 2 and not 0 or 1.'
refused 'a retain of 2, cut' "06$none$(number7 2)07$hours$no" 22 'the end' 'the journal ends before the end of its caller.'
refused 'a retain in a longer form' "06${none}8100" 21 00 "its retain $last_group"
# What follows handle and caller in the entries of the four kinds.
for kind in 06 07 08 09; do
    case $kind in
    06) name=derive between=0007$hours$no ;;
    07) name=extend between=$hours ;;
    08) name=rotate between=$no ;;
    09) name=destroy between='' ;;
    esac
    refused "$name: cut in its handle" "$kind${no:2}" 22 'the end' 'the journal ends before the end of its handle.'
    refused "$name: retired" "$kind$none${between}01" 24 "${none:0:30}"$'\n'"${none:30}" 'a retired handle names no node.'
    refused "$name: no such handle" "$kind$gone${between}01" 24 "${gone:0:30}"$'\n'"${gone:30}" 'no node has the handle b2b2b2b2..b2b2.'
    refused "$name: another caller" "$kind$(handle a3)${between}01" 24 01 "node 3 $may"
    [[ $kind == 0[68] ]] || continue
    [ $kind = 06 ] && before=0007$hours || before=''
    for fresh in "$no default" "$none retired"; do
        unhex "$whole$kind$(handle a3)$before${fresh% *}00" >bad.journal
        expect "$name: the ${fresh#* } handle for a fresh one" 1 "$(lines "^  Why: its fresh handle is the ${fresh#* } one, which no node is given\\." unit.image bad.journal | wc -l)"
    done
    unhex "$whole$kind$(handle a3)$before$(handle a1)00" >bad.journal
    expect "$name: a fresh handle in use" 1 "$(lines '^  Why: its fresh handle is in use: node 1 has it\.' unit.image bad.journal | wc -l)"
done
a3=$(handle a3)
refused 'a destroy of a node with children' "09${a3}00" 24 "${a3:0:30}"$'\n'"${a3:30}" 'node 3 has children: node 1.'
bytes=$((bytes + 1)) whole+=03
off_words='attestation is off: there was a disabling, and no cold boot since; the last disabling is entry 10.'
refused 'a destroy while off' "09$(handle a1)00" 24 09 "$off_words"
bytes=0 whole=''
refused 'a rotate first' "08$no$(handle a1)00" 24 08 "$first_words"

# The root; no default handle; no live handle.
new_unit
cold_boot "$runtime" "$manifest"
whole=$journal bytes=97
root_words='node 0 is the root, which can be neither extended by a command nor destroyed.'
refused 'an extend of the root' "07$no${hours}00" 24 "${no:0:30}"$'\n'"${no:30}" "$root_words"
refused 'a destroy of the root' "09${no}00" 24 "${no:0:30}"$'\n'"${no:30}" "$root_words"
rotate 0 "$(handle a1)"
save_unit no_default
whole=$journal bytes=$((${#journal} / 2))
expect 'no default handle' 'ALIKE status 0' "$(verdict no_default.image no_default.journal)"
expect 'no default handle: a note' 1 "$(lines '^note     No node has the default handle: every stash is declined with 3' no_default.image no_default.journal | wc -l)"
refused 'a stash without a default handle' "0401${hours}0101" 24 04 'no node has the default handle, so there is none to hang on.'
derive 0 0 1 7 "$a" "$(handle a2)"
destroy 1
save_unit none_live
expect 'no live handle' 'ALIKE status 0' "$(verdict none_live.image none_live.journal)"
expect 'no live handle: a note' 1 "$(lines '^note     No node has a live handle: until a cold boot nothing can be measured' none_live.image none_live.journal | wc -l)"

# All nodes in use, and freed at once.
new_unit
cold_boot "$runtime" "$manifest"
for ((k = 1; k < 32; k++)); do derive $((k - 1)) 0 $k "$NODE" "$a" "$(handle "$(printf %02x $k)")"; done
whole=$journal bytes=$((${#journal} / 2))
refused 'a derive with no free node' "06$(handle 1f)0007$hours${a3}00" 24 06 'all 32 nodes are in use: none is free for it.'
destroy 31 30 29 28 27 26 25 24 23 22 21 20 19 18 17 16 15 14 13 12 11 10 9 8 7 6 5 4 3 2 1
save_unit freed
expect 'all nodes freed at once' 'ALIKE status 0' "$(verdict freed.image freed.journal)"
expect 'all nodes freed at once: what is left' '0' "$(part Tree freed.image freed.journal | awk 'NR > 1 { print $1 }')"
expect 'all nodes freed at once: at most 100 columns' 0 "$(too_long freed.image freed.journal)"

# ---- images of other lengths, files that are none

head -c 6079 unit.image >cut.image
expect 'an image cut short' 'REFUSED: 1 status 3' "$(verdict cut.image unit.journal)"
expect 'an image cut short: what is missing' 1 "$(lines 'it has 6,079 of 6,080 bytes' cut.image unit.journal | wc -l)"
: >empty
expect 'an empty journal' 'NOTHING TO COMPARE status 4' "$(verdict unit.image empty)"
expect 'an empty image' 'REFUSED: 1 status 3' "$(verdict empty unit.journal)"
expect 'both empty' 'REFUSED: 1 status 3' "$(verdict empty empty)"
expect 'an image of zeros' 'NOT ALIKE status 1' "$(head -c 6080 /dev/zero >zeros && verdict zeros unit.journal)"
{ cat unit.image && printf x; } >long.image
complains 'an image too long' 'has more than 6,080 bytes' "$root/inspect" long.image unit.journal
complains 'no image' "'none' is not there" "$root/inspect" none unit.journal
complains 'no journal' "'none' is not there" "$root/inspect" unit.image none
complains 'a folder for an image' 'it is a folder' "$root/inspect" . unit.journal
complains 'a folder for a journal' 'it is a folder' "$root/inspect" unit.image .
complains 'a file that cannot be read to its end' 'cannot be read: ' "$root/inspect" unit.image /proc/self/mem

# ---- standard input

expect 'the image on standard input' 'ALIKE status 0' "$(verdict - unit.journal <unit.image)"
expect 'the journal on standard input' 'ALIKE status 0' "$(verdict unit.image - <unit.journal)"
slow() { head -c 100 unit.journal && sleep 0.5 && tail -c +101 unit.journal; }
expect 'a slow pipe is read to its end' 'ALIKE status 0' "$(slow | verdict unit.image -)"
expect 'a folder on standard input' 'status 2' "$(outcome "$root/inspect" unit.image - <.)"
complains 'both on standard input' 'cannot both be standard input' "$root/inspect" - -
closed() { "$root/inspect" unit.image - <&-; }
expect 'a closed standard input' 'status 2' "$(outcome closed)"
expect 'a closed standard input: the message' 'inspect: standard input is closed' "$(cat stderr)"

# ---- what a stranger types

complains 'no words' 'an image and a journal are needed' "$root/inspect"
complains 'one word' 'an image and a journal are needed' "$root/inspect" unit.image
complains 'three words' 'too many words' "$root/inspect" unit.image unit.journal unit.journal
complains 'an unknown option' "there is no option '--nope'" "$root/inspect" --nope unit.image unit.journal
complains 'no file for the page' '--html needs a word' "$root/inspect" unit.image unit.journal --html
for number in 0 x -1 10001 99999999999999999999; do
    complains "--entries $number" 'a number from 1 to 10000' "$root/inspect" --entries "$number" unit.image unit.journal
done
expect 'help: status 0' '1 status 0' "$(outcome "$root/inspect" --help | awk '/^usage: /{n++} END{print n, $0}')"
expect 'help: every status' '0 1 2 3 4 5' "$("$root/inspect" --help | sed -n 's/^  \([0-9]\)   .*/\1/p' | paste -sd' ')"
expect 'the version' "waggleloft $(cat "$root/VERSION")" "$("$root/inspect" --version)"
ln -s "$root/inspect" linked
expect 'through a symbolic link' 'ALIKE status 0' "$(outcome ./linked unit.image unit.journal | sed -n '1p;$p' | paste -sd' ')"
cp unit.image ./-odd
expect 'a name that begins with -' 'ALIKE status 0' "$(verdict -- -odd unit.journal)"
expect 'another judge is named' 1 "$(WAGGLELOFT_REPLAY=$replay "$root/inspect" unit.image unit.journal 2>&1 >/dev/null | grep -c "judged by $replay .*, not by the proved program")"
expect 'a judge that is not there' 'status 2' "$(WAGGLELOFT_REPLAY=/no/such/program outcome "$root/inspect" unit.image unit.journal)"

# The first and the last entries.
expect 'two entries at each end' '1 2 .. 4 5' \
    "$("$root/inspect" --entries 2 unit.image unit.journal 2>said | sed -n '/^Journal/,/^$/p' | awk 'NR > 2 && NF { print $1 }' | paste -sd' ')"

# ---- colours

escapes() { # WORDS..
    "$@" | tr -dc '\033' | wc -c
}
# On a terminal.
terminal() { # VARIABLE=VALUE..
    script -qec "env $* TERM=\${KIND:-xterm} '$root/inspect' unit.image unit.journal 2>said" /dev/null </dev/null
}
expect 'no colours in a file' 0 "$(escapes "$root/inspect" unit.image unit.journal 2>said)"
expect 'colours on a terminal' yes "$([ "$(escapes terminal -u NO_COLOR)" -gt 0 ] && echo yes)"
expect 'no colours with NO_COLOR' 0 "$(escapes terminal NO_COLOR=1)"
expect 'no colours on a dumb terminal' 0 "$(KIND=dumb escapes terminal -u NO_COLOR)"

# ---- the page

# Whether tags are opened and closed in their order, as in XML.
balanced() { # FILE
    awk 'BEGIN { RS = "<" } NR > 1 {
            split($0, part, ">"); tag = part[1]
            if (tag ~ /^!/ || tag ~ /\/$/) next
            name = tag; sub(/[ \n].*/, "", name)
            if (name ~ /^\//) { if (open[depth--] != substr(name, 2)) { print "unbalanced: " tag; exit } }
            else open[++depth] = name
        } END { print depth " left open" }' "$1"
}

expect 'a page: the text comes too' 'ALIKE status 0' "$(verdict --html page.html unit.image unit.journal)"
expect 'a page: its tags' '0 left open' "$(balanced page.html)"
expect 'a page: nothing from elsewhere' 0 "$(grep -cE 'https?:|src=|href|url\(|@import|<script|<link' page.html || true)"
expect 'a page: the verdict' '<h1>ALIKE</h1>' "$(grep -o '<h1>.*</h1>' page.html)"
expect 'a page: a picture with every node' 3 "$(grep -c '<circle class="alike"' page.html)"
expect 'a page of a tree' 'ALIKE status 0' "$(verdict --html tree.html tree.image tree.journal)"
expect 'a page of a tree: its tags' '0 left open' "$(balanced tree.html)"
expect 'a page of a tree: its dots' '24 6 56 9 56 9 88 9' "$(sed -n 's/^<circle class="alike" cx="\([0-9]*\)" cy="[0-9]*" r="\([0-9]\)".*/\1 \2/p' tree.html | paste -sd' ')"
expect 'a page of a tree: its handles' 4 "$(grep -cE '^<text class="small" .*>handle (default|retired|a1a1a1a1\.\.a1a1|a3a3a3a3\.\.a3a3), digest ' tree.html)"
expect 'a page: the registers in full' 1 "$(grep -c "<code>$stashed</code>" page.html || true)"
expect 'a page: light and dark' 1 "$(grep -c 'prefers-color-scheme: dark' page.html)"
cp unit.image other.image
set_word other.image $((400 + 35 + 32)) $((0x3E263C22)) # the characters " < & >
expect 'a page of a strange type: status 1' 'NOT ALIKE status 1' "$(verdict --html page.html other.image unit.journal)"
expect 'a page of a strange type: its tags' '0 left open' "$(balanced page.html)"
expect 'a page of a strange type: escaped' yes "$(grep -q '&quot;&quot;&lt;&amp;&gt;&quot;' page.html && echo yes)"
unhex "${whole}04" >bad.journal
expect 'a page of a refusal: status 3' 'REFUSED: 22 status 3' "$(verdict --html page.html unit.image bad.journal)"
expect 'a page of a refusal: its tags' '0 left open' "$(balanced page.html)"
expect 'no draft is left' '' "$(find . -name '.page*')"
# What is no plain file is written to and stays what it is. Only where a pipe in this folder does may a device be
# tried, which root could lose by it.
mkfifo pipe
timeout 10 cat pipe >piped.html &
expect 'a page into a pipe' 'ALIKE status 0' "$(verdict --html pipe unit.image unit.journal)"
if [ -p pipe ]; then
    wait
    expect 'a page into a pipe: its tags' '0 left open' "$(balanced piped.html)"
    expect 'a page on a full disk: status 2' 'ALIKE status 2' "$(verdict --html /dev/full unit.image unit.journal)"
    expect 'a page on a full disk: the message' 1 "$(grep -c '^inspect: the page, /dev/full, cannot be written: No space left' stderr)"
else
    expect 'a page into a pipe: the pipe stays' pipe 'a file in its place'
fi
limited() { (trap '' XFSZ && ulimit -f 4 && "$root/inspect" --html fits.html unit.image unit.journal); }
expect 'a page that does not fit: status 2' 'status 2' "$(outcome limited | tail -n 1)"
expect 'a page that does not fit: the message' 1 "$(grep -c 'the page, fits.html, cannot be written: File too large' stderr)"
expect 'a page that does not fit: nothing is left' '' "$(find . -name '*fits*')"
expect 'a page in no folder: status 2' 'ALIKE status 2' "$(verdict --html no/folder unit.image unit.journal)"
complains 'a page over the image' "would overwrite 'unit.image'" "$root/inspect" --html ./unit.image unit.image unit.journal

# ---- outputs that take nothing

full_disk() { "$root/inspect" unit.image unit.journal >/dev/full; }
expect 'a full disk: status 2' 'status 2' "$(outcome full_disk)"
expect 'a full disk: the message' 'inspect: the output cannot be written: No space left on device (os error 28)' "$(cat stderr)"
# The reader is gone before anything is written.
{ sleep 0.3 && { "$root/inspect" unit.image unit.journal 2>said || echo "status $?" >ended; }; } | true
expect 'a closed pipe: status 2' 'status 2' "$(cat ended)"
expect 'a closed pipe: the message' 'inspect: the output cannot be written: Broken pipe (os error 32)' "$(tail -n 1 said)"
no_message() { "$root/inspect" none none 2>/dev/full; }
expect 'an error stream that takes nothing' 2 "$(no_message || echo $?)"

# ---- a long journal

# An extension of 50 bytes, a million times, and how much memory was taken when the judge had ended.
new_unit
cold_boot "$runtime" "$manifest"
save_unit long
unhex "$(times 64 "0504$hours")" >block
for _ in 1 2 3 4 5 6; do cat block block block block >blocks && mv blocks block; done
{ cat long.journal block block block && head -c $((50 * (1000000 - 3 * 64 * 4 ** 6))) block; } >million
# shellcheck disable=SC2016
printf '#!/bin/sh\n"%s"\ngrep VmHWM "/proc/$PPID/status" >"%s/peak"\n' "$replay" "$work" >judge
chmod +x judge
expect 'a million entries' 'NOT ALIKE status 1' "$(WAGGLELOFT_REPLAY=$work/judge verdict long.image million)"
expect 'a million entries: only PCR4 differs' 1 "$(WAGGLELOFT_REPLAY=$work/judge lines 'than the image has: PCR4\.$' long.image million | wc -l)"
expect 'a million entries: most are not shown' '  .. 999,601 entries are not shown ..' "$(WAGGLELOFT_REPLAY=$work/judge lines 'not shown' long.image million)"
expect 'a million entries: below 8 MB of memory' yes "$(awk '{ print $2 < 8000 ? "yes" : $0 }' peak)"
expect 'a million entries on standard input' 'NOT ALIKE status 1' "$(verdict long.image - <million)"
expect 'a million entries cut' 'REFUSED: 22 status 3' "$(head -c 49999999 million | verdict long.image -)"

# ---- trees in which nothing is built

mkdir -p tree/crates/replay/src bin
cp -r "$root/inspect" "$root/run" "$root/VERSION" "$root/inspector" tree/
touch tree/crates.txt tree/crates/replay/src/main.rt
for tool in awk bash basename cat dirname find mkdir mktemp readlink rm tee touch tr; do
    ln -s "$(command -v "$tool")" "bin/$tool"
done
bare() { # VARIABLES AND WORDS..
    env -u CARGO_TARGET_DIR -u WAGGLELOFT_REPLAY HOME=/none PATH="$work/bin" "$@"
}
complains 'no toolchain' 'rt is not found' bare tree/inspect unit.image unit.journal
complains 'no toolchain, and a wrong word' 'there is no option' bare tree/inspect --nope
complains 'no cargo' 'cargo is not found' bare WAGGLELOFT_REPLAY="$replay" tree/inspect unit.image unit.journal
printf '#!/bin/sh\necho broken >&2\nexit 101\n' >bin/cargo
chmod +x bin/cargo
complains 'a build that fails' 'inspector/ cannot be built: broken' bare WAGGLELOFT_REPLAY="$replay" tree/inspect unit.image unit.journal

conclude
