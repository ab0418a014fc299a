#!/usr/bin/env bash
# Makes docs/answer.svg by running the engine: for each kind of work a bar of its stores, coloured by
# what a power cut there leaves after the next update boot.
#
# For each kind and each number of stores the driver boots a unit cold, stashes one measurement, opens
# the work, stores that far, cuts the power, and opens an update boot that it runs to its end.
set -euo pipefail
root=$(cd "$(dirname "$(readlink -f "${BASH_SOURCE[0]}")")/.." && pwd)
. "$root/tests/sizes.sh"
image_bytes=$((4 * IMAGE_WORDS))

usage() {
    echo "usage: tests/picture.sh --check [FILE] | --write [FILE] | --help"
    echo "  --check   compares FILE (docs/answer.svg if left out) with what the engine gives; the last"
    echo "            line is 'N passed, M failed', the status 1 if they differ"
    echo "  --write   writes the picture to FILE"
    echo "Builds and proves the program driver first if that is needed."
}

fail() { # STATUS MESSAGE
    echo "picture: $2" >&2
    exit "$1"
}

# ---- operations of the driver (docs/REFERENCE.md, section 14), as printf's escapes

u8() { printf '\\x%02x' "$1"; }
u16() { u8 $(($1 & 255)) && u8 $(($1 >> 8)); }
u32() { u16 $(($1 & 65535)) && u16 $(($1 >> 16)); }
repeat() { # COUNT BYTE
    local escapes
    printf -v escapes "%$1s" ''
    printf '%s' "${escapes// /$(u8 "$2")}"
}
boot_inputs() { # RUNTIME MANIFEST SECRET: each 48 times one byte
    u16 48 && repeat 48 "$1" && u16 48 && repeat 48 "$2" && u16 48 && repeat 48 "$3"
}
cold_boot() { printf C && boot_inputs "$1" "$2" "$3"; }
update_boot() { printf U && boot_inputs "$1" "$2" "$3" && u8 "$4"; }
request() { # CODE LENGTH REQUEST: with no handoff table and no fresh handle
    printf R && u32 "$1" && u32 0 && u8 0 && u16 0 && u16 "$2" && printf '%s' "$3" && u16 0
}
stores() { printf S && u32 "$1"; }
all() { stores 10000; }

# A request with its checksum: zero minus the sum of the code's bytes and of the arguments' bytes.
sealed() { # CODE LENGTH SUM ARGUMENTS: SUM is that of the arguments' bytes
    local sum=$((($1 >> 24) + ($1 >> 16 & 255) + ($1 >> 8 & 255) + ($1 & 255) + $3))
    request "$1" "$2" "$(u32 $((0x100000000 - sum)))$4"
}
stash() { # BYTE: the digest is 48 of it, and the svn 4
    sealed 0x4D454153 60 $((52 * $1)) "$(repeat 4 0)$(repeat 52 "$1")"
}
extend() { # REGISTER BYTE
    sealed 0x50435245 56 $(($1 + 48 * $2)) "$(u32 "$1")$(repeat 48 "$2")"
}
disable() { sealed 0x4453424C 4 0 ''; }

# ---- the kinds of work, a line each

names=() replies=() opening=() before=()
kind() { # NAME REPLIES OPENING [BEFORE]: the length of the replies to BEFORE, what is done first, and to OPENING
    names+=("$1") replies+=("$2") opening+=("$3") before+=("${4:-}")
}
unit=$(cold_boot 0x11 0x33 0x22 && all && stash 0x33 && all)
update=$(update_boot 0x55 0x99 0x66 1)
kind 'a new measurement' 8 "$(stash 0x44)"
kind 'an extended register' 8 "$(extend 4 0x44)"
kind 'an update' 9 "$update"
kind 'a disable command' 8 "$(disable)"
kind 'a boot that switches off' 25 "$update" "$(disable && all)"
kind 'a cold boot (a new list)' 9 "$(cold_boot 0x77 0xAA 0x88)"
reboot=X$(update_boot 0x11 0x33 0x22 0 && all)D

# The last four bytes of a number's reply, as a number.
last_number() { tail -c 4 | od -An -tu4 --endian=little | tr -d ' \n'; }

# The words of the image that a script shows last.
last_image() { tail -c "$image_bytes" | od -An -v -tu4 --endian=little -w"$image_bytes" | tr -s ' '; }

# For every cut of a kind a line that says what is left: on (and the list is as if the work had never
# begun, or changed by the whole work), asked (off, as it was or by the whole work) or torn (off, the
# secret zero, by this boot). The replies before the image are equally long at every cut: the unit's 33
# bytes, the kind's, 8 of the stores, 17 of the boot.
cuts() { # KIND
    local k=$1 number untouched n
    # shellcheck disable=SC2059
    number=$(printf "$unit${before[k]}${opening[k]}" | "$driver" | last_number)
    # shellcheck disable=SC2059
    untouched=$(printf "$unit${before[k]}$reboot" | "$driver" | last_image)
    for ((n = 0; n <= number; n++)); do
        # shellcheck disable=SC2059
        printf "$unit${before[k]}${opening[k]}$(stores "$n")$reboot"
    done | "$driver" |
        od -An -v -tu1 -w$((33 + replies[k] + 8 + 17 + 4 + image_bytes)) |
        awk -v made=$((33 + replies[k])) -v number="$number" -v untouched="$untouched" -v image_words="$IMAGE_WORDS" '
            # the number in four bytes at an offset of the line; a word of the image
            function at(k) { return $(k + 1) + 256 * ($(k + 2) + 256 * ($(k + 3) + 256 * $(k + 4))) }
            function image(k) { return at(made + 29 + 4 * k) }
            {
                words = ""
                for (k = 0; k < image_words; k++) words = words sprintf(" %.0f", image(k))
                secret = 0
                for (k = 4; k < 16; k++) if (image(k)) secret = 1
                same = words == untouched
                last = NR - 1 == number
                off = image(1) == 0 && !secret && $(made + 13) == 3
                if (at(made) != NR - 1) exit 1
                if (image(1) == 1 && (NR == 1 ? same : last && !same)) print "on"
                else if (off && (NR == 1 ? same : last)) print "asked"
                else if (off) print "torn"
                else exit 1
            }
            END { if (NR != number + 1) exit 1 }'
}

# Runs of equal lines: colour, first, last.
runs() {
    awk 'BEGIN { from = 0 }
         { if (NR > 1 && $0 != was) { print was, from, NR - 2; from = NR - 1 } was = $0 }
         END { print was, from, NR - 1 }'
}

draw() {
    awk -v rows="${#names[@]}" '
        BEGIN {
            colour["on"] = "#2e8b57"; colour["torn"] = "#c0392b"; colour["asked"] = "#8a8f98"
            left = 190; wide = 540; narrow = 90; top = 52; step = 62
            height = top + step * rows + 38
            print "<svg xmlns=\"http://www.w3.org/2000/svg\" width=\"760\" height=\"" height "\" viewBox=\"0 0 760 " height "\" font-family=\"sans-serif\" font-size=\"13\">"
            print "<title>What a power cut after each store leaves, after the next update boot</title>"
            print "<rect width=\"760\" height=\"" height "\" fill=\"#ffffff\"/>"
            print "<text x=\"12\" y=\"24\" font-size=\"15\" font-weight=\"bold\">The power is cut after this many stores of</text>"
        }
        function text(x, y, words, anchor) {
            printf "<text x=\"%d\" y=\"%d\" text-anchor=\"%s\">%s</text>\n", x, y, anchor, words
        }
        function cell(from, to) { return from == to ? from : from " to " to }
        /^kind/ { row++; sub(/^kind /, ""); y = top + step * (row - 1); x = left; text(12, y + 19, $0, "start"); next }
        {
            width = $2 == $3 ? narrow : wide - 2 * narrow
            printf "<rect x=\"%d\" y=\"%d\" width=\"%d\" height=\"28\" fill=\"%s\" stroke=\"#ffffff\"/>\n", x, y, width, colour[$1]
            text(x + width / 2, y + 43, cell($2, $3), "middle")
            x += width
        }
        END {
            y = top + step * row + 8; x = 12
            split("on torn asked", key, " ")
            split("on, and the list is whole|off: a work was torn|off, as it was or as asked", words, "|")
            for (k = 1; k <= 3; k++) {
                printf "<rect x=\"%d\" y=\"%d\" width=\"14\" height=\"14\" fill=\"%s\"/>\n", x, y, colour[key[k]]
                text(x + 20, y + 12, words[k], "start")
                x += 240
            }
            print "</svg>"
        }'
}

make() {
    local k found
    for k in "${!names[@]}"; do
        echo "kind ${names[k]}"
        found=$(cuts "$k") || fail 1 "${names[k]}: the engine left what this picture has no colour for"
        runs <<<"$found"
    done | draw
}

[ $# -le 2 ] || fail 2 "too many arguments (tests/picture.sh --help)"
picture=${2:-$root/docs/answer.svg}
case ${1:-} in
'')
    usage >&2
    exit 2
    ;;
-h | --help)
    usage
    exit 0
    ;;
--write | --check) ;;
*) fail 2 "there is no '$1' (tests/picture.sh --help)" ;;
esac
# What cannot be compared or written is told before the engine runs.
if [ "$1" = --check ] && [ ! -r "$picture" ]; then
    echo "$picture cannot be read"
    echo "0 passed, 1 failed"
    exit 1
fi
if [ "$1" = --write ] && [ ! -w "$picture" ] && { [ -e "$picture" ] || [ ! -w "$(dirname "$picture")" ]; }; then
    fail 1 "$picture cannot be written"
fi
"$root/run" --build driver || exit 2
driver=$root/target/bin/driver
made=$(make) || exit 1
if [ "$1" = --write ]; then
    echo "$made" >"$picture"
elif diff <(echo "$made") "$picture"; then
    echo "1 passed, 0 failed"
else
    echo "0 passed, 1 failed"
    exit 1
fi
