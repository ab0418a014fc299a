# shellcheck shell=bash disable=SC2154
# A table of a page that a program makes, to be sourced after shell.sh.

# Prints the page with the table in place of the one with the same first line.
# Status 1 if the page has no such table.
with_table() { # TABLE PAGE
    awk -v table="$1" '
        BEGIN { if ((getline first < table) <= 0) exit 1; close(table) }
        $0 == first && !found {
            found = skipping = 1
            while ((getline line < table) > 0) print line
        }
        skipping && /^\|/ { next }
        { skipping = 0; print }
        END { exit !found }
    ' "$2"
}

# Checks or writes a page's table. The caller's make_table prints the table, and
# its $usage says how it is called.
table_command() { # PAGE WORDS..
    local page=$1 task=${2:-}
    case $#:$task in
    1:) echo "$usage" >&2 && exit 2 ;;
    2:--help) echo "$usage" && exit 0 ;;
    2:--check | 2:--write) ;;
    2:*) die 2 "unknown word '$task' (--help tells the words)" ;;
    *) die 2 'too many words (--help tells the words)' ;;
    esac
    make_scratch
    make_table >"$scratch/table" || die 1 'the table could not be made'
    with_table "$scratch/table" "$page" >"$scratch/page" ||
        die 1 "$page has no table that begins with: $(head -n 1 "$scratch/table")"
    if [ "$task" = --write ]; then
        cp "$scratch/page" "$page" 2>/dev/null || die 1 "$page cannot be written"
    elif cmp -s "$scratch/page" "$page"; then
        echo '1 passed, 0 failed'
    else
        diff "$page" "$scratch/page" || true
        echo "$page: the table is out of date; '${0##*/} --write' writes it"
        echo '0 passed, 1 failed'
        exit 1
    fi
}
