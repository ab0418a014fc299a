#!/usr/bin/env bash
# Counts the lines of the definitions that a reader must believe: those that the entries' contracts, demand 3,
# the running digest's theorem, the journal's and that of what a destroy frees name, and those that these name in turn. Lines
# that are empty, a comment or a `use` do not count; neither do definitions that no statement rests on (figures as
# numerals, the cards, the geometry's record). The tree commands (document 02, §5) made 1,891 of 1,577: 119 their data, rules and
# works, 108 the journal's kinds 6 to 9 and their replay, 35 stores and numbers, 26 distinct handles and what a destroy frees,
# 24 the ledger's own freeing, 2 a node's words.
set -euo pipefail
limit=1891
usage="usage: tests/spec-lines.sh [--list | --help] [ROOT]
  Prints 'N lines of definitions'; exit status 1 if they are more than $limit.
  --list  prints each definition that counts before that, with its lines
  ROOT    another tree than this one"

list=0
case ${1-} in
--help) echo "$usage"; exit 0 ;;
--list) list=1; shift ;;
-*) echo "tests/spec-lines.sh: unknown word '$1' (--help tells them)" >&2; exit 2 ;;
esac
[ $# -le 1 ] || { echo "tests/spec-lines.sh: too many words (--help tells them)" >&2; exit 2; }
cd "${1:-$(dirname "$(readlink -f "${BASH_SOURCE[0]}")")/..}"

# The entries' definitions, and the statements of demand 3, of the running digest, of the journal and of a destroy.
roots='opening/Openings:open_request opening/Openings:open_cold_boot opening/Openings:open_update_boot
opening/Openings:status_number opening/Openings:boot_number opening/Openings:outcome_number opening/Tasks:request_of
work/Entries:left_of work/Entries:store_result work/Entries:store_image work/Entries:answer_result
work/Entries:answer_buffer sha384/Entries:digest_of sha384/Entries:extended message/Checksum:checksum_of
opening/Tasks:boot_of history/Demand:Demand3
running/Running:begun running/Running:feed_result running/Running:finish_result running/Steps:RunningDigest
work/Recorded:entry_result work/Recorded:entry_buffer journal_bytes/Results:number_read journal_bytes/Results:entry_read
journal/Statements:Laid journal/Statements:ReadsBack journal/Statements:OneJournal journal/Statements:StopsThere
journal/Statements:Decides replaying/Lives:Replays replaying/Lives:Accepts replaying/Unit:Records
replaying/Unit:Inspected replaying/Unit:Vouches recount/OnImage:made_on inspection/Pieces:Pieces tree/Statements:FreedExactly'

shopt -s nullglob
files=(crates/*/specs/*.antt)
[ "${#files[@]}" -gt 0 ] || { echo "tests/spec-lines.sh: no definitions under $PWD/crates" >&2; exit 1; }

awk -v roots="$roots" -v limit="$limit" -v list="$list" '
    # A file of definitions is CRATE/NAME; a definition is CRATE/NAME:word.
    FNR == 1 { file = FILENAME; sub(/^crates\//, "", file); sub(/\/specs\//, "/", file); sub(/\.antt$/, "", file); at = "" }
    /^use Rattle/ {
        from = $2; names = ""
        if (match($0, /\{.*\}/)) { names = substr($0, RSTART + 1, RLENGTH - 2); sub(/\.\{.*/, "", from) }
        sub(/^Rattle\./, "", from); sub(/\.specs\./, "/", from)
        if (names != "") { n = split(names, word, /, */); for (i = 1; i <= n; i++) source[file, word[i]] = from }
        else if ($3 == "as") alias[file, $4] = from
        next
    }
    /^use / || /^[[:space:]]*(--.*)?$/ { next }
    /^(pub|abbrev|unfoldable) / {
        data = / data /
        name = $0; sub(/^(abbrev |unfoldable )?(pub )?(record |data )?/, "", name); sub(/[ :(].*/, "", name)
        at = file ":" name; holder[at] = at
    }
    # A constructor stands for its type.
    data && /^ .* : / { split($0, half, / : /); n = split(half[1], word, / +/); for (i = 1; i <= n; i++) holder[file ":" word[i]] = at }
    at != "" { lines[at]++; text[at] = text[at] " " $0; home[at] = file }

    function reach(d) {
        if (!(d in holder)) return
        d = holder[d]
        if (!(d in seen)) { seen[d] = 1; todo[++last] = d }
    }
    END {
        n = split(roots, root, /[ \n]+/)
        for (i = 1; i <= n; i++) {
            if (!(root[i] in holder)) { missing = 1; print "no definition " root[i] > "/dev/stderr" }
            reach(root[i])
        }
        for (k = 1; k <= last; k++) {
            d = todo[k]; f = home[d]; total += lines[d]
            if (list) printf "%4d  %s\n", lines[d], d
            n = split(text[d], token, /[^A-Za-z0-9_.\x27-]+/)
            for (i = 1; i <= n; i++) {
                if ((dot = index(token[i], ".")) > 1) {
                    name = substr(token[i], 1, dot - 1)
                    if ((f SUBSEP name) in alias) { reach(alias[f, name] ":" substr(token[i], dot + 1)); continue }
                    # Else it is a value and its field.
                    token[i] = name
                }
                if ((f ":" token[i]) in holder) reach(f ":" token[i])
                else if ((f SUBSEP token[i]) in source) reach(source[f, token[i]] ":" token[i])
            }
        }
        print total " lines of definitions"
        exit missing || total > limit
    }' "${files[@]}"
