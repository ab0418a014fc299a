#!/usr/bin/env bash
# Tests of the words that the scripts of tests/ take, and of the table check.
# The last line is 'N passed, M failed'; exit status 1 if one failed.
set -euo pipefail
root=$(cd "$(dirname "$(readlink -f "${BASH_SOURCE[0]}")")/.." && pwd)
. "$root/tests/shell.sh"
. "$root/tests/table.sh"
. "$root/tests/expect.sh"
make_scratch
cd "$scratch"

# Prints how many lines a script writes to standard output and to the error
# stream, and its exit status.
lines() { # SCRIPT WORDS..
    local script=$1 status=0
    shift
    "$root/tests/$script" "$@" >out 2>err </dev/null || status=$?
    echo "$(wc -l <out) $(wc -l <err) status $status"
}

for script in answer.sh engines.sh campaign.sh replay.sh definitions.sh spec-lines.sh spec-names.sh; do
    expect "$script --help: status 0" 'status 0' "$(lines "$script" --help | cut -d' ' -f3-)"
    expect "$script --help: the usage" "usage: tests/$script" "$(head -n 1 out | cut -d' ' -f-2)"
    expect "$script: an unknown word" '0 1 status 2' "$(lines "$script" --chekc)"
    expect "$script: too many words" '0 1 status 2' "$(lines "$script" 1 2 3)"
done
for script in answer.sh engines.sh; do
    expect "$script without a word: status 2" 'status 2' "$(lines "$script" | cut -d' ' -f3-)"
    expect "$script without a word: the usage" 1 "$(grep -c '^usage: ' err)"
done
expect 'a campaign of 0 scripts' '0 1 status 2' "$(lines campaign.sh 0)"
expect 'a campaign of 000 scripts' '0 1 status 2' "$(lines campaign.sh 000)"
expect 'a seed that is no number' '0 1 status 2' "$(lines campaign.sh 5 x)"
expect 'a program that is not there' '0 1 status 2' "$(lines replay.sh none)"
expect 'a folder for a program' '0 1 status 2' "$(lines replay.sh tests)"
export TMPDIR=$scratch/none
expect 'a table without TMPDIR' '0 1 status 1' "$(lines engines.sh --check)"
expect 'a campaign without TMPDIR' '0 1 status 1' "$(lines campaign.sh 5)"
expect 'a comparison without TMPDIR' '0 1 status 1' "$(lines replay.sh tests/replay.sh)"
export TMPDIR=$scratch

# ---- the table check, through a symbolic link and on a page of its own

ln -s "$root/tests/engines.sh" link
expect 'the table of wrong engines' '1 passed, 0 failed' "$(./link --check | tail -n 1)"

printf '| A |\n|---|\n| new |\n' >table
printf 'text\n| B |\n|---|\n| b |\n\n| A |\n|---|\n| old |\n| older |\nmore\n' >page
expect 'a table takes the place of its old rows' \
    $'text\n| B |\n|---|\n| b |\n\n| A |\n|---|\n| new |\nmore' "$(with_table table page)"
printf '| C |\n|---|\n' >table
expect 'a page without the table is refused' refused \
    "$(with_table table page >out && echo taken || echo refused)"
: >table
expect 'an empty table is refused' refused \
    "$(with_table table page >out && echo taken || echo refused)"

usage=none
make_table() { printf '| A |\n|---|\n| new |\n'; }
checked() { # WORD
    local status=0
    (table_command "$scratch/page" "$1") >out 2>err || status=$?
    echo "$(tail -n 1 out) status $status"
}
expect 'a table that is out of date' '0 passed, 1 failed status 1' "$(checked --check)"
expect 'writing it' ' status 0' "$(checked --write)"
expect 'a table that is up to date' '1 passed, 0 failed status 0' "$(checked --check)"
make_table() { return 1; }
expect 'a table that cannot be made' ' status 1' "$(checked --check)"

conclude
