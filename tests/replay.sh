#!/usr/bin/env bash
# Compares the built program replay with the second program.
set -euo pipefail
cd "$(dirname "$(readlink -f "${BASH_SOURCE[0]}")")/.."
. tests/shell.sh
. tests/expect.sh
. tests/second.sh

usage="usage: tests/replay.sh [PROGRAM]
  PROGRAM   the program to compare (target/bin/replay if left out)
  --help    this text
The last line is 'N passed, M failed', the status 1 if one failed. Without
PROGRAM it needs target/bin/replay ('./run --build replay')."

if [ "$*" = --help ]; then echo "$usage" && exit 0; fi
[ $# -le 1 ] || die 2 'too many words (--help tells the words)'
program=${1:-target/bin/replay}
[[ $program != -* ]] || die 2 "unknown word '$program' (--help tells the words)"
[ $# -eq 1 ] || need_built replay
if [ ! -f "$program" ] || [ ! -x "$program" ]; then
    die 2 "'$program' is no program (--help tells the words)"
fi
[[ $program == */* ]] || program=./$program

make_scratch
build_second

if [ -d crates/replay ]; then
    expect "the program's kept output" same "$(kept replay replay)"
fi
expect 'every input, and a journal of 1,000,000 entries' '0 differences, status 0' \
    "$(ending "$second" replay-campaign --engine "$program")"
expect 'a journal of zeros without end' '140000000000000000000000, status 0' \
    "$(endless "$program" '\0')"
expect 'a journal of disablings without end' '180000000000000000000000, status 0' \
    "$(endless "$program" '\3')"

conclude
