#!/usr/bin/env bash
# Compares the built programs driver and mailbox with the second program.
set -euo pipefail
cd "$(dirname "$(readlink -f "${BASH_SOURCE[0]}")")/.."
. tests/shell.sh
. tests/expect.sh
. tests/second.sh

usage="usage: tests/campaign.sh [SCRIPTS [FIRST_SEED]]
  SCRIPTS      how many scripts the driver plays, at least 1 (2000 if left out)
  FIRST_SEED   the seed of the first one (0 if left out)
  --help       this text
The last line is 'N passed, M failed', the status 1 if one failed. Needs
target/bin/driver and target/bin/mailbox ('./run --build driver mailbox')."

if [ "$*" = --help ]; then echo "$usage" && exit 0; fi
[ $# -le 2 ] || die 2 'too many words (--help tells the words)'
for word in "$@"; do
    [[ $word =~ ^[0-9]{1,12}$ ]] || die 2 "'$word' is no number (--help tells the words)"
done
scripts=$((10#${1:-2000})) from=$((10#${2:-0}))
[ "$scripts" -gt 0 ] || die 2 'a campaign of 0 scripts shows nothing'

make_scratch
need_built driver
need_built mailbox
build_second
driver=target/bin/driver mailbox=target/bin/mailbox

expect "the driver's kept output" same "$(kept driver play)"
expect "the small program's kept output" same "$(kept mailbox mailbox)"
expect "the driver on $scripts scripts from seed $from" '0 differences, status 0' \
    "$(ending "$second" campaign --engine "$driver" --from "$from" --count "$scripts")"
expect 'the small program on 400 inputs' '0 differences, status 0' \
    "$(ending "$second" mailbox-campaign --engine "$mailbox" --count 400)"
expect 'the driver ends an input without end' ', status 0' "$(endless "$driver" X)"
expect 'the small program ends an input without end' '03000000, status 0' \
    "$(endless "$mailbox" Z)"

conclude
