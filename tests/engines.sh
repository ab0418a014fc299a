#!/usr/bin/env bash
# The table of wrong engines in docs/TESTING.md, made from the second program's
# own list.
set -euo pipefail
cd "$(dirname "$(readlink -f "${BASH_SOURCE[0]}")")/.."
. tests/shell.sh
. tests/table.sh

usage="usage: tests/engines.sh --check | --write | --help
  --check   compares the table of docs/TESTING.md with the second program's
            list; the last line is 'N passed, M failed', the status 1 if they
            differ
  --write   writes the table into docs/TESTING.md"

make_table() {
    need_cargo
    cargo run --quiet --release --offline --locked \
        --manifest-path reference/Cargo.toml -- engines
}

table_command docs/TESTING.md "$@"
