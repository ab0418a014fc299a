#!/usr/bin/env bash
# The table of docs/ANSWER.md, made by running the engine.
set -euo pipefail
cd "$(dirname "$(readlink -f "${BASH_SOURCE[0]}")")/.."
. tests/shell.sh
. tests/table.sh

usage="usage: tests/answer.sh --check | --write | --help
  --check   compares the table of docs/ANSWER.md with what the engine gives;
            the last line is 'N passed, M failed', the status 1 if they differ
  --write   writes the table into docs/ANSWER.md
Needs target/bin/driver ('./run --build driver') and
target/staticlib/libwaggleloft.a ('./archive')."

make_table() {
    need_cargo
    need_built driver
    cargo run --quiet --release --offline --locked \
        --manifest-path tests/host/Cargo.toml --bin answer
}

table_command docs/ANSWER.md "$@"
