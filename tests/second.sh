# shellcheck shell=bash disable=SC2154
# Comparing a built program with the second program, to be sourced after shell.sh.

# Builds the second program: $second.
build_second() {
    need_cargo
    cargo build --quiet --offline --locked --release --manifest-path reference/Cargo.toml
    second=$CARGO_TARGET_DIR/release/reference
}

# Shows what a command prints. Then, of its last line, what is behind the last
# comma, and its exit status.
ending() { # WORDS..
    local status=0
    "$@" >"$scratch/log" 2>&1 || status=$?
    cat "$scratch/log" >&2
    echo "$(tail -n 1 "$scratch/log" | sed 's/.*, //'), status $status"
}

# The first bytes that a program writes for an input without end.
endless() { # PROGRAM BYTE
    tr '\0' "$2" </dev/zero | timeout 20 "$1" | head -c 16 | od -An -tx1 | tr -d ' \n'
    echo ", status ${PIPESTATUS[1]}"
}

# Whether the output that a program's crate keeps is the second program's, for the input beside it.
kept() { # CRATE COMMAND
    "$second" "$2" <"crates/$1/stdin" | cmp - "crates/$1/stdout" 2>&1 && echo same
}
