# shellcheck shell=bash
# What the scripts that a person runs share, to be sourced.

# Ends the script with one line on the error stream.
die() { # STATUS TEXT
    echo "${0##*/}: $2" >&2
    exit "$1"
}

# Makes a folder for scratch files, $scratch, that goes when the script ends.
make_scratch() {
    scratch=$(mktemp -d 2>/dev/null) ||
        die 1 "no scratch folder can be made in ${TMPDIR:-/tmp} (TMPDIR)"
    trap 'rm -rf "$scratch"' EXIT
}

# Sets up cargo: rustup's folder may be missing from the search path.
need_cargo() {
    PATH=$PATH:${HOME:-/root}/.cargo/bin
    command -v cargo >/dev/null || die 1 'cargo is not found'
    export CARGO_TARGET_DIR=${CARGO_TARGET_DIR:-$PWD/target/cargo} CARGO_TERM_COLOR=never
}

need_built() { # PROGRAM
    [ -x "target/bin/$1" ] || die 1 "target/bin/$1 is missing: './run --build $1' builds it"
}

# Takes the words of a script that knows --help alone.
only_help() { # USAGE WORDS..
    local usage=$1
    shift
    case ${1-} in
    '') ;;
    -h | --help)
        echo "$usage"
        exit 0
        ;;
    *) die 2 "there is no '$1' (tests/${0##*/} --help)" ;;
    esac
    [ $# -le 1 ] || die 2 "too many words (tests/${0##*/} --help)"
}
