# shellcheck shell=bash disable=SC2034
# Digests by the machine's own sha384sum, as hexadecimal digits, to be sourced.

# 48 zero bytes.
zero=$(printf '%096d' 0)

# The digest of a text.
of() { # TEXT
    printf %s "$1" | sha384sum | cut -d ' ' -f 1
}

# x extended by each of the digests that follow.
extended() { # X D ..
    local x=$1
    shift
    while [ $# -gt 0 ]; do
        # shellcheck disable=SC2001
        x=$(printf %b "$(sed 's/../\\x&/g' <<<"$x$1")" | sha384sum | cut -d ' ' -f 1)
        shift
    done
    echo "$x"
}
