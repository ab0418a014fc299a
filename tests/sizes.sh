# shellcheck shell=bash disable=SC2034
# The image's sizes, as include/waggleloft.h names them, and the stores of each kind of work, to be sourced.

# A number of the header; status 1 if it has none of that name.
header() { # NAME
    sed -n "s/^#define WAGGLELOFT_$1 \([0-9]*\)$/\1/p" "$(dirname "${BASH_SOURCE[0]}")/../include/waggleloft.h" | grep .
}

IMAGE_WORDS=$(header IMAGE_WORDS)
NODES=$(header NODES)
NODES_AT=$(header NODES_AT)
NODE_WORDS=$(header NODE_WORDS)
NODE_CURRENT=$(header NODE_CURRENT)
NODE_SVN=$(header NODE_SVN)
HANDLE_BYTES=$(header HANDLE_BYTES)

# The mark twice, and: every other word; PCR31, the new node and the old holder's handle; a register.
COLD_STORES=$((2 + IMAGE_WORDS - 1))
STASH_STORES=$((2 + 12 + NODE_WORDS + 5))
EXTENSION_STORES=$((2 + 12))
# A child, and without retain its parent's handle; both measurements of a node; a node's handle.
RETAINING_STORES=$((2 + NODE_WORDS))
RETIRING_STORES=$((2 + NODE_WORDS + HANDLE_BYTES / 4))
EXTEND_STORES=$((2 + 2 * 12))
ROTATE_STORES=$((2 + HANDLE_BYTES / 4))
# Every word of so many nodes.
destroy_stores() { # NODES
    echo $((2 + NODE_WORDS * $1))
}
# PCR2, PCR3, the secret, the root's current and its cumulative measurement.
UPDATE_STORES=$((2 + 5 * 12))
