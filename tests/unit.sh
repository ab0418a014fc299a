# shellcheck shell=bash
# A unit made by hand, to be sourced after tests/digests.sh: its image and the journal that it keeps, from the
# papers alone. All is kept as hexadecimal digits; digests are the machine's own sha384sum's.

# Bytes of digits.
unhex() { # DIGITS
    # shellcheck disable=SC2001
    printf %b "$(sed 's/../\\x&/g' <<<"$1")"
}

# So many times the digits.
times() { # COUNT DIGITS
    local k text=''
    for ((k = 0; k < $1; k++)); do text+=$2; done
    echo "$text"
}

# A word, its lowest byte first.
word32() { # NUMBER
    local digits
    printf -v digits %08x "$1"
    echo "${digits:6:2}${digits:4:2}${digits:2:2}${digits:0:2}"
}

# A journal's number: groups of seven bits, the lowest first.
number7() { # NUMBER
    local n=$1 text=''
    while [ "$n" -gt 127 ]; do
        text+=$(printf %02x $((n & 127 | 128)))
        n=$((n >> 7))
    done
    printf '%s%02x\n' "$text" "$n"
}

empty_node=$(times 35 00000000)
retired=$(times 20 ff)

# The unit: its head (mark, attestation, spare words, secret), registers and nodes.
new_unit() {
    local k
    journal='' used=0 head=$(times 16 00000000) registers=() nodes=()
    for ((k = 0; k < 32; k++)); do registers+=("$zero") nodes+=("$empty_node"); done
}

# A node's digits.
node_of() { # FIRST FLAGS CURRENT TYPE CALLER SVN
    echo "$(word32 "$1")$(times 6 00000000)$(word32 "$2")$3$(extended "$zero" "$3")$(word32 "$4")$(word32 "$5")$(word32 "$6")"
}

cold_boot() { # RUNTIME MANIFEST
    local kept=$journal value
    value=$(extended "$zero" "$1" "$2")
    new_unit
    journal=${kept}01$1$2 used=1 registers[2]=$value registers[3]=$value
    head=$(word32 1)$(word32 1)$(times 14 00000000)
    nodes[0]=$(node_of $((0x00FF0001)) $((0x80000000)) "$value" $((0x4D4A5452)) 0 0)
}

update() { # RUNTIME MANIFEST
    local root=${nodes[0]}
    journal+=02$1$2
    registers[2]=$(extended "$zero" "$1" "$2")
    registers[3]=$(extended "${registers[3]}" "$1" "$2")
    nodes[0]=${root:0:64}${registers[3]}$(extended "${root:160:96}" "${registers[3]}")${root:256}
}

stash() { # TYPE DIGEST SVN CALLER
    stash_below $((used - 1)) "$used" "$@"
    used=$((used + 1))
}

# A stash that takes this node, below that holder of the default handle.
stash_below() { # HOLDER NODE TYPE DIGEST SVN CALLER
    journal+=04$(number7 "$3")$4$(number7 "$5")$(number7 "$6")
    registers[31]=$(extended "${registers[31]}" "$4")
    give "$1" "$retired"
    nodes[$2]=$(node_of $(($1 << 16 | 1)) 0 "$4" "$3" "$6" "$5")
}

# ---- tree commands: the caller says which nodes they are about; handles are 40 digits

handle_of() { echo "${nodes[$1]:16:40}"; }                           # NODE
give() { nodes[$1]=${nodes[$1]:0:16}$2${nodes[$1]:56}; }              # NODE HANDLE
locality_of() { echo $((16#$(word32 $((16#${nodes[$1]:264:8}))))); } # NODE

derive() { # PARENT RETAIN NODE TYPE DIGEST FRESH
    local locality
    locality=$(locality_of "$1")
    journal+=06$(handle_of "$1")$(number7 "$2")$(number7 "$4")$5$6$(number7 "$locality")
    nodes[$3]=$(node_of $(($1 << 16 | 1)) 0 "$5" "$4" "$locality" 0)
    give "$3" "$6"
    [ "$2" -eq 1 ] || give "$1" "$retired"
}

extend_node() { # NODE DIGEST
    local node=${nodes[$1]}
    journal+=07$(handle_of "$1")$2$(number7 "$(locality_of "$1")")
    nodes[$1]=${node:0:64}$2$(extended "${node:160:96}" "$2")${node:256}
}

rotate() { # NODE FRESH
    journal+=08$(handle_of "$1")$2$(number7 "$(locality_of "$1")")
    give "$1" "$2"
}

# Destroys the first of these nodes; the others go with it.
destroy() { # NODE..
    journal+=09$(handle_of "$1")$(number7 "$(locality_of "$1")")
    local node
    for node; do nodes[node]=$empty_node; done
}

extension() { # REGISTER DIGEST
    journal+=05$(number7 "$1")$2
    registers[$1]=$(extended "${registers[$1]}" "$2")
}

disabling() {
    journal+=03 head=${head:0:8}$(times 15 00000000)
}

# Writes NAME.image and NAME.journal.
save_unit() { # NAME
    local IFS=
    unhex "$head${registers[*]}${nodes[*]}" >"$1.image"
    unhex "$journal" >"$1.journal"
}

# Sets a word of a saved image.
set_word() { # FILE WORD NUMBER
    unhex "$(word32 "$3")" | dd of="$1" bs=4 seek="$2" conv=notrunc status=none
}
