#!/usr/bin/env bash
# Lists the places of src/ that docs/DESIGN-PASS.md counts, by point, with a count behind each list's name.
# A place is a declaration, a loop or a clause; `tools/forms.sh N` prints the lines of point N too.
set -euo pipefail
cd "$(dirname "${BASH_SOURCE[0]}")/.."
only=${1:-}

# Prints how many lines of src/ an extended expression finds, and the lines where the point is asked for.
count() { # POINT NAME EXPRESSION
    local lines
    lines=$(grep -rnE "$3" crates/*/src || true)
    printf '%s  %4d  %s\n' "$1" "$(grep -c . <<<"$lines" || true)" "$2"
    if [ "$only" = "$1" ]; then printf '%s\n' "$lines"; fi
}

fn='^ *(pub(\(crate\))? )?(extern "C" )?fn '
count 1 'enums of the shape of a Result' 'enum (Status|BootStatus) \{|:enum Outcome \{|^enum Outcome \{|^    Malformed,$'
count 1 'a number or a flag in a struct, beside what it decides' '^    (pub(\(crate\))? )?(number: u32|whole: bool|present: bool|written: bool|going: bool|status: (Boot)?Status),$'
count 1 'functions whose result is the number of a refusal or a decline, or 0' "$fn"'(boot_cold|open_into|boot_into|[a-z]*_?ground|store|store_from|answer|entry|cut|number_of|boot_number|refusal|begin|feed|finish|store_number|put_next|waggleloft_(sha384|sha384_begin|sha384_feed|sha384_finish|store|answer|entry))\b.*-> u32|^\) -> u32|fn store_number<'
count 1 'functions that tell by a bool whether writing was done' "$fn"'[a-z_0-9]+<(R: Read, )?W: Write>\(.*-> bool|^\) -> bool'
count 1 'functions whose result is an index, or the number of nodes for none' "$fn"'(lowest|lowest_with|[a-z]+_index|named)\b.*-> usize'
count 1 'constants that number a kind' 'const (REQUEST|UPDATE_BOOT|STORE|COLD_BOOT|ANSWER|ENTRY|POWER_CUT|LEND|LEFT|SET|DUMP|STOP|BEGIN|FEED|FINISH|SET_COUNT|[A-Z]+_COMMAND|[A-Z_]+_BYTE|(STASH|DISABLE|IDENTITY|VERIFY|EXTEND|INVOKE)_CODE|KINDS|RETAINED|REPLACED): u(8|32) '
count 1 'constants that number a refusal or a decline' 'const (WRONG_[A-Z]+|UNFINISHED|UNKNOWN_CODE|BAD_[A-Z]+|STORES_LEFT|SHORT_[A-Z]+|NO_STORE_LEFT|NOT_WELL_FORMED|ATTESTATION_OFF|DPE_[A-Z_]+|UNLISTED_KIND|CUT_ENTRY|UNCOUNTED|NO_WORK|TOO_LONG): u32 '
count 2 'functions that have a twin' "$fn"'(wide|joined|handles|read_digest|read_handle|put_digest|put_handle|all_are|part12|pack|node_in|unpack|bytes_of|put_word|put64|head|extended_row|root_row|complain|say_unread|say_unwritten|ready|refused|boot_ready|boot_refused|number_of|boot_number|encode|decode|stash_(put|row)|replace_(put|row)|part_(put|row)|extension_(put|row))\b'
count 2 'types that have a twin' 'struct (DigestRead|HandleRead|NumberRead|DeriveRead|EntryRead|Stored|Answered|Taken|Opened|Booted|Told|Response|TreeRequest|Answer|DigestResult|Fed) '
count 3 'loops with while' '\bwhile\b.*\{$'
count 4 'functions that convert, compare or name a variant by hand' "$fn"'(wide|four|word|word_at|put_word|put64|low|high|joined|state_of|words_of|encode|decode|outcome_number|number_of|boot_number|is_update|is_stored|is_destroy|is_kind|refusal|head|root_matches|same|read16|read32|read64|byte_of)\b'
count 4 'calls of functions where a method stands' 'wrapping_(add|sub)_u(32|64)\(.*[,)]'
count 5 'clauses: an index is below the number of nodes' 'requires [a-z_]*[ ]?\{ i < node_count \}'
count 5 'functions that take the four prepared rows' 'journey: &'"'"'a \[u32\]'
count 5 'functions that take a request'"'"'s six inputs, or a boot'"'"'s three' '^ +handoff: &\[u8\],|runtime: &\[u8\], manifest: &\[u8\], secret: &\[u8\]|^ +runtime: &\[u8\],'
count 5 'functions that take a work by its kind, position and answer'"'"'s length' 'kind: Kind, position: usize, answer_len: usize|^    position: usize,$'
count 6 'buffers with a length beside' '^ +(pub(\(crate\))? )?(len|length|count|held|waiting|answer_len|taken): (usize|u64),$'
count 7 'matches that choose the step to run' '^ +match (op|code|kind|operation|letter|command|status) \{$'
printf '8  %4d  files of answers, with %d lines\n' "$(find crates/*/proofs -name Answers.antt | wc -l)" "$(find crates/*/proofs -name Answers.antt -exec cat {} + | wc -l)"
