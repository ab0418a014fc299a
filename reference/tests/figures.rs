//! The papers' figures as they state them. A request that changes one edits it
//! here and in `layout`.

use reference::book::replay::*;
use reference::generate::{FORMER_NODES, FORMER_WORDS};
use reference::journal::*;
use reference::layout::*;
use reference::mailbox::BOOTED_WITH;
use reference::script::{FREED_FROM, FREED_NUMBER};
use reference::sha384::BLOCK_BYTES;
use reference::tree::{DEFAULT, RETIRED};

#[test]
fn the_image() {
    assert_eq!(
        (IMAGE_WORDS, NODES, NODE_WORDS, REGISTERS),
        (1_520, 32, 35, 32)
    );
    assert_eq!((MARK, ATTESTATION, SPARE, SECRET), (0, 1, 2, 4));
    assert_eq!((register(0), register(31)), (16, 388));
    assert_eq!((node(0), node(1), node(31)), (400, 435, 1_485));
    assert_eq!(MAX_STEPS, 31);
}

/// What some scripts and wrong engines still go by.
#[test]
fn the_image_before() {
    assert_eq!((FORMER_NODES, FORMER_WORDS), (24, 1_240));
}

#[test]
fn a_node() {
    assert_eq!((TAG, HANDLE, HANDLE_WORDS, FLAGS), (1, 2, 5, 7));
    assert_eq!((NODE_CURRENT, NODE_CUMULATIVE), (8, 20));
    assert_eq!((TYPE, LOCALITY, SVN), (32, 33, 34));
}

#[test]
fn the_numbers_of_stores() {
    assert_eq!((STASH_STORES, DISABLING_STORES), (54, 15));
    assert_eq!((UPDATE_STORES, COLD_STORES), (62, 1_521));
    assert_eq!(EXTENSION_STORES, 14);
    assert_eq!((DERIVE_STORES, SUCCEED_STORES), (37, 42));
    assert_eq!((REMEASURE_STORES, ROTATE_STORES), (26, 7));
    assert_eq!([0, 1, 2, 32].map(destroy_stores), [2, 37, 72, 1_122]);
    assert_eq!(BEFORE_SVN, 47);
    assert_eq!(
        Sort::ALL.map(Sort::stores),
        [0, 15, 54, 62, 1_521, 14, 37, 42, 26, 7, 37]
    );
    let numbers = Sort::ALL.map(|sort| sort as usize);
    assert!(numbers.into_iter().eq(0..11));
}

#[test]
fn the_small_programs_boot() {
    assert_eq!(BOOTED_WITH.runtime, [0x11; 48]);
    assert_eq!(BOOTED_WITH.manifest, [0x33; 48]);
    assert_eq!(BOOTED_WITH.secret, [0x22; 48]);
}

#[test]
fn the_commands() {
    let rows = COMMANDS.map(|row| (row.code, row.request_bytes, row.answer_bytes));
    assert_eq!(
        rows,
        [
            (0x4D45_4153, 60, 12),
            (0x4453_424C, 4, 8),
            (0x4944_4549, 4, 104),
            (0x5349_4756, 196, 8),
            (0x5043_5245, 56, 8),
            (0x4450_4543, 8, 12),
        ]
    );
    assert_eq!(rows.iter().map(|row| row.2).max(), Some(ANSWER_MAX));
}

#[test]
fn a_stash() {
    assert_eq!((STASH_TYPE, STASH_DIGEST, STASH_SVN), (4, 8, 56));
}

#[test]
fn an_extension() {
    assert_eq!(EXTENDABLE, 4..=30);
    assert_eq!((EXTEND_REGISTER, EXTEND_DIGEST), (4, 8));
    assert_eq!((register(4), register(30)), (64, 376));
    assert_eq!((number::REGISTER, number::OFF), (12, 13));
}

#[test]
fn a_tree_command() {
    assert_eq!((INVOKE_SIZE, INVOKE_DATA, DATA_BYTES), (4, 8, 1_024));
    assert_eq!((DERIVE_DATA, EXTEND_DATA), (1, 2));
    assert_eq!((ROTATE_DATA, DESTROY_DATA), (3, 4));
    assert_eq!(HANDLE_BYTES, 20);
    assert_eq!((DPE_DONE, DPE_FULL, DPE_OFF, DPE_NO_HOLDER), (0, 1, 2, 3));
    assert_eq!((DPE_DATA, DPE_HANDLE, DPE_LOCALITY), (5, 6, 7));
    assert_eq!((DPE_FRESH, DPE_ROOT, DPE_CHILDREN), (8, 9, 10));
    assert_eq!((FREED_NUMBER, FREED_FROM), (4, 16));
    assert_eq!((DEFAULT, RETIRED), ([0; 20], [0xFF; 20]));
}

#[test]
fn the_journal() {
    assert_eq!((COLD_ENTRY, UPDATE_ENTRY, DISABLING_ENTRY), (1, 2, 3));
    assert_eq!((STASH_ENTRY, EXTENSION_ENTRY), (4, 5));
    assert_eq!((DERIVE_ENTRY, REMEASURE_ENTRY), (6, 7));
    assert_eq!((ROTATE_ENTRY, DESTROY_ENTRY), (8, 9));
    assert_eq!((number::KIND, number::GROUPS, number::CUT), (20, 21, 22));
    assert_eq!((number::ENTRY_BUFFER, number::UNCOUNTED), (23, 24));
    assert_eq!((IMAGE_BYTES, JOURNAL_BYTES), (6_080, 4_294_967_296));
    assert_eq!([NOT_BOOTED, SWITCHED_OFF, UNLIKE, ALIKE], [0, 1, 2, 3]);
    assert_eq!(4 * (NODES_AT - COMPARED_FROM), 1_440);
}

#[test]
fn the_running_digest() {
    assert_eq!((SLICE_BYTES, TOTAL_BYTES), (65_535, 4_294_967_295));
    assert_eq!(BLOCK_BYTES, 128);
    assert_eq!((number::COUNTS, number::SLICE, number::TOTAL), (27, 10, 16));
}
