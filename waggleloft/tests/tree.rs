//! Commands to the tree through the crate: what each stores, what is declined, cuts, and what a destroy frees.

mod common;
#[path = "common/works.rs"]
mod works;

use common::{fresh as booted, run, INPUTS};
use waggleloft::{
    code, dpe, sha384, tree, Outcome, Refusal, Request, Work, ANSWER_LONGEST, DPE_DATA_LONGEST,
    HANDLE_BYTES, NODES, NODES_AT, NODE_CURRENT, NODE_HANDLE, NODE_LOCALITY, NODE_TYPE, NODE_WORDS,
};
use works::{bytes_at, every_cut, node, sealed, DISABLING};

/// Stores of each.
const RETAINING: usize = 37;
const RETIRING: usize = 42;
const EXTEND: usize = 26;
const ROTATE: usize = 7;
const STASH: usize = 54;

fn destroying(freed: usize) -> usize {
    2 + 35 * freed
}

type Handle = [u8; HANDLE_BYTES];
const DEFAULT: Handle = [0; HANDLE_BYTES];
const RETIRED: Handle = [0xFF; HANDLE_BYTES];
const CUMULATIVE: usize = 20;

/// A handle of equal bytes.
fn handle(byte: usize) -> Handle {
    [u8::try_from(byte).expect("a byte"); HANDLE_BYTES]
}

// ---- the data of each command

/// Type 300, so that it takes two groups.
fn derive(parent: Handle, retain: u8, byte: u8) -> Vec<u8> {
    let numbers = [retain, 0xAC, 0x02];
    [&[tree::DERIVE][..], &parent, &numbers, &[byte; 48]].concat()
}

fn extend(named: Handle, byte: u8) -> Vec<u8> {
    [&[tree::EXTEND][..], &named, &[byte; 48]].concat()
}

fn rotate(named: Handle) -> Vec<u8> {
    [&[tree::ROTATE][..], &named].concat()
}

fn destroy(named: Handle) -> Vec<u8> {
    [&[tree::DESTROY][..], &named].concat()
}

// ---- a unit

fn request_of(data: &[u8]) -> Vec<u8> {
    let size = u32::try_from(data.len()).expect("a size").to_le_bytes();
    sealed(code::INVOKE_DPE_COMMAND, &[&size, data].concat())
}

fn open(
    work: &mut Work,
    image: &[u32],
    caller: u32,
    data: &[u8],
    fresh: &[u8],
) -> Result<(), Refusal> {
    let request = Request {
        code: code::INVOKE_DPE_COMMAND,
        bytes: &request_of(data),
        caller,
        fresh,
        ..Request::default()
    };
    work.open_request(image, &request)
}

/// The dpe result of a finished work.
fn dpe_result(work: &Work) -> u32 {
    let mut answer = [0xEE; ANSWER_LONGEST];
    assert_eq!(work.answer(&mut answer), Ok(12));
    let result = u32::from_le_bytes([answer[8], answer[9], answer[10], answer[11]]);
    let sum = 0u32.wrapping_sub(result).to_le_bytes();
    assert_eq!(answer[..8], [sum, [0; 4]].concat(), "checksum and status");
    result
}

/// Makes all stores of a command; how many they were.
#[track_caller]
fn serve(image: &mut [u32], caller: u32, data: &[u8], fresh: &[u8]) -> usize {
    let mut work = Work::new();
    assert_eq!(open(&mut work, image, caller, data, fresh), Ok(()));
    let stores = run(&mut work, image, usize::MAX);
    assert_eq!(dpe_result(&work), dpe::DONE);
    stores
}

/// A command is declined with that dpe result, with nothing to store and no entry.
#[track_caller]
fn declined(image: &[u32], caller: u32, data: &[u8], fresh: &[u8], result: u32) {
    let mut work = Work::new();
    assert_eq!(open(&mut work, image, caller, data, fresh), Ok(()));
    assert_eq!(work.left(), 0);
    assert_eq!(dpe_result(&work), result);
    assert_eq!(work.entry(&mut []), Ok(0));
}

fn open_stash(work: &mut Work, image: &[u32]) -> Result<(), Refusal> {
    let request = Request {
        code: code::STASH_MEASUREMENT,
        bytes: &sealed(code::STASH_MEASUREMENT, &[0x66; 56]),
        ..Request::default()
    };
    work.open_request(image, &request)
}

fn stash(image: &mut [u32]) {
    let mut work = Work::new();
    assert_eq!(open_stash(&mut work, image), Ok(()));
    assert_eq!(run(&mut work, image, usize::MAX), STASH);
}

#[track_caller]
fn stash_declined(image: &[u32], result: u32) {
    let mut work = Work::new();
    assert_eq!(open_stash(&mut work, image), Ok(()));
    assert_eq!((work.left(), dpe_result(&work)), (0, result));
}

/// An update boot that counts.
#[track_caller]
fn updates(image: &[u32]) {
    let outcome = Work::new().open_update_boot(image, &INPUTS, true);
    assert_eq!(outcome, Ok(Outcome::Updated));
}

fn put_bytes(image: &mut [u32], at: usize, bytes: &[u8]) {
    for (word, bytes) in image[at..].iter_mut().zip(bytes.chunks_exact(4)) {
        *word = u32::from_le_bytes(bytes.try_into().expect("four bytes"));
    }
}

fn put_handle(image: &mut [u32], index: usize, handle: Handle) {
    put_bytes(image, node(index) + NODE_HANDLE, &handle);
}

fn clear(image: &mut [u32], index: usize) {
    image[node(index)..][..NODE_WORDS].fill(0);
}

/// The nodes that are used.
fn used(image: &[u32]) -> Vec<usize> {
    let nodes = image[NODES_AT..].chunks_exact(NODE_WORDS).enumerate();
    let used = nodes.filter(|(_, node)| node[0] & 0xFFFF == 1);
    used.map(|(index, _)| index).collect()
}

/// A cold boot, and below the root so many nodes, each the child of the one before, with handles 1, 2, .. of equal
/// bytes; all but the last are retired, the root too.
fn chain(children: usize) -> Vec<u32> {
    let mut image = booted();
    let mut parent = DEFAULT;
    for index in 1..=children {
        let stores = serve(&mut image, 0, &derive(parent, 0, 0x66), &handle(index));
        assert_eq!(stores, RETIRING);
        parent = handle(index);
    }
    image
}

/// A cold boot, and so many children of the root, with handles 1, 2, .. of equal bytes.
fn star(children: usize) -> Vec<u32> {
    let mut image = booted();
    for index in 1..=children {
        let stores = serve(&mut image, 0, &derive(DEFAULT, 1, 0x66), &handle(index));
        assert_eq!(stores, RETAINING);
    }
    image
}

// ---- what each stores

/// Every word of the child, and no other word of the image but the parent's handle without retain.
#[test]
fn a_derive_stores_a_child() {
    for (retain, stores) in [(1, RETAINING), (0, RETIRING)] {
        let mut image = booted();
        let mut expected = image.clone();
        let at = node(1);
        expected[at] = 1;
        put_handle(&mut expected, 1, handle(7));
        expected[at + NODE_CURRENT..][..12].fill(0x6666_6666);
        let cumulative = sha384(&[[0; 48], [0x66; 48]].concat()).expect("96 bytes");
        put_bytes(&mut expected, at + CUMULATIVE, &cumulative);
        expected[at + NODE_TYPE] = 300;
        if retain == 0 {
            put_handle(&mut expected, 0, RETIRED);
        }
        let data = derive(DEFAULT, retain, 0x66);
        assert_eq!(serve(&mut image, 0, &data, &handle(7)), stores);
        assert_eq!(image, expected, "retain {retain}");
        updates(&image);
    }
}

/// The child hangs on the named node, is the caller's, and has svn 0 and the lowest free node.
#[test]
fn a_derive_below_a_stash() {
    let mut image = booted();
    let stash = Request {
        code: code::STASH_MEASUREMENT,
        bytes: &sealed(code::STASH_MEASUREMENT, &[0x66; 56]),
        caller: 300,
        ..Request::default()
    };
    let mut work = Work::new();
    assert_eq!(work.open_request(&image, &stash), Ok(()));
    assert_eq!(run(&mut work, &mut image, usize::MAX), STASH);
    let data = derive(DEFAULT, 1, 0x77);
    assert_eq!(serve(&mut image, 300, &data, &handle(7)), RETAINING);
    let child = &image[node(2)..node(3)];
    assert_eq!(child[0], 1 << 16 | 1);
    assert_eq!(child[NODE_LOCALITY..], [300, 0], "locality and svn");
}

#[test]
fn an_extend_replaces_and_extends() {
    let mut image = star(2);
    for byte in [0x77, 0x88] {
        let mut expected = image.clone();
        let at = node(2);
        expected[at + NODE_CURRENT..][..12].fill(u32::from_le_bytes([byte; 4]));
        let joined = [bytes_at(&image, at + CUMULATIVE), vec![byte; 48]].concat();
        let cumulative = sha384(&joined).expect("96 bytes");
        put_bytes(&mut expected, at + CUMULATIVE, &cumulative);
        assert_eq!(serve(&mut image, 0, &extend(handle(2), byte), &[]), EXTEND);
        assert_eq!(image, expected);
    }
    updates(&image);
}

/// Of a node below the root, and of the root itself.
#[test]
fn a_rotate_changes_the_handle() {
    for (named, index) in [(handle(2), 2), (DEFAULT, 0)] {
        let mut image = star(2);
        let mut expected = image.clone();
        put_handle(&mut expected, index, handle(9));
        assert_eq!(serve(&mut image, 0, &rotate(named), &handle(9)), ROTATE);
        assert_eq!(image, expected);
        updates(&image);
        declined(&image, 0, &rotate(named), &handle(10), dpe::UNKNOWN_HANDLE);
        assert_eq!(
            serve(&mut image, 0, &rotate(handle(9)), &handle(10)),
            ROTATE
        );
    }
}

#[test]
fn a_destroy_frees_its_node() {
    for index in 1..=3 {
        let mut image = star(3);
        let mut expected = image.clone();
        clear(&mut expected, index);
        assert_eq!(
            serve(&mut image, 0, &destroy(handle(index)), &[]),
            destroying(1)
        );
        assert_eq!(image, expected);
        updates(&image);
    }
}

// ---- what a destroy frees

/// A chain of every length: all but the root, from the end upwards, node by node.
#[test]
fn a_destroy_frees_a_chain_upwards() {
    for children in 1..NODES {
        let mut image = chain(children);
        let mut expected = image.clone();
        let mut work = Work::new();
        let data = destroy(handle(children));
        assert_eq!(open(&mut work, &image, 0, &data, &[]), Ok(()));
        assert_eq!(work.left(), destroying(children));
        assert_eq!(run(&mut work, &mut image, 1), 1);
        expected[0] = 0;
        assert_eq!(image, expected);
        for index in (1..=children).rev() {
            assert_eq!(run(&mut work, &mut image, NODE_WORDS), NODE_WORDS);
            clear(&mut expected, index);
            assert_eq!(image, expected, "node {index} of {children}");
        }
        assert_eq!(run(&mut work, &mut image, usize::MAX), 1);
        expected[0] = 1;
        assert_eq!(image, expected);
    }
}

/// It stops at a node that is live, at one with another child, and at the root.
#[test]
fn a_destroy_stops() {
    // Node 2 is live.
    let mut image = chain(2);
    serve(&mut image, 0, &derive(handle(2), 1, 0x66), &handle(3));
    let stores = serve(&mut image, 0, &destroy(handle(3)), &[]);
    assert_eq!((stores, used(&image)), (destroying(1), vec![0, 1, 2]));

    // Node 2 is retired and has the children 3 and 4; once it has none it goes, and node 1 with it.
    serve(&mut image, 0, &derive(handle(2), 1, 0x66), &handle(3));
    serve(&mut image, 0, &derive(handle(2), 0, 0x66), &handle(4));
    let stores = serve(&mut image, 0, &destroy(handle(3)), &[]);
    assert_eq!((stores, used(&image)), (destroying(1), vec![0, 1, 2, 4]));
    let stores = serve(&mut image, 0, &destroy(handle(4)), &[]);
    assert_eq!((stores, used(&image)), (destroying(3), vec![0]));
}

/// Freed nodes serve again, the lowest first.
#[test]
fn freed_nodes_serve_again() {
    let mut image = star(NODES - 1);
    let data = derive(DEFAULT, 1, 0x66);
    declined(&image, 0, &data, &handle(100), dpe::NO_FREE_NODE);
    stash_declined(&image, dpe::NO_FREE_NODE);
    for index in [20, 5, 31] {
        serve(&mut image, 0, &destroy(handle(index)), &[]);
    }
    let fresh = [(5, 100), (20, 101), (31, 102)];
    for (index, byte) in fresh {
        serve(&mut image, 0, &data, &handle(byte));
        let at = node(index) + NODE_HANDLE;
        assert_eq!(image[at], u32::from_le_bytes([byte as u8; 4]));
    }
    declined(&image, 0, &data, &handle(103), dpe::NO_FREE_NODE);
    updates(&image);
}

/// Destroying the end of a chain of stashes leaves the root retired: no handle is live before a cold boot.
#[test]
fn a_destroyed_chain_of_stashes() {
    let mut image = booted();
    for _ in 0..3 {
        stash(&mut image);
    }
    let stores = serve(&mut image, 0, &destroy(DEFAULT), &[]);
    assert_eq!((stores, used(&image)), (destroying(3), vec![0]));
    stash_declined(&image, dpe::NO_HOLDER);
    for data in [
        derive(DEFAULT, 1, 0x66),
        rotate(RETIRED),
        destroy(DEFAULT),
        extend(RETIRED, 0x66),
    ] {
        declined(&image, 0, &data, &handle(1), dpe::UNKNOWN_HANDLE);
    }
    updates(&image);
}

/// No node holds the default handle: with free nodes or without, a stash gets 3.
#[test]
fn a_stash_without_a_holder() {
    let mut image = booted();
    serve(&mut image, 0, &rotate(DEFAULT), &handle(1));
    stash_declined(&image, dpe::NO_HOLDER);
    for index in 2..=NODES {
        serve(&mut image, 0, &derive(handle(1), 1, 0x66), &handle(index));
    }
    stash_declined(&image, dpe::NO_HOLDER);
    image[1] = 0;
    stash_declined(&image, dpe::OFF);
}

// ---- cuts

#[test]
fn every_cut_of_each() {
    let commands = [
        (star(1), derive(DEFAULT, 1, 0x77), RETAINING, node(2)),
        (star(1), derive(handle(1), 0, 0x77), RETIRING, node(2)),
        (
            star(2),
            extend(handle(2), 0x77),
            EXTEND,
            node(2) + NODE_CURRENT,
        ),
        (star(2), rotate(handle(2)), ROTATE, node(2) + NODE_HANDLE),
        (star(2), destroy(handle(2)), destroying(1), node(2)),
        (chain(3), destroy(handle(3)), destroying(3), node(1)),
    ];
    for (image, data, stores, shown) in commands {
        let open = |work: &mut Work, image: &[u32]| open(work, image, 0, &data, &handle(9));
        every_cut(&image, open, stores, 12, shown);
    }
}

// ---- what is declined and refused

/// Every fault at once, mended one after the other: each time the next is told.
#[test]
fn the_order_of_declines() {
    let full = star(NODES - 1);
    let mut off = full.clone();
    off[1] = 0;
    let mut torn = full.clone();
    torn[node(31)] = 0xFFFF_0001;
    let mut both = torn.clone();
    both[1] = 0;
    let malformed = [derive(handle(99), 1, 0x66), vec![0]].concat();
    declined(&both, 5, &malformed, &[], dpe::OFF);
    declined(&off, 5, &malformed, &[], dpe::OFF);
    let mut work = Work::new();
    let refused = open(&mut work, &torn, 5, &malformed, &[]);
    assert_eq!(refused, Err(Refusal::NotWellFormed));
    declined(&full, 5, &malformed, &[], dpe::WRONG_DATA);
    let unknown = derive(handle(99), 1, 0x66);
    declined(&full, 5, &unknown, &[], dpe::UNKNOWN_HANDLE);
    let known = derive(handle(31), 1, 0x66);
    declined(&full, 5, &known, &[], dpe::OTHER_CALLER);
    declined(&full, 0, &known, &[], dpe::WRONG_FRESH);
    declined(&full, 0, &known, &handle(99), dpe::NO_FREE_NODE);
}

#[test]
fn the_root_is_neither_extended_nor_destroyed() {
    for image in [booted(), star(1)] {
        declined(&image, 0, &extend(DEFAULT, 0x66), &[], dpe::ROOT);
        declined(&image, 0, &destroy(DEFAULT), &[], dpe::ROOT);
        declined(&image, 1, &destroy(DEFAULT), &[], dpe::OTHER_CALLER);
    }
}

#[test]
fn a_node_with_children_is_not_destroyed() {
    let mut image = star(1);
    serve(&mut image, 0, &derive(handle(1), 1, 0x66), &handle(2));
    let data = destroy(handle(1));
    declined(&image, 0, &data, &[], dpe::HAS_CHILDREN);
    serve(&mut image, 0, &destroy(handle(2)), &[]);
    assert_eq!(serve(&mut image, 0, &data, &[]), destroying(1));
}

#[test]
fn each_command_is_its_callers() {
    let image = star(1);
    for data in [
        derive(handle(1), 1, 0x66),
        derive(handle(1), 0, 0x66),
        extend(handle(1), 0x66),
        rotate(handle(1)),
        destroy(handle(1)),
    ] {
        for caller in [1, 0x100, 0x0100_0000, u32::MAX] {
            declined(&image, caller, &data, &handle(9), dpe::OTHER_CALLER);
        }
    }
}

/// Derive and rotate look at the fresh handle; extend and destroy take any.
#[test]
fn fresh_handles() {
    let image = star(2);
    let mut wrong = vec![DEFAULT.to_vec(), RETIRED.to_vec()];
    wrong.extend([1, 2].map(|byte| handle(byte).to_vec()));
    wrong.extend([0, 1, 19, 21, 40].map(|len| vec![0x99; len]));
    let mut nearly = [RETIRED, DEFAULT];
    nearly[0][19] = 0xFE;
    nearly[1][0] = 1;
    for fresh in &wrong {
        for data in [
            derive(DEFAULT, 1, 0x66),
            derive(handle(1), 0, 0x66),
            rotate(handle(1)),
        ] {
            declined(&image, 0, &data, fresh, dpe::WRONG_FRESH);
        }
    }
    for fresh in &nearly {
        let mut image = image.clone();
        assert_eq!(serve(&mut image, 0, &rotate(handle(1)), fresh), ROTATE);
        updates(&image);
    }
    for fresh in &wrong {
        let mut image = image.clone();
        let stores = serve(&mut image, 0, &extend(handle(1), 0x66), fresh);
        assert_eq!(stores, EXTEND);
        let stores = serve(&mut image, 0, &destroy(handle(1)), fresh);
        assert_eq!(stores, destroying(1));
    }
}

/// Anything but exactly one command: every shorter data, a byte more, other commands, numbers in a longer form.
#[test]
fn malformed_data() {
    let image = star(1);
    let whole = [
        derive(handle(1), 1, 0x66),
        extend(handle(1), 0x66),
        rotate(handle(1)),
        destroy(handle(1)),
    ];
    let mut malformed: Vec<Vec<u8>> = vec![vec![0; DPE_DATA_LONGEST]];
    for data in &whole {
        let mut image = image.clone();
        serve(&mut image, 0, data, &handle(9));
        malformed.extend((0..data.len()).map(|len| data[..len].to_vec()));
        malformed.push([&data[..], &[0]].concat());
        for command in [0, 5, 0x81, 0xFF] {
            malformed.push([&[command], &data[1..]].concat());
        }
    }
    let head = [&[tree::DERIVE][..], &handle(1)].concat();
    let numbers: [&[u8]; 6] = [
        &[2, 7],
        &[0x81, 0, 7],
        &[1, 0x87, 0],
        &[1, 0xFF, 0xFF, 0xFF, 0xFF, 0x10],
        &[1, 0xFF, 0xFF, 0xFF, 0xFF, 0x80, 0],
        &[1, 0x80],
    ];
    for numbers in numbers {
        malformed.push([&head[..], numbers, &[0x66; 48]].concat());
    }
    for data in &malformed {
        declined(&image, 0, data, &handle(9), dpe::WRONG_DATA);
    }
}

/// The request is exactly 8 bytes and its data, of at most 1,024: before the checksum.
#[test]
fn lengths_of_requests() {
    let image = booted();
    let mut work = Work::new();
    let mut ask = |bytes: &[u8]| {
        let request = Request {
            code: code::INVOKE_DPE_COMMAND,
            bytes,
            ..Request::default()
        };
        work.open_request(&image, &request)
    };
    let whole = request_of(&rotate(DEFAULT));
    for len in 0..whole.len() {
        assert_eq!(ask(&whole[..len]), Err(Refusal::WrongLength), "{len} bytes");
    }
    let longer = [&whole[..], &[0]].concat();
    assert_eq!(ask(&longer), Err(Refusal::WrongLength));
    let longest = request_of(&[0; DPE_DATA_LONGEST]);
    assert_eq!(ask(&longest), Ok(()));
    let too_long = request_of(&[0; DPE_DATA_LONGEST + 1]);
    assert_eq!(ask(&too_long), Err(Refusal::WrongLength));
    let mut bad = whole.clone();
    bad[28] ^= 1;
    assert_eq!(ask(&bad), Err(Refusal::BadChecksum));
    assert_eq!(ask(&whole), Ok(()));
}

// ---- the nodes' form

/// Two nodes with one handle, the default one or another, are not well formed; two retired ones are.
#[test]
fn live_handles_are_distinct() {
    for (first, second, fine) in [
        (handle(1), handle(2), true),
        (handle(1), DEFAULT, true),
        (RETIRED, RETIRED, true),
        (handle(1), handle(1), false),
        (DEFAULT, DEFAULT, false),
    ] {
        let mut image = star(2);
        put_handle(&mut image, 0, handle(3));
        put_handle(&mut image, 1, first);
        put_handle(&mut image, 2, second);
        let mut work = Work::new();
        let opened = open(&mut work, &image, 0, &rotate(handle(3)), &handle(4));
        let outcome = work.open_update_boot(&image, &INPUTS, true);
        if fine {
            assert_eq!((opened, outcome), (Ok(()), Ok(Outcome::Updated)));
        } else {
            assert_eq!(opened, Err(Refusal::NotWellFormed));
            assert_eq!(outcome, Ok(Outcome::Disabled));
            assert_eq!(run(&mut work, &mut image, usize::MAX), DISABLING);
        }
    }
}
