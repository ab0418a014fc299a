//! The engine through the crate: a boot, requests, cuts and refusals.

mod common;
#[path = "common/works.rs"]
mod works;

use common::{fresh, run, INPUTS};
use waggleloft::{
    archive_sizes, checksum, code, sha384, BootInputs, Outcome, Refusal, Request, Work,
    ANSWER_LONGEST, EXTEND_FIRST, EXTEND_LAST, IMAGE_WORDS, NODES, NODES_AT, NODE_CURRENT,
    NODE_LOCALITY, NODE_SVN, NODE_TYPE, NODE_WORDS, WORK_WORDS,
};
use works::{bytes_at, every_cut, node, sealed, DISABLING, UPDATE};

/// Stores of each further kind of work.
const STASH: usize = 54;
const EXTENSION: usize = 14;

fn digest_at(image: &[u32], at: usize) -> String {
    let bytes = bytes_at(image, at).into_iter();
    bytes.map(|byte| format!("{byte:02x}")).collect()
}

/// The first word of a register.
fn register(number: u32) -> usize {
    16 + 12 * number as usize
}

/// The word of a node's svn.
fn svn_at(index: usize) -> usize {
    node(index) + NODE_SVN
}

fn open(work: &mut Work, image: &[u32], code: u32, bytes: &[u8]) -> Result<(), Refusal> {
    let request = Request {
        code,
        bytes,
        ..Request::default()
    };
    work.open_request(image, &request)
}

/// A stash of that type, a digest of 48 equal bytes and that svn, with its checksum.
fn stash_of(kind: [u8; 4], byte: u8, svn: u32) -> Vec<u8> {
    let arguments = [&kind, &[byte; 48][..], &svn.to_le_bytes()].concat();
    sealed(code::STASH_MEASUREMENT, &arguments)
}

/// A stash of type "HOUR", a digest of 48 bytes 0x66 and that svn.
fn stash(svn: u32) -> Vec<u8> {
    stash_of(*b"HOUR", 0x66, svn)
}

fn open_svn(work: &mut Work, image: &[u32], svn: u32) -> Result<(), Refusal> {
    open(work, image, code::STASH_MEASUREMENT, &stash(svn))
}

fn open_stash(work: &mut Work, image: &[u32]) -> Result<(), Refusal> {
    open_svn(work, image, 0x0403_0201)
}

fn open_disable(work: &mut Work, image: &[u32]) -> Result<(), Refusal> {
    let bytes = sealed(code::DISABLE_ATTESTATION, &[]);
    open(work, image, code::DISABLE_ATTESTATION, &bytes)
}

/// An extension of a register by 48 equal bytes, with its checksum.
fn extension(number: u32, byte: u8) -> Vec<u8> {
    let arguments = [&number.to_le_bytes()[..], &[byte; 48]].concat();
    sealed(code::EXTEND_PCR, &arguments)
}

fn open_extension(work: &mut Work, image: &[u32], number: u32, byte: u8) -> Result<(), Refusal> {
    open(work, image, code::EXTEND_PCR, &extension(number, byte))
}

/// An image after a cold boot and a disable command.
fn switched_off() -> Vec<u32> {
    let mut image = fresh();
    let mut work = Work::new();
    assert_eq!(open_disable(&mut work, &image), Ok(()));
    assert_eq!(run(&mut work, &mut image, usize::MAX), DISABLING);
    image
}

#[test]
fn sizes_are_the_archives() {
    assert_eq!(archive_sizes(), (WORK_WORDS, IMAGE_WORDS));
}

#[test]
fn every_cut_of_a_stash() {
    every_cut(&fresh(), open_stash, STASH, 12, svn_at(1));
}

#[test]
fn every_cut_of_an_extension() {
    let open = |work: &mut Work, image: &[u32]| open_extension(work, image, 17, 0x66);
    every_cut(&fresh(), open, EXTENSION, 8, register(17));
}

#[test]
fn a_refusal_leaves_the_work() {
    let mut image = fresh();
    let mut work = Work::new();
    open_stash(&mut work, &image).expect("accepted");
    run(&mut work, &mut image, 20);
    let before = work.clone();
    let kept = image.clone();
    assert_eq!(open_stash(&mut work, &image), Err(Refusal::Unfinished));
    let short = BootInputs {
        runtime: &[0x11; 47],
        ..INPUTS
    };
    assert_eq!(
        work.open_cold_boot(&image, &short),
        Err(Refusal::WrongInput)
    );
    let zero = BootInputs {
        secret: &[0; 48],
        ..INPUTS
    };
    assert_eq!(
        work.open_update_boot(&image, &zero, true),
        Err(Refusal::WrongInput)
    );
    assert_eq!(
        work.open_update_boot(&image[1..], &short, true),
        Err(Refusal::WrongImage)
    );
    assert_eq!(work.store(&mut image[1..]), Err(Refusal::WrongImage));
    assert_eq!(work, before);
    assert_eq!(image, kept);
    assert_eq!(run(&mut work, &mut image, usize::MAX), STASH - 20);
}

/// An input of 0, 47 or 49 bytes is refused, whatever the boot would come to.
#[test]
fn wrong_inputs_are_refused_by_every_boot() {
    let whole = fresh();
    let mut torn = fresh();
    let mut stash = Work::new();
    open_stash(&mut stash, &torn).expect("accepted");
    run(&mut stash, &mut torn, 20);
    let boots = [
        (&whole, true, Outcome::Updated),
        (&whole, false, Outcome::Kept),
        (&torn, true, Outcome::Disabled),
    ];
    for (image, verdict, outcome) in boots {
        let mut work = Work::new();
        assert_eq!(work.open_update_boot(image, &INPUTS, verdict), Ok(outcome));
        let before = work.clone();
        for len in [0, 47, 49] {
            let bytes = vec![0x77; len];
            let mut wrong = [INPUTS; 3];
            wrong[0].runtime = &bytes;
            wrong[1].manifest = &bytes;
            wrong[2].secret = &bytes;
            for inputs in &wrong {
                let cold = work.open_cold_boot(image, inputs);
                assert_eq!(cold, Err(Refusal::WrongInput), "{len} bytes");
                let update = work.open_update_boot(image, inputs, verdict);
                assert_eq!(update, Err(Refusal::WrongInput), "{len} bytes, {outcome:?}");
            }
        }
        assert_eq!(work, before);
    }
}

#[test]
fn a_digest_may_have_any_content() {
    for (runtime, manifest) in [(0, 0x33), (0x11, 0), (0, 0), (0x11, 0x11)] {
        let mut image = fresh();
        let mut work = Work::new();
        let inputs = BootInputs {
            runtime: &[runtime; 48],
            manifest: &[manifest; 48],
            ..INPUTS
        };
        let update = work.open_update_boot(&image, &inputs, true);
        assert_eq!(update, Ok(Outcome::Updated));
        assert_eq!(run(&mut work, &mut image, usize::MAX), UPDATE);
        assert_eq!(work.open_cold_boot(&image, &inputs), Ok(Outcome::Cold));
    }
}

/// PCR2 and PCR3 after a cold boot are zero extended by the runtime digest, then by the manifest digest.
/// The digest is from GNU sha384sum:
///
/// ```text
/// x48() { printf "%.0s$1" $(seq 48); }
/// extend() { printf %b "$(sed 's/../\\x&/g' <<<"$1$2")" | sha384sum | cut -d' ' -f1; }
/// extend "$(extend "$(x48 00)" "$(x48 11)")" "$(x48 33)"
/// ```
#[test]
fn a_cold_boot_measures_runtime_then_manifest() {
    let image = fresh();
    let measured = "7c20878ab486f86b065344e2e6d2382b2cad84955ea5ecfd\
                    80b5f91ea9c0cc701431809b9907e1ff24efe3a603c6f486";
    assert_eq!(digest_at(&image, 40), measured, "PCR2");
    assert_eq!(digest_at(&image, 52), measured, "PCR3");
}

#[test]
fn exchanged_digests_give_other_registers() {
    let image = fresh();
    let mut other = fresh();
    let mut work = Work::new();
    let exchanged = BootInputs {
        runtime: INPUTS.manifest,
        manifest: INPUTS.runtime,
        ..INPUTS
    };
    assert_eq!(work.open_cold_boot(&other, &exchanged), Ok(Outcome::Cold));
    run(&mut work, &mut other, usize::MAX);
    assert_ne!(digest_at(&other, 40), digest_at(&image, 40), "PCR2");
    assert_ne!(digest_at(&other, 52), digest_at(&image, 52), "PCR3");
}

#[test]
fn a_declined_stash_is_answered() {
    let image = switched_off();
    let mut work = Work::new();
    assert_eq!(open_stash(&mut work, &image), Ok(()));
    assert_eq!(work.left(), 0);
    let mut answer = [0xEE; 12];
    assert_eq!(work.answer(&mut answer[..11]), Err(Refusal::ShortBuffer));
    assert_eq!(work.answer(&mut answer), Ok(12));
    assert_eq!(
        answer,
        [0xFE, 0xFF, 0xFF, 0xFF, 0, 0, 0, 0, 2, 0, 0, 0],
        "checksum 0 - 2, status 0, dpe result 2: attestation is off"
    );
    assert_eq!(checksum(0, &answer[4..]).to_le_bytes(), answer[..4]);
}

#[test]
fn refusals_of_requests() {
    let image = fresh();
    let mut work = Work::new();
    let mut ask = |code, bytes: &[u8]| open(&mut work, &image, code, bytes);
    let mut bad = stash(0x0403_0201);
    bad[30] ^= 1;
    assert_eq!(ask(0, &[]), Err(Refusal::UnknownCode));
    assert_eq!(ask(code::STASH_MEASUREMENT, &[]), Err(Refusal::WrongLength));
    assert_eq!(
        ask(code::STASH_MEASUREMENT, &bad),
        Err(Refusal::BadChecksum)
    );
    let identity = sealed(code::IDENTITY_KEY, &[]);
    assert_eq!(
        ask(code::IDENTITY_KEY, &identity),
        Err(Refusal::WrongHandoff)
    );
    let verify = sealed(code::VERIFY_SIGNATURE, &[0; 192]);
    assert_eq!(
        ask(code::VERIFY_SIGNATURE, &verify),
        Err(Refusal::BadSignature)
    );
}

/// Every register that may be extended, twice: its words are SHA-384 of the old value and the digest
/// joined, and no other word of the image changes.
#[test]
fn an_extension_stores_its_register_alone() {
    for number in EXTEND_FIRST..=EXTEND_LAST {
        let mut image = fresh();
        for byte in [0x66, 0x77] {
            let at = register(number);
            let joined = [bytes_at(&image, at), vec![byte; 48]].concat();
            let mut expected = image.clone();
            for (i, &byte) in sha384(&joined).expect("96 bytes").iter().enumerate() {
                let shift = 8 * (i % 4);
                expected[at + i / 4] &= !(0xFF << shift);
                expected[at + i / 4] |= u32::from(byte) << shift;
            }
            let mut work = Work::new();
            assert_eq!(open_extension(&mut work, &image, number, byte), Ok(()));
            assert_eq!(run(&mut work, &mut image, usize::MAX), EXTENSION);
            assert_eq!(image, expected, "PCR{number}");
            let mut answer = [0xEE; 9];
            assert_eq!(work.answer(&mut answer[..7]), Err(Refusal::ShortBuffer));
            assert_eq!(work.answer(&mut answer), Ok(8));
            assert_eq!(answer, [0, 0, 0, 0, 0, 0, 0, 0, 0xEE]);
        }
    }
}

/// Zero extended by 48 bytes 0x66, from GNU sha384sum:
///
/// ```text
/// x48() { printf "%.0s$1" $(seq 48); }
/// printf %b "$(sed 's/../\\x&/g' <<<"$(x48 00)$(x48 66)")" | sha384sum
/// ```
const EXTENDED: &str = "698aa835f229bcdf213933d7c8e1c2fa58c51fd9aa0680eb\
                        63bc13d039dee5e8d41f7fd033da6f8079cc1c9c5da2c49b";

#[test]
fn a_register_is_kept_by_an_update_and_zero_after_a_cold_boot() {
    let mut image = fresh();
    let mut work = Work::new();
    assert_eq!(open_extension(&mut work, &image, 4, 0x66), Ok(()));
    run(&mut work, &mut image, usize::MAX);
    assert_eq!(digest_at(&image, register(4)), EXTENDED);
    let update = work.open_update_boot(&image, &INPUTS, true);
    assert_eq!(update, Ok(Outcome::Updated));
    run(&mut work, &mut image, usize::MAX);
    assert_eq!(digest_at(&image, register(4)), EXTENDED);
    assert_eq!(work.open_cold_boot(&image, &INPUTS), Ok(Outcome::Cold));
    run(&mut work, &mut image, usize::MAX);
    assert_eq!(bytes_at(&image, register(4)), [0; 48]);
}

/// 12 for every number that is no register from 4 to 30, all 32 bits of it; then 13. Both come after the
/// checksum.
#[test]
fn refusals_of_an_extension() {
    let on = fresh();
    let off = switched_off();
    // Attestation is off by any value but 1.
    let mut two = fresh();
    two[1] = 2;
    let mut work = Work::new();
    let before = work.clone();
    for number in [0, 2, 3, 31, 32, 0x104, 0x0400_0000, 0x8000_0004, u32::MAX] {
        for image in [&on, &off, &two] {
            let opened = open_extension(&mut work, image, number, 0x66);
            assert_eq!(opened, Err(Refusal::WrongRegister), "register {number}");
        }
    }
    for number in [4, 30] {
        for image in [&off, &two] {
            let opened = open_extension(&mut work, image, number, 0x66);
            assert_eq!(opened, Err(Refusal::AttestationOff), "register {number}");
        }
    }
    let mut bad = extension(31, 0x66);
    bad[55] ^= 1;
    let mut ask = |bytes: &[u8]| open(&mut work, &off, code::EXTEND_PCR, bytes);
    assert_eq!(ask(&bad), Err(Refusal::BadChecksum));
    assert_eq!(ask(&bad[..55]), Err(Refusal::WrongLength));
    assert_eq!(work, before);
}

/// An extension does not look at the nodes.
#[test]
fn an_extension_on_nodes_that_are_not_well_formed() {
    let mut image = fresh();
    let mut work = Work::new();
    image[NODES_AT..].fill(u32::MAX);
    assert_eq!(open_stash(&mut work, &image), Err(Refusal::NotWellFormed));
    assert_eq!(open_extension(&mut work, &image, 4, 0x66), Ok(()));
    assert_eq!(run(&mut work, &mut image, usize::MAX), EXTENSION);
}

/// Makes all stores of a stash with that svn.
fn add(image: &mut [u32], svn: u32) {
    let mut work = Work::new();
    assert_eq!(open_svn(&mut work, image, svn), Ok(()));
    assert_eq!(run(&mut work, image, usize::MAX), STASH);
}

/// Opens an update boot that counts, and makes all its stores.
fn update(image: &mut [u32]) {
    let mut work = Work::new();
    let outcome = work.open_update_boot(image, &INPUTS, true);
    assert_eq!(outcome, Ok(Outcome::Updated));
    assert_eq!(run(&mut work, image, usize::MAX), UPDATE);
}

/// Every word of a new node, with another number in each field of the request.
#[test]
fn a_stash_keeps_its_svn() {
    let mut image = fresh();
    assert_eq!(image[svn_at(0)], 0, "the root's after a cold boot");
    let mut work = Work::new();
    let request = Request {
        code: code::STASH_MEASUREMENT,
        bytes: &stash(0x0403_0201),
        caller: 0x0D0C_0B0A,
        ..Request::default()
    };
    assert_eq!(work.open_request(&image, &request), Ok(()));
    assert_eq!(run(&mut work, &mut image, usize::MAX), STASH);
    let mut node_1 = [0; NODE_WORDS];
    node_1[0] = 1;
    node_1[NODE_CURRENT..NODE_CURRENT + 12].fill(0x6666_6666);
    node_1[20..32].copy_from_slice(&image[node(1) + 20..node(1) + 32]);
    node_1[NODE_TYPE] = u32::from_le_bytes(*b"HOUR");
    node_1[NODE_LOCALITY] = 0x0D0C_0B0A;
    node_1[NODE_SVN] = 0x0403_0201;
    assert_eq!(image[node(1)..node(2)], node_1);
    assert_eq!(digest_at(&image, node(1) + 20), EXTENDED, "cumulative");
    assert_eq!(image[svn_at(0)], 0, "the root's");
    assert!(image[node(2)..].iter().all(|&word| word == 0));
}

/// The first word of a used node that hangs on that one; the root names no node.
fn used_on(parent: usize) -> u32 {
    u32::try_from(parent).expect("an index") << 16 | 1
}

const NO_PARENT: usize = 0xFF;

/// Type, byte of the digest and svn of the stash that takes that node.
fn fields_of(index: usize) -> (u32, u8, u32) {
    let number = u32::try_from(index).expect("an index");
    let byte = u8::try_from(index).expect("an index");
    (0x4142_4300 + number, byte, 0x0102_0304 * number)
}

/// Makes all stores of the stash that takes that node.
fn take(image: &mut [u32], index: usize) {
    let (kind, byte, svn) = fields_of(index);
    let bytes = stash_of(kind.to_le_bytes(), byte, svn);
    let mut work = Work::new();
    let opened = open(&mut work, image, code::STASH_MEASUREMENT, &bytes);
    assert_eq!(opened, Ok(()), "node {index}");
    assert_eq!(run(&mut work, image, usize::MAX), STASH);
}

/// A cold boot and stashes until so many nodes are used: a chain, each node hanging on the one before.
fn filled(nodes: usize) -> Vec<u32> {
    let mut image = fresh();
    for index in 1..nodes {
        take(&mut image, index);
    }
    image
}

/// No node is free: a stash has nothing to store, and its dpe result is 1.
fn assert_full(image: &[u32]) {
    let mut work = Work::new();
    assert_eq!(open_stash(&mut work, image), Ok(()));
    assert_eq!(work.left(), 0);
    let mut answer = [0xEE; 12];
    assert_eq!(work.answer(&mut answer), Ok(12));
    assert_eq!(answer, [0xFF, 0xFF, 0xFF, 0xFF, 0, 0, 0, 0, 1, 0, 0, 0]);
}

/// A stash gets 11, and an update boot of either verdict switches attestation off.
fn assert_malformed(image: &[u32], what: &str) {
    let mut work = Work::new();
    let opened = open_stash(&mut work, image);
    assert_eq!(opened, Err(Refusal::NotWellFormed), "{what}");
    for verdict in [false, true] {
        let mut image = image.to_vec();
        let outcome = work.open_update_boot(&image, &INPUTS, verdict);
        assert_eq!(outcome, Ok(Outcome::Disabled), "{what}");
        assert_eq!(run(&mut work, &mut image, usize::MAX), DISABLING);
        assert_eq!(image[1], 0, "{what}: attestation");
    }
}

/// Card 9.
#[test]
fn a_stash_takes_the_last_node_and_then_none() {
    let mut image = filled(NODES - 1);
    assert!(image[node(NODES - 1)..].iter().all(|&word| word == 0));
    take(&mut image, NODES - 1);
    assert_eq!(image[node(NODES - 1)], used_on(NODES - 2));
    assert_full(&image);
}

/// The longest way to the root: every node has its parent, type, digest and svn, also after an update.
#[test]
fn a_chain_through_every_node() {
    let mut image = filled(NODES);
    let mut work = Work::new();
    let kept = work.open_update_boot(&image, &INPUTS, false);
    assert_eq!(kept, Ok(Outcome::Kept));
    update(&mut image);
    assert_full(&image);
    let mut nodes = image[NODES_AT..].chunks_exact(NODE_WORDS);
    let root = nodes.next().expect("node 0");
    assert_eq!((root[0], root[NODE_SVN]), (used_on(NO_PARENT), 0));
    for (index, node) in (1..NODES).zip(&mut nodes) {
        let (kind, byte, svn) = fields_of(index);
        assert_eq!(node[0], used_on(index - 1), "node {index}");
        assert_eq!(node[NODE_TYPE], kind, "node {index}");
        let digest = &node[NODE_CURRENT..NODE_CURRENT + 12];
        assert_eq!(digest, [u32::from_le_bytes([byte; 4]); 12], "node {index}");
        assert_eq!(node[NODE_LOCALITY], 0, "node {index}");
        assert_eq!(node[NODE_SVN], svn, "node {index}");
    }
    assert_eq!(nodes.next(), None);
}

/// The same image with every node at another place, node 0 at the last and so on; the parents name the new
/// places.
fn mirror(image: &[u32]) -> Vec<u32> {
    let mut mirrored = image[..NODES_AT].to_vec();
    for place in image[NODES_AT..].chunks_exact(NODE_WORDS).rev() {
        let parent = (place[0] >> 16) as usize;
        mirrored.extend(place);
        if place[0] & 0xFFFF == 1 && parent != NO_PARENT {
            let at = mirrored.len() - NODE_WORDS;
            mirrored[at] = used_on(NODES - 1 - parent);
        }
    }
    mirrored
}

/// The root may be the last node, with every parent at the next higher index. An update renews the root
/// there, and a stash takes node 0 if that is the free one.
#[test]
fn a_chain_in_reversed_order() {
    let mut image = filled(NODES);
    let mut reversed = mirror(&image);
    assert_eq!(reversed[node(NODES - 1)], used_on(NO_PARENT));
    assert_eq!(reversed[node(0)], used_on(1));
    assert_full(&reversed);
    update(&mut image);
    update(&mut reversed);
    assert_eq!(reversed, mirror(&image));
    let mut image = filled(NODES - 1);
    let mut reversed = mirror(&image);
    take(&mut image, NODES - 1);
    take(&mut reversed, NODES - 1);
    assert_eq!(reversed, mirror(&image));
}

/// With every node used, and with one free: the last nodes in a cycle, of each length, and a parent that
/// is no used node.
#[test]
fn ways_that_do_not_lead_to_the_root() {
    for nodes in [NODES - 1, NODES] {
        let list = filled(nodes);
        for index in 1..nodes {
            let cycle = nodes - 1;
            for parent in [cycle, NODES, NODES + 1, NO_PARENT + 1, 0xFFFF] {
                let mut image = list.clone();
                image[node(index)] = used_on(parent);
                assert_malformed(&image, &format!("node {index} of {nodes} on {parent}"));
            }
        }
    }
    let mut image = filled(NODES - 1);
    image[node(NODES - 2)] = used_on(NODES - 1);
    assert_malformed(&image, "a parent that is free");
}

#[test]
fn a_free_node_is_zero_in_its_svn() {
    for index in 1..NODES {
        for svn in [1, 0x0100_0000, u32::MAX] {
            let mut image = fresh();
            image[svn_at(index)] = svn;
            assert_malformed(&image, &format!("node {index}"));
        }
    }
}

/// An update leaves every node's svn, the root's too; a cold boot sets the root's to 0.
#[test]
fn a_used_node_may_have_any_svn() {
    for svn in [0, 1, 0x4D4A_5452, 0x8000_0000, u32::MAX] {
        let mut image = fresh();
        add(&mut image, 5);
        image[svn_at(0)] = svn;
        image[svn_at(1)] = !svn;
        update(&mut image);
        add(&mut image, 6);
        let found = [0, 1, 2].map(|index| image[svn_at(index)]);
        assert_eq!(found, [svn, !svn, 6]);
        let mut work = Work::new();
        assert_eq!(work.open_cold_boot(&image, &INPUTS), Ok(Outcome::Cold));
        run(&mut work, &mut image, usize::MAX);
        assert_eq!(image[svn_at(0)], 0);
    }
}

/// Card 12: the svn counts with the last store, and not before.
#[test]
fn a_stash_cut_at_its_last_stores() {
    for (cut, outcome) in [(53, Outcome::Disabled), (54, Outcome::Updated)] {
        let mut image = fresh();
        let mut work = Work::new();
        assert_eq!(open_stash(&mut work, &image), Ok(()));
        assert_eq!(run(&mut work, &mut image, cut), cut);
        let update = work.open_update_boot(&image, &INPUTS, true);
        assert_eq!(update, Ok(outcome), "cut {cut}");
        run(&mut work, &mut image, usize::MAX);
        assert_eq!(image[1], u32::from(outcome == Outcome::Updated));
        assert_eq!(image[svn_at(1)], 0x0403_0201);
    }
}

/// An image from before the nodes had an svn, one of 24 nodes, and those of one word less and one more.
#[test]
fn images_of_other_lengths() {
    for length in [1216, 1240, IMAGE_WORDS - 1, IMAGE_WORDS + 1] {
        let mut work = Work::new();
        open_stash(&mut work, &fresh()).expect("accepted");
        let before = work.clone();
        let mut image = fresh();
        image.resize(length, 0);
        let kept = image.clone();
        let cold = work.open_cold_boot(&image, &INPUTS);
        assert_eq!(cold, Err(Refusal::WrongImage), "{length} words");
        let update = work.open_update_boot(&image, &INPUTS, true);
        assert_eq!(update, Err(Refusal::WrongImage), "{length} words");
        let request = open_disable(&mut work, &image);
        assert_eq!(request, Err(Refusal::WrongImage), "{length} words");
        let store = work.store(&mut image);
        assert_eq!(store, Err(Refusal::WrongImage), "{length} words");
        assert_eq!(work, before);
        assert_eq!(image, kept);
    }
}

#[test]
fn damaged_words_have_no_store() {
    let mut image = fresh();
    let kept = image.clone();
    let mut work = Work::from_words([u32::MAX; WORK_WORDS]);
    assert_eq!(work.left(), 0);
    assert_eq!(work.store(&mut image), Err(Refusal::NoStoreLeft));
    assert_eq!(
        work.answer(&mut [0; ANSWER_LONGEST]),
        Err(Refusal::StoresLeft)
    );
    assert_eq!(image, kept);
    work.wipe();
    assert_eq!(work, Work::new());
}

#[test]
fn a_refusal_tells_its_words_and_number() {
    assert_eq!(
        Refusal::NoStoreLeft.to_string(),
        "no store is left (number 9)"
    );
    assert_eq!(
        Refusal::from_number(1000).to_string(),
        "refused (number 1000)"
    );
}

#[test]
fn debug_does_not_show_the_secret() {
    assert_eq!(format!("{:?}", Work::new()), "Work { left: 0, .. }");
    let inputs = BootInputs {
        runtime: &[1],
        manifest: &[2],
        secret: &[3],
    };
    assert_eq!(
        format!("{inputs:?}"),
        "BootInputs { runtime: [1], manifest: [2], .. }"
    );
}
