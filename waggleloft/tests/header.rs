//! The crate and include/waggleloft.h have the same numbers, under names that belong together.

use waggleloft::{code, dpe, tree, Refusal};

/// The macros of the header that are numbers, without `WAGGLELOFT_`, section by section.
fn macros(section: &str) -> Vec<(&'static str, u64)> {
    let header = include_str!("../../include/waggleloft.h");
    let heading = format!("/* ---- {section} ---- */");
    let (_, rest) = header.split_once(&heading).expect("the section");
    let text = rest.split("/* ---- ").next().unwrap_or(rest);
    let lines = text.lines().filter_map(|line| {
        let mut words = line.strip_prefix("#define WAGGLELOFT_")?.split(' ');
        Some((words.next()?, number(words.next()?)))
    });
    lines.collect()
}

/// `48`, `UINT32_C(1)` or `UINT32_C(0x4243484B)`.
fn number(text: &str) -> u64 {
    let digits = match text.split_once('(') {
        Some((_, inner)) => inner.trim_end_matches(')'),
        None => text,
    };
    let parsed = match digits.strip_prefix("0x") {
        Some(hex) => u64::from_str_radix(hex, 16),
        None => digits.parse(),
    };
    parsed.unwrap_or_else(|_| panic!("{text} is no number"))
}

/// `WRONG_IMAGE` as `WrongImage`.
fn camel(name: &str) -> String {
    let words = name.split('_').map(|word| {
        let (first, rest) = word.split_at(1);
        first.to_string() + &rest.to_lowercase()
    });
    words.collect()
}

#[test]
fn every_refusal_has_the_headers_name_and_number() {
    let mut numbers = macros("Numbers that the functions hand back");
    assert_eq!(numbers[0], ("OK", 0));
    let replays = macros("Numbers of the program replay, which reads a journal");
    let of_replay: Vec<u64> = replays.iter().map(|(_, number)| *number).collect();
    assert_eq!(of_replay, [20, 21, 22, 24]);
    numbers.extend(replays);
    for &(name, number) in &numbers[1..] {
        let refusal = Refusal::from_number(u32::try_from(number).expect("32 bits"));
        // Works and states of another length share a number.
        let name = if name == "WRONG_STATE" {
            "WRONG_WORK"
        } else {
            name
        };
        assert_eq!(format!("{refusal:?}"), camel(name));
        assert_eq!(u64::from(refusal.number()), number);
    }
}

#[test]
fn every_command_has_the_headers_code() {
    let codes = [
        ("STASH_MEASUREMENT", code::STASH_MEASUREMENT),
        ("DISABLE_ATTESTATION", code::DISABLE_ATTESTATION),
        ("IDENTITY_KEY", code::IDENTITY_KEY),
        ("VERIFY_SIGNATURE", code::VERIFY_SIGNATURE),
        ("EXTEND_PCR", code::EXTEND_PCR),
        ("EXTEND_FIRST", waggleloft::EXTEND_FIRST),
        ("EXTEND_LAST", waggleloft::EXTEND_LAST),
        ("INVOKE_DPE_COMMAND", code::INVOKE_DPE_COMMAND),
    ];
    let codes = codes.map(|(name, code)| (name, u64::from(code)));
    assert_eq!(macros("Command codes of the mailbox"), codes);
}

#[test]
fn every_command_to_the_tree_has_the_headers_number() {
    let commands = [
        ("TREE_DERIVE", tree::DERIVE),
        ("TREE_EXTEND", tree::EXTEND),
        ("TREE_ROTATE", tree::ROTATE),
        ("TREE_DESTROY", tree::DESTROY),
    ];
    let commands = commands.map(|(name, number)| (name, u64::from(number)));
    assert_eq!(macros("Commands to the tree"), commands);
}

#[test]
fn every_dpe_result_has_the_headers_number() {
    let results = [
        ("DPE_DONE", dpe::DONE),
        ("DPE_NO_FREE_NODE", dpe::NO_FREE_NODE),
        ("DPE_OFF", dpe::OFF),
        ("DPE_NO_HOLDER", dpe::NO_HOLDER),
        ("DPE_WRONG_DATA", dpe::WRONG_DATA),
        ("DPE_UNKNOWN_HANDLE", dpe::UNKNOWN_HANDLE),
        ("DPE_OTHER_CALLER", dpe::OTHER_CALLER),
        ("DPE_WRONG_FRESH", dpe::WRONG_FRESH),
        ("DPE_ROOT", dpe::ROOT),
        ("DPE_HAS_CHILDREN", dpe::HAS_CHILDREN),
    ];
    let results = results.map(|(name, number)| (name, u64::from(number)));
    assert_eq!(macros("Dpe results"), results);
}

#[test]
fn every_size_is_the_headers() {
    let sizes = [
        ("IMAGE_WORDS", waggleloft::IMAGE_WORDS as u64),
        ("WORK_WORDS", waggleloft::WORK_WORDS as u64),
        ("ANSWER_LONGEST", waggleloft::ANSWER_LONGEST as u64),
        ("ENTRY_LONGEST", waggleloft::ENTRY_LONGEST as u64),
        ("HANDLE_BYTES", waggleloft::HANDLE_BYTES as u64),
        ("DPE_DATA_LONGEST", waggleloft::DPE_DATA_LONGEST as u64),
        ("SHA384_BYTES", waggleloft::SHA384_BYTES as u64),
        ("SHA384_LONGEST", waggleloft::SHA384_LONGEST as u64),
        ("SHA384_STATE_BYTES", waggleloft::SHA384_STATE_BYTES as u64),
        ("SHA384_TOTAL_LONGEST", waggleloft::SHA384_TOTAL_LONGEST),
    ];
    assert_eq!(macros("Sizes"), sizes);
}

#[test]
fn every_place_of_the_nodes_is_the_headers() {
    let places = [
        ("NODES", waggleloft::NODES),
        ("NODES_AT", waggleloft::NODES_AT),
        ("NODE_WORDS", waggleloft::NODE_WORDS),
        ("NODE_HANDLE", waggleloft::NODE_HANDLE),
        ("NODE_CURRENT", waggleloft::NODE_CURRENT),
        ("NODE_TYPE", waggleloft::NODE_TYPE),
        ("NODE_LOCALITY", waggleloft::NODE_LOCALITY),
        ("NODE_SVN", waggleloft::NODE_SVN),
    ];
    let places = places.map(|(name, place)| (name, place as u64));
    assert_eq!(macros("The list of measurements"), places);
}
