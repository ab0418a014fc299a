//! The program target/bin/sha384sum against the machine's `sha384sum`.

use host::random::Random;
use host::shell::{built_program, machine_line, run, Feed};
use std::env::temp_dir;
use std::fs::{remove_file, File};
use std::process::{id, Command, Output};

fn message(length: usize) -> Vec<u8> {
    Random::from_seed(length as u64).bytes(length)
}

/// The program prints what the machine's does, byte for byte, and no message.
fn same_as_machine(length: usize, feed: Feed) {
    let input = message(length);
    let output = run(&built_program("sha384sum"), &input, feed);
    let expected = machine_line(&input);
    assert_eq!(
        String::from_utf8(output.stdout),
        String::from_utf8(expected)
    );
    assert_eq!(String::from_utf8_lossy(&output.stderr), "");
    assert!(output.status.success(), "{}", output.status);
}

/// The longest input that has a digest, in bytes.
const LONGEST: u64 = 4_294_967_295;

/// What GNU sha384sum prints of that many zero bytes.
const LONGEST_OF_ZEROS: &str = "3e55c30ca2619b5ecd69c34dbb7275ef3e8e870c13ade4af\
                                92df74549a8e9db7bfc27516c98fa44813f2d0b7de5e49b7  -\n";

/// What the program gives for a file of so many zero bytes, which takes no space. One byte more than the longest
/// input is tried by tests/run.sh.
fn of_zeros(length: u64) -> Output {
    let path = temp_dir().join(format!("waggleloft-zeros-{}-{length}", id()));
    let file = File::create(&path).expect("a file");
    file.set_len(length).expect("a file with a hole");
    let output = Command::new(built_program("sha384sum"))
        .stdin(File::open(&path).expect("the file"))
        .output()
        .expect("the program ends");
    remove_file(&path).expect("the file goes");
    output
}

#[test]
fn no_byte() {
    same_as_machine(0, Feed::Whole);
}

#[test]
fn one_byte() {
    same_as_machine(1, Feed::Whole);
}

#[test]
fn one_block_with_its_padding() {
    same_as_machine(111, Feed::Whole);
}

#[test]
fn padding_in_a_second_block() {
    same_as_machine(112, Feed::Whole);
}

#[test]
fn one_page() {
    same_as_machine(4_096, Feed::Whole);
}

#[test]
fn the_longest_message() {
    same_as_machine(65_535, Feed::Whole);
}

#[test]
fn short_reads_of_a_block() {
    same_as_machine(112, Feed::Pieces(1));
}

#[test]
fn short_reads_of_a_page() {
    same_as_machine(4_096, Feed::Pieces(37));
}

#[test]
fn short_reads_of_the_longest_message() {
    same_as_machine(65_535, Feed::Pieces(1_000));
}

#[test]
fn edges_of_the_slices_that_are_read() {
    for length in [65_279, 65_280, 65_281, 65_536, 130_559, 130_560, 130_561] {
        same_as_machine(length, Feed::Whole);
    }
}

#[test]
fn many_slices() {
    same_as_machine(3_000_000, Feed::Whole);
}

#[test]
fn short_reads_of_many_slices() {
    same_as_machine(200_000, Feed::Pieces(4_000));
}

#[test]
fn the_longest_input() {
    let output = of_zeros(LONGEST);
    assert_eq!(String::from_utf8_lossy(&output.stdout), LONGEST_OF_ZEROS);
    assert_eq!(String::from_utf8_lossy(&output.stderr), "");
    assert!(output.status.success(), "{}", output.status);
}
