//! The binary itself: the campaign passes a right driver and shows a wrong one.

use std::fs;
use std::os::unix::fs::PermissionsExt;
use std::path::PathBuf;
use std::process::{Command, Output};

const REFERENCE: &str = env!("CARGO_BIN_EXE_reference");

fn reference(words: &[&str]) -> Output {
    Command::new(REFERENCE)
        .args(words)
        .output()
        .expect("it starts")
}

fn text(bytes: &[u8]) -> String {
    String::from_utf8_lossy(bytes).into_owned()
}

/// A folder of its own for a test.
fn folder(name: &str) -> PathBuf {
    let folder = PathBuf::from(env!("CARGO_TARGET_TMPDIR")).join(name);
    fs::create_dir_all(&folder).expect("a folder");
    folder
}

/// A program that runs the reference with these words.
fn program(name: &str, words: &str) -> String {
    let path = folder(name).join("engine");
    fs::write(&path, format!("#!/bin/sh\nexec '{REFERENCE}' {words}\n")).expect("a file");
    fs::set_permissions(&path, fs::Permissions::from_mode(0o755)).expect("a program");
    path.to_string_lossy().into_owned()
}

#[test]
fn a_right_driver_passes() {
    let engine = program("right", "play");
    let output = reference(&[
        "campaign", "--engine", &engine, "--from", "8", "--count", "100",
    ]);
    let last = text(&output.stdout)
        .lines()
        .last()
        .unwrap_or("")
        .to_string();
    assert!(last.starts_with("100 scripts, "), "{last}");
    assert!(last.ends_with(" operations, 0 differences"), "{last}");
    assert!(output.status.success());
}

/// What a campaign prints that finds a wrong engine.
fn shown(name: &str) -> String {
    let engine = program(name, &format!("play {name}"));
    let keep = folder(name).to_string_lossy().into_owned();
    let words = [
        "campaign", "--engine", &engine, "--count", "128", "--keep", &keep,
    ];
    let output = reference(&words);
    let shown = text(&output.stdout);
    assert_eq!(output.status.code(), Some(1), "{shown}");
    assert!(shown.contains("!! "), "{shown}");
    assert!(shown.contains(".small.script"), "{shown}");
    shown
}

#[test]
fn a_wrong_driver_is_shown_in_few_operations() {
    let shown = shown("MarkBeforeHandles");
    assert!(shown.lines().count() < 30, "{shown}");
}

#[test]
fn a_wrong_running_digest_is_shown_in_few_operations() {
    let shown = shown("FinishBegins");
    assert!(shown.contains("script fixed-0 differs"), "{shown}");
    assert!(shown.lines().count() < 15, "{shown}");
}

#[test]
fn a_driver_that_fails_is_a_difference() {
    let folder = folder("fails");
    let path = folder.join("engine");
    fs::write(&path, "#!/bin/sh\nexit 3\n").expect("a file");
    fs::set_permissions(&path, fs::Permissions::from_mode(0o755)).expect("a program");
    let path = path.to_string_lossy().into_owned();
    let output = reference(&["mailbox-campaign", "--engine", &path, "--count", "3"]);
    assert_eq!(output.status.code(), Some(1));
    let output = reference(&["campaign", "--engine", &path, "--count", "3"]);
    assert_eq!(output.status.code(), Some(1));
    let output = reference(&["campaign", "--engine", "no/such/program"]);
    assert_eq!(output.status.code(), Some(2));
}

#[test]
fn the_small_program_passes() {
    let engine = program("mailbox", "mailbox");
    let output = reference(&["mailbox-campaign", "--engine", &engine, "--count", "60"]);
    assert_eq!(
        text(&output.stdout).lines().last(),
        Some("60 inputs, 0 differences")
    );
    assert!(output.status.success());
}

/// What a replay's campaign prints, and its status.
fn replayed(folder: &str, words: &str) -> (String, Option<i32>) {
    let engine = program(folder, words);
    let keep = self::folder(folder).to_string_lossy().into_owned();
    let output = reference(&[
        "replay-campaign",
        "--engine",
        &engine,
        "--count",
        "300",
        "--entries",
        "20000",
        "--keep",
        &keep,
    ]);
    (text(&output.stdout), output.status.code())
}

#[test]
fn a_right_replay_passes() {
    let (shown, status) = replayed("right-replay", "replay");
    let last = shown.lines().last().unwrap_or("");
    assert!(
        last.ends_with(" inputs, 20000 entries, 0 differences"),
        "{shown}"
    );
    assert_eq!(status, Some(0));
}

#[test]
fn a_wrong_replay_is_shown_and_its_input_kept() {
    let (shown, status) = replayed("wrong-replay", "replay OffsetIsCount");
    assert_eq!(status, Some(1), "{shown}");
    let kept = shown.lines().find_map(|line| line.strip_prefix("kept in "));
    let input = fs::read(kept.expect("an input is kept")).expect("it is there");
    assert!(input.len() > 6_080, "{}", input.len());
    assert!(shown.contains("reference: 12 bytes: number 2"), "{shown}");
}

#[test]
fn a_replay_that_keeps_the_journal_is_told() {
    let (shown, status) = replayed("hoarder", "replay Hoarder");
    assert_eq!(status, Some(1), "{shown}");
    assert!(
        shown.ends_with("the memory grows with the journal\n"),
        "{shown}"
    );
}

#[test]
fn a_replay_that_does_not_read_is_told() {
    let (shown, status) = replayed("play", "play");
    assert_eq!(status, Some(1), "{shown}");
}

#[test]
fn wrong_words_are_refused() {
    for words in [
        &[][..],
        &["campaign"],
        &["campaign", "--engine"],
        &["script", "x"],
        &["play", "NoSuchEngine"],
        &["replay", "NoSuchReplayer"],
        &["replay-campaign"],
        &["replay-campaign", "--engine", REFERENCE, "--count", "0"],
        &["replay-campaign", "--engine", REFERENCE, "--entries", "0"],
        &["wrong", "--size", "3"],
        &["wrong", "--count", "0"],
        &["campaign", "--engine", REFERENCE, "--count", "0"],
        &["mailbox-campaign", "--engine", REFERENCE, "--count", "0"],
    ] {
        assert_eq!(reference(words).status.code(), Some(2), "{words:?}");
    }
}
