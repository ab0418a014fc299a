//! The program with a judge whose answer the test chooses: what it shows, and its exit status.

mod common;

use std::fs;
use std::os::unix::fs::{symlink, FileTypeExt};
use std::path::{Path, PathBuf};
use std::process::{Command, Output, Stdio};

use common::{check_page, some_tree, some_unit, Folder, Unit};

/// An image and a journal in a folder, and a judge that reads them and says what it is told to.
struct Desk {
    folder: Folder,
    judge: PathBuf,
    image: PathBuf,
    journal: PathBuf,
}

/// What `replay` writes.
fn answer(number: u32, offset: u64, rest: &[u8]) -> Vec<u8> {
    [&number.to_le_bytes()[..], &offset.to_le_bytes(), rest].concat()
}

fn verdict(verdict: u8, unit: &Unit) -> Vec<u8> {
    answer(0, 0, &[&[verdict][..], &unit.registers()].concat())
}

impl Desk {
    fn new(label: &str, unit: &Unit, answer: &[u8]) -> Self {
        let folder = Folder::new(label);
        folder.file("answer", answer);
        let image = folder.file("image", &unit.image_bytes());
        let journal = folder.file("journal", &unit.journal);
        // A link to a file that nobody writes: one just written may still be open in another test's child.
        let judge = folder.0.join("judge");
        let there = Path::new(env!("CARGO_MANIFEST_DIR")).join("tests/judge");
        symlink(there, &judge).expect("a link");
        let desk = Self {
            folder,
            judge,
            image,
            journal,
        };
        desk.judge_by("cat >read; cat answer");
        desk
    }

    /// Another judge: these lines of shell.
    fn judge_by(&self, script: &str) {
        self.folder.file("script", script.as_bytes());
    }

    fn command(&self, page: &str) -> Command {
        let mut command = Command::new(env!("CARGO_BIN_EXE_inspector"));
        command.arg(&self.judge).args(["200", page]);
        command
    }

    fn inspect_with(&self, page: &str) -> Seen {
        let mut command = self.command(page);
        command.arg(&self.image).arg(&self.journal);
        Seen::of(command.output().expect("it runs"))
    }

    fn inspect(&self) -> Seen {
        self.inspect_with("")
    }

    /// What the judge was given.
    fn read(&self) -> Vec<u8> {
        fs::read(self.folder.0.join("read")).expect("the judge has read")
    }

    fn page(&self) -> PathBuf {
        self.folder.0.join("page.html")
    }
}

struct Seen {
    status: Option<i32>,
    text: String,
    errors: String,
}

impl Seen {
    fn of(output: Output) -> Self {
        Self {
            status: output.status.code(),
            text: String::from_utf8(output.stdout).expect("text"),
            errors: String::from_utf8(output.stderr).expect("text"),
        }
    }

    #[track_caller]
    fn ends(&self, status: i32, headline: &str) -> &Self {
        assert_eq!(self.text.lines().next(), Some(headline), "{}", self.errors);
        assert_eq!(self.status, Some(status), "{}", self.text);
        assert_eq!(self.errors, "");
        let longest = self.text.lines().map(|line| line.chars().count()).max();
        assert!(longest <= Some(100), "{}", self.text);
        self
    }

    #[track_caller]
    fn says(&self, words: &str) -> &Self {
        let text = self.text.split_whitespace().collect::<Vec<_>>().join(" ");
        assert!(text.contains(words), "'{words}' is not in:\n{}", self.text);
        self
    }

    /// No report, status 2 and one line on the error stream.
    #[track_caller]
    fn fails(&self, words: &str) {
        assert_eq!(self.status, Some(2));
        assert_eq!(self.text, "");
        assert!(self.errors.starts_with("inspect: "), "{}", self.errors);
        assert!(self.errors.contains(words), "{}", self.errors);
    }

    /// The report, status 2, and both say that the display disagrees.
    #[track_caller]
    fn disagrees(&self, words: &str) {
        assert_eq!(self.status, Some(2), "{}", self.text);
        self.says("THE DISPLAY DISAGREES WITH THE JUDGEMENT");
        self.says(words);
        assert!(self.errors.contains("the display disagrees"));
        assert!(self.errors.contains(words), "{}", self.errors);
    }
}

// ---- verdicts

#[test]
fn alike() {
    let unit = some_unit();
    let desk = Desk::new("alike", &unit, &verdict(3, &unit));
    let seen = desk.inspect();
    seen.ends(0, "ALIKE")
        .says("6,080 bytes; no work unfinished, attestation on");
    assert!(!seen.text.contains('≠') && !seen.text.contains("WARNING"));
    assert_eq!(desk.read(), [unit.image_bytes(), unit.journal].concat());
}

#[test]
fn one_word_changed() {
    let unit = some_unit();
    let mut changed = unit.clone();
    changed.image[400 + 35 + 34] = 9;
    changed.image[16 + 12 * 31 + 6] ^= 1;
    let desk = Desk::new("changed", &changed, &verdict(2, &unit));
    desk.inspect()
        .ends(1, "NOT ALIKE")
        .says("than the image has: PCR31 and node 1.")
        .says("svn: image 9, replayed 3")
        .says("(unlike from byte 24 on)");
}

/// The lines of a part of the text, from the one behind its title to the next empty one.
fn part<'a>(text: &'a str, title: &str) -> Vec<&'a str> {
    let lines = text.lines().skip_while(|line| !line.starts_with(title));
    lines.skip(1).take_while(|line| !line.is_empty()).collect()
}

#[test]
fn a_tree() {
    let unit = some_tree();
    let desk = Desk::new("tree", &unit, &verdict(3, &unit));
    let seen = desk.inspect();
    seen.ends(0, "ALIKE");
    assert!(!seen.text.contains("note "), "{}", seen.text);
    let journal = [
        " order offset entry",
        "     1      0 cold boot runtime 11111111..1111  manifest 33333333..3333",
        "     2     97 derive    \"ENGI\" 21212121..2121 caller 0 node 1",
        "                        handle a1a1a1a1..a1a1, below node 0 (default), which is kept",
        "     3    193 derive    \"DOOR\" 22222222..2222 caller 0 node 2",
        "                        handle a2a2a2a2..a2a2, below node 0 (default), which is kept",
        "     4    289 derive    \"PUMP\" 23232323..2323 caller 0 node 3",
        "                        handle a3a3a3a3..a3a3, below node 1 (a1a1a1a1..a1a1), which is kept",
        "     5    385 derive    \"LOCK\" 24242424..2424 caller 0 node 4",
        "                        handle a4a4a4a4..a4a4, below node 2 (a2a2a2a2..a2a2), which is retired",
        "     6    481 extend    node 3 (a3a3a3a3..a3a3) by 43434343..4343 caller 0",
        "     7    551 rotate    node 1 (a1a1a1a1..a1a1) is now b1b1b1b1..b1b1 caller 0",
        "     8    593 destroy   node 4 (a4a4a4a4..a4a4) caller 0",
        "                        with it node 2: retired, and nothing left below",
        "     9    615 derive    \"DOOR\" 25252525..2525 caller 0 node 2",
        "                        handle a5a5a5a5..a5a5, below node 0 (default), which is kept",
        "    10    711 stash     \"HOUR\" 66666666..6666 svn 3 caller 300 node 4",
    ];
    assert_eq!(part(&seen.text, "Journal"), journal);
    let root = &unit.registers()[..48];
    let digits = |bytes: &[u8]| bytes.iter().map(|b| format!("{b:02x}")).collect::<String>();
    let root = format!("{}..{}", digits(&root[..4]), digits(&root[46..]));
    let tree = [
        "  node    type       digest                svn   locality handle",
        &format!("  0       \"RTJM\"     {root}          0          0 retired"),
        "  ├─ 1    \"ENGI\"     21212121..2121          0          0 b1b1b1b1..b1b1",
        "  │  └─ 3 \"PUMP\"     43434343..4343          0          0 a3a3a3a3..a3a3",
        "  ├─ 2    \"DOOR\"     25252525..2525          0          0 a5a5a5a5..a5a5",
        "  └─ 4    \"HOUR\"     66666666..6666          3        300 default",
    ];
    assert_eq!(part(&seen.text, "Tree: 5 of 32 nodes used"), tree);
}

/// The picture has a dot for each node, small for the retired root, and a way to each that hangs on another.
#[test]
fn a_picture_of_a_tree() {
    let unit = some_tree();
    let desk = Desk::new("picture", &unit, &verdict(3, &unit));
    let page = desk.page();
    desk.inspect_with(page.to_str().expect("a name"));
    let page = fs::read_to_string(page).expect("the page");
    check_page(&page);
    let dots = [
        "cx=\"24\" cy=\"24\" r=\"6\"",
        "cx=\"56\" cy=\"70\" r=\"9\"",
        "cx=\"88\" cy=\"116\" r=\"9\"",
        "cx=\"56\" cy=\"162\" r=\"9\"",
        "cx=\"56\" cy=\"208\" r=\"9\"",
    ];
    let drawn = page.lines().filter(|line| line.starts_with("<circle "));
    let expected = dots.map(|dot| format!("<circle class=\"alike\" {dot}/>"));
    assert!(drawn.eq(expected.iter()), "{page}");
    let ways = [
        "M24 24V70H56",
        "M56 70V116H88",
        "M24 24V162H56",
        "M24 24V208H56",
    ];
    let drawn = page.lines().filter(|line| line.starts_with("<path "));
    let expected = ways.map(|way| format!("<path d=\"{way}\"/>"));
    assert!(drawn.eq(expected.iter()), "{page}");
    for words in [
        "node 3, on 1: type &quot;PUMP&quot;, svn 0, locality 0<",
        "handle a3a3a3a3..a3a3, digest 43434343..4343<",
        "title=\"b1b1b1b1b1b1b1b1b1b1b1b1b1b1b1b1b1b1b1b1\">b1b1b1b1..b1b1<",
        "handle retired, digest ",
        "handle default, digest ",
        "A small dot is a retired node",
    ] {
        assert!(page.contains(words), "{words} is not in {page}");
    }
}

/// Alike, and yet a reader must know: what the unit declines from now on.
#[test]
fn handles_that_are_gone() {
    let booted = Unit::new().cold_boot(1, 2);
    let cases = [
        (
            booted.clone().rotate(0, 9),
            "note No node has the default handle: every stash is declined with 3 until a cold boot.",
        ),
        (
            booted.stash(b"ONLY", 1, 2, 3).destroy(&[1]),
            "note No node has a live handle: until a cold boot nothing can be measured.",
        ),
    ];
    for (i, (unit, words)) in cases.into_iter().enumerate() {
        let desk = Desk::new(&format!("gone-{i}"), &unit, &verdict(3, &unit));
        desk.inspect().ends(0, "ALIKE").says(words);
    }
}

/// A handle that looks like the default one if it is shortened: text and page have it in full.
#[test]
fn a_handle_in_full() {
    let mut unit = some_tree();
    unit.journal.clear();
    let mut handle = [0; 20];
    handle[10] = 0x5A;
    unit.put_handle(1, handle);
    let desk = Desk::new("in-full", &unit, &answer(0, 0, &[0]));
    let page = desk.page();
    let seen = desk.inspect_with(page.to_str().expect("a name"));
    let words = "handle in full: 000000000000000000005a000000000000000000";
    seen.ends(4, "NOTHING TO COMPARE")
        .says(&format!("00000000..0000 {words}"));
    let page = fs::read_to_string(page).expect("the page");
    assert!(page.contains(&format!("<code>{words}</code>")), "{page}");
}

/// Nodes that are not well formed are told of, whatever the verdict.
#[test]
fn nodes_that_are_not_well_formed() {
    let unit = some_tree();
    let mut changed = unit.clone();
    changed.put_handle(3, unit.handle_of(1));
    let words = "note The image's nodes are not well formed: nodes 1 and 3 have the same handle.";
    let desk = Desk::new("shared", &changed, &verdict(2, &unit));
    desk.inspect()
        .ends(1, "NOT ALIKE")
        .says(words)
        .says("handle: image b1b1b1b1..b1b1, replayed a3a3a3a3..a3a3 (unlike from byte 0 on)");
    changed.journal.clear();
    let desk = Desk::new("shared-alone", &changed, &answer(0, 0, &[0]));
    desk.inspect().ends(4, "NOTHING TO COMPARE").says(words);
}

#[test]
fn disabled() {
    let unit = some_unit().disabling();
    let desk = Desk::new("disabled", &unit, &answer(0, 0, &[1]));
    let seen = desk.inspect();
    seen.ends(4, "NOTHING TO COMPARE").says("attestation OFF");
    assert!(!seen.text.contains("WARNING"));
}

/// The journal says off, the image on.
#[test]
fn disabled_in_the_journal_alone() {
    let mut unit = some_unit().disabling();
    unit.image[1] = 1;
    let desk = Desk::new("journal-off", &unit, &answer(0, 0, &[1]));
    desk.inspect()
        .ends(4, "NOTHING TO COMPARE")
        .says("WARNING Attestation is on in the image, though the journal ends switched off");
}

#[test]
fn empty_journal() {
    let mut unit = some_unit();
    unit.journal.clear();
    let desk = Desk::new("empty", &unit, &answer(0, 0, &[0]));
    desk.inspect()
        .ends(4, "NOTHING TO COMPARE")
        .says("The journal is empty")
        .says("no entries")
        .says("Tree: 3 of 32 nodes used (the image's, not compared)");
}

/// Alike, but for what a verdict does not compare: each has its warning, and the status is not 0.
#[test]
fn warnings() {
    let cases = [
        (0, 0, "The image's mark is 0x0 and not 1"),
        (0, 2, "The image's mark is 0x2 and not 1"),
        (
            1,
            0,
            "Attestation is off in the image (word 1 is 0x0), though the journal has no disabling",
        ),
        (1, 7, "Attestation is off in the image (word 1 is 0x7)"),
        (2, 1, "Words 2 and 3 of the image are not zero"),
        (3, 1, "Words 2 and 3 of the image are not zero"),
        (16, 1, "PCR0 is not zero in the image"),
        (39, 1, "PCR1 is not zero in the image"),
    ];
    for (at, value, words) in cases {
        let mut unit = some_unit();
        unit.image[at] = value;
        let desk = Desk::new(&format!("warning-{at}-{value}"), &unit, &verdict(3, &unit));
        desk.inspect()
            .ends(5, "ALIKE, WITH A WARNING")
            .says(&format!("WARNING {words}"));
    }
}

/// The secret is a matter for a note, and is not shown.
#[test]
fn secret() {
    let mut unit = some_unit();
    unit.image[4..16].fill(0xDEAD_BEEF);
    let desk = Desk::new("secret", &unit, &verdict(3, &unit));
    let page = desk.page();
    let seen = desk.inspect_with(page.to_str().expect("a name"));
    seen.ends(0, "ALIKE").says("it holds the device secret");
    let page = fs::read_to_string(page).expect("the page");
    for text in [&seen.text, &page] {
        let text = text.to_lowercase();
        assert!(!text.contains("efbeadde") && !text.contains("deadbeef"));
    }
}

// ---- refusals

#[test]
fn refused() {
    let outside = [&[5, 31][..], &[7; 48]].concat();
    let unknown = [&[9][..], &[7; 20], &[1]].concat();
    let cases: [(u32, &[u8], &str, &str, &str); 7] = [
        (
            20,
            &[10, 7],
            "kind not listed",
            "unknown",
            "0a is no kind of entry",
        ),
        (
            21,
            &[5, 0x84, 0],
            "number too long or too large",
            "extension",
            "its register is not in the shortest form",
        ),
        (
            22,
            &[1, 2],
            "cut entry",
            "cold boot",
            "the journal ends before the end of its runtime digest",
        ),
        (
            24,
            &outside,
            "the unit could not have counted this there",
            "extension",
            "register 31 is none of PCR4 to PCR30",
        ),
        (
            21,
            &[&[6][..], &[0; 20], &[0x81, 0]].concat(),
            "number too long or too large",
            "derive",
            "its retain is not in the shortest form",
        ),
        (
            22,
            &[&[8][..], &[0; 39]].concat(),
            "cut entry",
            "rotate",
            "the journal ends before the end of its fresh handle",
        ),
        (
            24,
            &unknown,
            "the unit could not have counted this there",
            "destroy",
            "no node has the handle 07070707..0707",
        ),
    ];
    for (i, (number, bytes, words, name, why)) in cases.into_iter().enumerate() {
        let mut unit = some_unit();
        unit.journal.extend(bytes);
        let answer = answer(number, 360, &[]);
        let desk = Desk::new(&format!("refused-{i}"), &unit, &answer);
        desk.inspect()
            .ends(3, &format!("REFUSED: {number}"))
            .says(&format!("begins at offset 360: {words}"))
            .says(&format!("! 6 360 {name} refused with {number}"))
            .says("^^")
            .says(&format!("Why: {why}"));
    }
}

/// A cut image is judged by itself: the journal's bytes would fill it up.
#[test]
fn cut_image() {
    let unit = some_unit();
    for length in [0, 1, 6079] {
        let desk = Desk::new(&format!("cut-{length}"), &unit, &answer(1, 0, &[]));
        fs::write(&desk.image, &unit.image_bytes()[..length]).expect("written");
        desk.inspect()
            .ends(3, "REFUSED: 1")
            .says("of 6,080 bytes. The journal was not looked at");
        assert_eq!(desk.read(), unit.image_bytes()[..length]);
    }
}

#[test]
fn image_too_long() {
    let unit = some_unit();
    let desk = Desk::new("long", &unit, &verdict(3, &unit));
    fs::write(&desk.image, [0; 6081]).expect("written");
    desk.inspect().fails("has more than 6,080 bytes");
}

// ---- where the display and the judgement disagree

#[test]
fn disagreements() {
    let unit = some_unit();
    let other = some_unit().extension(9, 9);
    let broken = {
        let mut unit = some_unit();
        unit.journal.push(10);
        unit
    };
    let cases = [
        (
            &unit,
            verdict(2, &unit),
            "replay says: not alike; read for display: alike",
        ),
        (
            &unit,
            verdict(3, &other),
            "replay's PCR9 is not what the reading for display comes to",
        ),
        (
            &unit,
            answer(0, 0, &[1]),
            "replay says: a disabling after the last cold boot;",
        ),
        (&unit, answer(0, 0, &[0]), "replay says: no cold boot;"),
        (
            &unit,
            answer(21, 97, &[]),
            "replay says: refused with 21 at offset 97;",
        ),
        (&unit, answer(1, 0, &[]), "replay says: image cut short;"),
        (
            &broken,
            verdict(3, &unit),
            "read for display: refused with 20 at offset 360",
        ),
        (
            &broken,
            answer(20, 361, &[]),
            "replay says: refused with 20 at offset 361;",
        ),
        (
            &broken,
            answer(22, 360, &[]),
            "replay says: refused with 22 at offset 360;",
        ),
    ];
    for (i, (unit, answer, words)) in cases.into_iter().enumerate() {
        let desk = Desk::new(&format!("disagrees-{i}"), unit, &answer);
        desk.inspect().disagrees(words);
    }
}

#[test]
fn a_cut_image_that_is_taken() {
    let unit = some_unit();
    let desk = Desk::new("cut-taken", &unit, &verdict(3, &unit));
    fs::write(&desk.image, [0; 100]).expect("written");
    desk.inspect()
        .disagrees("replay took an image that is cut short for a whole one");
}

// ---- judges that fail

#[test]
fn judges_that_fail() {
    let unit = some_unit();
    let desk = Desk::new("judges", &unit, &verdict(3, &unit));
    desk.judge_by("cat >read; cat answer; echo broken >&2");
    desk.inspect().fails("replay told a failure: broken");
    desk.judge_by("cat >read; cat answer; exit 3");
    desk.inspect().fails("replay failed: exit status: 3");
    desk.judge_by("cat >read; cat answer; kill -9 $$");
    desk.inspect().fails("replay failed: signal: 9");
    desk.judge_by("cat >read; head -c 1000 answer");
    desk.inspect()
        .fails("replay's output has not the form that it must have");
    desk.judge_by("cat >read; cat answer; head -c 1000000 /dev/zero");
    desk.inspect()
        .fails("replay's output has not the form that it must have");
    desk.judge_by("cat >read");
    desk.inspect()
        .fails("replay's output has not the form that it must have");
    fs::remove_file(&desk.judge).expect("removed");
    desk.inspect().fails("judge cannot be run");
}

/// A judge that stops reading before the journal's end has judged.
#[test]
fn a_judge_that_stops_reading() {
    let mut unit = some_unit();
    unit.journal.push(10);
    unit.journal.extend(vec![1; 1_000_000]);
    let desk = Desk::new("stops", &unit, &answer(20, 360, &[]));
    desk.judge_by("head -c 6500 >read; exec <&-; cat answer");
    desk.inspect()
        .ends(3, "REFUSED: 20")
        .says("! 6 360 unknown");
}

// ---- files

#[test]
fn standard_input() {
    let unit = some_unit();
    let desk = Desk::new("stdin", &unit, &verdict(3, &unit));
    for image_first in [true, false] {
        let mut command = desk.command("");
        let file = match image_first {
            true => {
                command.arg("-").arg(&desk.journal);
                &desk.image
            }
            false => {
                command.arg(&desk.image).arg("-");
                &desk.journal
            }
        };
        command.stdin(fs::File::open(file).expect("a file"));
        let seen = Seen::of(command.output().expect("it runs"));
        seen.ends(0, "ALIKE").says("standard input");
    }
}

#[test]
fn files_that_cannot_be_read() {
    let unit = some_unit();
    let desk = Desk::new("unread", &unit, &verdict(3, &unit));
    let inspect = |image: &Path, journal: &Path| {
        let mut command = desk.command("");
        command.arg(image).arg(journal);
        Seen::of(command.output().expect("it runs"))
    };
    let none = desk.folder.0.join("none");
    inspect(&none, &desk.journal).fails("cannot be read: No such file");
    inspect(&desk.image, &none).fails("cannot be read: No such file");
    inspect(&desk.folder.0, &desk.journal).fails("cannot be read: Is a directory");
    inspect(&desk.image, &desk.folder.0).fails("cannot be read: Is a directory");
}

#[test]
fn names_are_shown_harmless() {
    let unit = some_unit();
    let desk = Desk::new("names", &unit, &verdict(3, &unit));
    let image = desk.folder.0.join("<b>\x1b[31m&amp;");
    fs::copy(&desk.image, &image).expect("copied");
    let mut command = desk.command(desk.page().to_str().expect("a name"));
    command.arg(&image).arg(&desk.journal);
    let seen = Seen::of(command.output().expect("it runs"));
    seen.ends(0, "ALIKE");
    assert!(!seen.text.contains('\x1b'));
    let page = fs::read_to_string(desk.page()).expect("the page");
    assert!(page.contains("&lt;b&gt;\u{FFFD}[31m&amp;amp;"));
    check_page(&page);
}

// ---- the output

/// A pipe that nobody reads any more.
fn closed_pipe() -> Stdio {
    let mut reader = Command::new("true")
        .stdin(Stdio::piped())
        .spawn()
        .expect("true runs");
    let pipe = reader.stdin.take().expect("a pipe");
    reader.wait().expect("it ends");
    Stdio::from(pipe)
}

#[test]
fn output_that_cannot_be_written() {
    let unit = some_unit();
    let desk = Desk::new("full", &unit, &verdict(3, &unit));
    let mut command = desk.command("");
    command.arg(&desk.image).arg(&desk.journal);
    let full = fs::File::options()
        .write(true)
        .open("/dev/full")
        .expect("/dev/full");
    command.stdout(full).stderr(Stdio::piped());
    Seen::of(command.output().expect("it runs"))
        .fails("the output cannot be written: No space left");
    command.stdout(closed_pipe());
    Seen::of(command.output().expect("it runs")).fails("the output cannot be written: Broken pipe");
}

#[test]
fn no_colours_without_a_terminal() {
    let unit = some_unit();
    let mut changed = unit.clone();
    changed.image[1519] = 1;
    let desk = Desk::new("colours", &changed, &verdict(2, &unit));
    assert!(!desk.inspect().text.contains('\x1b'));
}

// ---- the page

#[test]
fn pages() {
    let unit = some_unit();
    let mut strange = unit.clone();
    strange.image[400 + 35] = 0x01FF_0001;
    strange.image[400 + 35 * 9 + 32] = u32::from_le_bytes(*b"<&>\"");
    strange.image[400 + 35 * 9] = 1;
    strange.image[400 + 35 * 10 + 1] = 1;
    let mut broken = unit.clone();
    broken.journal.extend([4, 0x80]);
    let later = unit.clone().cold_boot(1, 2).stash(b"LATE", 1, 1, 1);
    let tree = some_tree();
    let cases = [
        (&tree, verdict(3, &tree), "ALIKE", "with it node 2: retired"),
        (&unit, verdict(3, &unit), "ALIKE", "PCR31"),
        (
            &strange,
            verdict(2, &unit),
            "NOT ALIKE",
            "&quot;&lt;&amp;&gt;&quot;&quot;",
        ),
        (
            &broken,
            answer(22, 360, &[]),
            "REFUSED: 22",
            "<mark>the journal ends here</mark>",
        ),
        (&later, verdict(3, &later), "ALIKE", "<tr class=\"erased\">"),
    ];
    for (i, (unit, answer, headline, words)) in cases.into_iter().enumerate() {
        let desk = Desk::new(&format!("page-{i}"), unit, &answer);
        let page = desk.page();
        let seen = desk.inspect_with(page.to_str().expect("a name"));
        assert_eq!(seen.text.lines().next(), Some(headline));
        let page = fs::read_to_string(page).expect("the page");
        check_page(&page);
        assert!(page.contains(&format!("<h1>{headline}</h1>")), "{page}");
        assert!(page.contains(words), "{words} is not in {page}");
        assert!(page.contains("<svg ") && page.contains("prefers-color-scheme: dark"));
        // Nothing else is left beside it.
        let names = [
            "answer",
            "image",
            "journal",
            "judge",
            "page.html",
            "read",
            "script",
        ];
        assert_eq!(desk.folder.names(), names);
    }
}

#[test]
fn a_page_takes_the_place_of_an_old_one() {
    let unit = some_unit();
    let desk = Desk::new("replaced", &unit, &verdict(3, &unit));
    fs::write(desk.page(), "old").expect("written");
    symlink(desk.page(), desk.folder.0.join("link")).expect("linked");
    let link = desk.folder.0.join("link");
    desk.inspect_with(link.to_str().expect("a name"))
        .ends(0, "ALIKE");
    check_page(&fs::read_to_string(desk.page()).expect("the page"));
    assert!(fs::symlink_metadata(link).expect("a link").is_symlink());
}

/// What is no plain file is written to and stays what it is. This is tried on a pipe in the test's own
/// folder: only where that holds may a page be tried on a device, which root could lose by it.
fn check_page_into_pipe(desk: &Desk) {
    let pipe = desk.folder.0.join("pipe");
    let made = Command::new("mkfifo").arg(&pipe).status();
    assert!(made.expect("mkfifo runs").success());
    let reader = Command::new("timeout")
        .args(["10", "cat"])
        .arg(&pipe)
        .stdout(Stdio::piped())
        .spawn()
        .expect("a reader");
    let seen = desk.inspect_with(pipe.to_str().expect("a name"));
    let kind = fs::symlink_metadata(&pipe).expect("the pipe").file_type();
    assert!(kind.is_fifo(), "the pipe was replaced by a file");
    let page = reader.wait_with_output().expect("it ends").stdout;
    check_page(&String::from_utf8(page).expect("text"));
    seen.ends(0, "ALIKE");
    fs::remove_file(pipe).expect("removed");
}

/// The text is shown all the same.
#[test]
fn pages_that_cannot_be_written() {
    let unit = some_unit();
    let desk = Desk::new("unwritten", &unit, &verdict(3, &unit));
    check_page_into_pipe(&desk);
    let folder = desk.folder.0.to_str().expect("a name");
    for (page, words) in [
        ("/dev/full", "No space left"),
        ("/no/such/folder/page", "No such file"),
        (folder, "Is a directory"),
    ] {
        let seen = desk.inspect_with(page);
        assert_eq!(seen.status, Some(2), "{page}");
        assert_eq!(seen.text.lines().next(), Some("ALIKE"));
        assert!(seen.errors.contains("cannot be written"), "{}", seen.errors);
        assert!(seen.errors.contains(words), "{}", seen.errors);
    }
    let names = ["answer", "image", "journal", "judge", "read", "script"];
    assert_eq!(desk.folder.names(), names);
}

/// A page that grows past what a file may have: neither it nor a part of it is left.
#[test]
fn a_page_that_does_not_fit() {
    let unit = some_unit();
    let desk = Desk::new("limit", &unit, &verdict(3, &unit));
    desk.judge_by("cat >/dev/null; cat answer");
    let inspect = desk.command(desk.page().to_str().expect("a name"));
    let mut command = Command::new("sh");
    command.args(["-c", "trap '' XFSZ; ulimit -f 4; exec \"$@\"", "sh"]);
    command.arg(inspect.get_program()).args(inspect.get_args());
    command.arg(&desk.image).arg(&desk.journal);
    let seen = Seen::of(command.output().expect("it runs"));
    assert_eq!(seen.status, Some(2), "{}", seen.errors);
    assert!(seen.errors.contains("cannot be written: File too large"));
    let names = ["answer", "image", "journal", "judge", "script"];
    assert_eq!(desk.folder.names(), names);
}

// ---- long journals

/// Ten million entries: the judge, which ends last, looks how much memory was taken.
#[test]
fn memory_is_bounded() {
    let mut unit = some_unit().disabling();
    unit.journal.resize(10_000_000, 3);
    let desk = Desk::new("memory", &unit, &answer(0, 0, &[1]));
    desk.judge_by("cat >read; grep VmHWM /proc/$PPID/status >peak; cat answer");
    desk.inspect()
        .ends(4, "NOTHING TO COMPARE")
        .says("10,000,000 bytes, 9,999,645 entries")
        .says(".. 9,999,245 entries are not shown ..");
    let peak = fs::read_to_string(desk.folder.0.join("peak")).expect("the peak");
    let kilobytes = peak.split_whitespace().nth(1).expect("a number");
    let kilobytes: u64 = kilobytes.parse().expect("a number");
    assert!(kilobytes < 8_000, "{kilobytes} kB");
}
