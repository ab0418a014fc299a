//! The report as text of at most 100 columns.

use crate::chain::{Mark, Row, Stand};
use crate::image::NODES;
use crate::registers;
use crate::report::{Report, Seen, Tone};
use crate::survey::{Refusal, Shown, Survey};
use crate::words::{
    counted, entry_words, grouped, handle_words, parent_words, short, type_words, wrapped, COLUMNS,
};

/// Colours, if they are wanted.
#[derive(Clone, Copy)]
pub struct Paint {
    pub colours: bool,
}

impl Paint {
    fn with(self, code: &str, text: &str) -> String {
        match self.colours {
            true => format!("\x1b[{code}m{text}\x1b[0m"),
            false => text.into(),
        }
    }

    fn tone(self, tone: Tone, text: &str) -> String {
        match tone {
            Tone::Good => self.with("1;32", text),
            Tone::Doubtful => self.with("1;33", text),
            Tone::Bad => self.with("1;31", text),
        }
    }

    fn heading(self, text: &str) -> String {
        self.with("1", text)
    }

    fn faint(self, text: &str) -> String {
        self.with("2", text)
    }
}

/// The whole report.
pub fn text(report: &Report, paint: Paint) -> String {
    let mut out = String::new();
    put_line(&mut out, &paint.tone(report.tone(), &report.headline()));
    put_paragraph(&mut out, &report.sentence());
    if let Some(disagreement) = &report.disagreement {
        let loud = paint.tone(Tone::Bad, "THE DISPLAY DISAGREES WITH THE JUDGEMENT");
        put_line(&mut out, &format!("\n{loud}"));
        put_paragraph(&mut out, &format!("{disagreement}. Trust neither."));
    }
    put_facts(&mut out, report);
    if let Some(seen) = &report.seen {
        put_remarks(&mut out, seen, paint);
        put_journal(&mut out, seen.survey, paint);
        put_chain(&mut out, seen, report.compared_words(), paint);
        put_registers(&mut out, seen, report.compared_words(), paint);
    }
    out
}

fn put_line(out: &mut String, line: &str) {
    out.push_str(line.trim_end());
    out.push('\n');
}

fn put_paragraph(out: &mut String, text: &str) {
    put_hanging(out, "  ", "  ", text);
}

/// A paragraph with something before its first line.
fn put_hanging(out: &mut String, first: &str, others: &str, text: &str) {
    let room = COLUMNS - others.chars().count();
    for (i, line) in wrapped(text, room).iter().enumerate() {
        put_line(
            out,
            &format!("{}{line}", if i == 0 { first } else { others }),
        );
    }
}

fn put_facts(out: &mut String, report: &Report) {
    out.push('\n');
    let bytes = counted(report.image_bytes as u64, "byte", "bytes");
    let Some(seen) = &report.seen else {
        put_fact(out, "image", &format!("{}: {bytes}", report.names.image));
        put_fact(out, "journal", &report.names.journal);
        return;
    };
    let image = format!("{}: {bytes}; {}", report.names.image, seen.image_words());
    put_fact(out, "image", &image);
    let journal = format!("{}: {}", report.names.journal, seen.journal_words());
    put_fact(out, "journal", &journal);
}

fn put_fact(out: &mut String, name: &str, text: &str) {
    put_hanging(out, &format!("{name:7}  "), "         ", text);
}

fn put_remarks(out: &mut String, seen: &Seen, paint: Paint) {
    if !seen.warnings.is_empty() || !seen.notes.is_empty() {
        out.push('\n');
    }
    for warning in &seen.warnings {
        let first = paint.tone(Tone::Doubtful, "WARNING");
        put_hanging(out, &format!("{first}  "), "         ", warning);
    }
    for note in &seen.notes {
        put_hanging(out, "note     ", "         ", note);
    }
}

// ---- the journal

/// Columns of order numbers and offsets.
#[derive(Clone, Copy)]
struct Widths {
    order: usize,
    offset: usize,
}

impl Widths {
    fn of(survey: &Survey) -> Self {
        let digits = |number: u64| number.to_string().len();
        Self {
            order: digits(survey.count() + 1).max(5),
            offset: digits(survey.bytes()).max(6),
        }
    }

    /// A line of the list: a sign, the two numbers, the entry's name and what is said of it.
    fn line(self, sign: &str, order: &str, offset: &str, name: &str, words: &str) -> String {
        let Self {
            order: a,
            offset: b,
        } = self;
        format!("{sign}{order:>a$} {offset:>b$} {name:9} {words}")
    }
}

fn put_journal(out: &mut String, survey: &Survey, paint: Paint) {
    put_line(out, &format!("\n{}", paint.heading("Journal")));
    let widths = Widths::of(survey);
    if survey.count() == 0 && survey.refusal().is_none() {
        put_line(out, "  no entries");
    } else {
        let head = widths.line(" ", "order", "offset", "entry", "");
        put_line(out, &paint.faint(head.trim_end()));
    }
    for shown in survey.first() {
        put_entry(out, survey, shown, widths, paint);
    }
    if survey.left_out() > 0 {
        let entries = counted(survey.left_out(), "entry is", "entries are");
        put_line(out, &format!("  .. {entries} not shown .."));
    }
    for shown in survey.last() {
        put_entry(out, survey, shown, widths, paint);
    }
    let erased = survey.last_cold_boot().filter(|&order| order > 1);
    if let Some(order) = erased {
        let order = grouped(order);
        let line = format!("· erased by the cold boot, entry {order}");
        put_line(out, &paint.faint(&line));
    }
    if let Some(refusal) = survey.refusal() {
        put_refusal(out, refusal, widths, paint);
    }
}

fn put_entry(out: &mut String, survey: &Survey, shown: &Shown, widths: Widths, paint: Paint) {
    let erased = survey.is_erased(shown);
    let sign = if erased { "·" } else { " " };
    let (order, offset) = (shown.order.to_string(), shown.offset.to_string());
    let first = widths.line(sign, &order, &offset, shown.entry.name(), "");
    let others = widths.line(sign, "", "", "", "");
    let room = COLUMNS - first.chars().count();
    let words = entry_words(&shown.entry, &shown.places);
    let words = words.iter().flat_map(|line| wrapped(line, room));
    for (i, words) in words.enumerate() {
        let line = format!("{}{words}", if i == 0 { &first } else { &others });
        match erased {
            true => put_line(out, &paint.faint(&line)),
            false => put_line(out, &line),
        }
    }
}

/// The refused entry: its bytes, with those that decide marked, and why.
fn put_refusal(out: &mut String, refusal: &Refusal, widths: Widths, paint: Paint) {
    let line = widths.line(
        "!",
        &refusal.order.to_string(),
        &refusal.offset.to_string(),
        refusal.name.unwrap_or("unknown"),
        &format!("refused with {}", refusal.number),
    );
    put_line(out, &paint.tone(Tone::Bad, &line));
    put_bytes(out, refusal, paint);
    put_paragraph(out, &format!("Why: {}.", refusal.why));
}

/// Lines of sixteen bytes, each with the offset of its first; below them the marks.
fn put_bytes(out: &mut String, refusal: &Refusal, paint: Paint) {
    out.push('\n');
    let places: Vec<usize> = (0..refusal.places()).collect();
    for row in places.chunks(16) {
        let offset = refusal.offset + row[0] as u64;
        let bytes: String = row.iter().map(|&p| byte_words(refusal, p, paint)).collect();
        put_line(out, &format!("{offset:>12} {bytes}"));
        let carets: String = row.iter().map(|&p| caret(refusal, p)).collect();
        if carets.contains('^') {
            let end = if refusal.marked.is_empty() {
                " the journal ends here"
            } else {
                ""
            };
            let carets = paint.tone(Tone::Bad, carets.trim_end());
            put_line(out, &format!("{:13}{carets}{end}", ""));
        }
    }
    out.push('\n');
}

fn byte_words(refusal: &Refusal, place: usize, paint: Paint) -> String {
    let digits = match refusal.bytes.get(place) {
        Some(byte) => format!("{byte:02x}"),
        None => "  ".into(),
    };
    match refusal.is_marked(place) {
        true => format!(" {}", paint.tone(Tone::Bad, &digits)),
        false => format!(" {digits}"),
    }
}

fn caret(refusal: &Refusal, place: usize) -> &'static str {
    match refusal.is_marked(place) {
        true => " ^^",
        false => "   ",
    }
}

// ---- the chain

fn put_chain(out: &mut String, seen: &Seen, compared: &str, paint: Paint) {
    let used = seen.image.nodes().filter(|(_, node)| node.is_used());
    let title = format!("Tree: {} of {NODES} nodes used{compared}", used.count());
    put_line(out, &format!("\n{}", paint.heading(&title)));
    if seen.chain.is_empty() {
        return;
    }
    let drawings = drawings(&seen.chain);
    let room = drawings.iter().map(|d| d.chars().count()).max();
    let room = room.unwrap_or(0).max(4);
    let head = node_line(
        " ",
        "node",
        room,
        ["type", "digest", "svn", "locality", "handle"],
    );
    put_line(out, &paint.faint(head.trim_end()));
    let mut stand = None;
    for (row, drawing) in seen.chain.iter().zip(&drawings) {
        if let Some(title) = row.stand.title(stand) {
            put_line(out, &format!("  {title}:"));
        }
        stand = Some(row.stand);
        put_node(out, row, drawing, room, paint);
    }
    if seen.chain.iter().any(|row| row.mark.is_difference()) {
        let line = "≠ unlike the replayed node, + in the image alone, - replayed alone";
        put_line(out, &paint.faint(line));
    }
}

/// Columns that a tree may take beside the rest of a node's line.
const TREE_ROOM: usize = 34;

/// The branches and the number of each row. The deeper the tree, the narrower its steps.
fn drawings(rows: &[Row]) -> Vec<String> {
    let depths = rows.iter().map(|row| match row.stand {
        Stand::Tree(line) => line.depth,
        _ => 0,
    });
    let deepest = depths.max().unwrap_or(0).max(1);
    let step = ((TREE_ROOM - 2) / deepest).clamp(1, 3);
    rows.iter().map(|row| drawing(rows, row, step)).collect()
}

/// The branches that lead to a row's node, and its number; with no way from a root, what it names.
fn drawing(rows: &[Row], row: &Row, step: usize) -> String {
    if matches!(row.stand, Stand::Stray | Stand::Missing) {
        return format!("{} ({})", row.place, parent_words(row.node.parent()));
    }
    let mut parts = vec![row.place.to_string()];
    let mut stand = row.stand;
    while let Stand::Tree(line) = stand {
        let Some(above) = line.above else { break };
        let part = match (parts.len() == 1, line.is_last) {
            (true, true) => "└─ ",
            (true, false) => "├─ ",
            (false, true) => "   ",
            (false, false) => "│  ",
        };
        parts.push(part.chars().take(step).collect());
        stand = rows[above].stand;
    }
    parts.reverse();
    parts.concat()
}

/// A line of the chain.
fn node_line(
    sign: &str,
    drawing: &str,
    room: usize,
    [kind, digest, svn, locality, handle]: [&str; 5],
) -> String {
    format!("{sign} {drawing:room$} {kind:10} {digest:14} {svn:>10} {locality:>10} {handle}")
}

fn put_node(out: &mut String, row: &Row, drawing: &str, room: usize, paint: Paint) {
    let node = &row.node;
    let fields = [
        type_words(node.kind()),
        short(&node.current()),
        node.svn().to_string(),
        node.locality().to_string(),
        handle_words(node.handle()),
    ];
    let line = node_line(
        row.mark.sign(),
        drawing,
        room,
        fields.each_ref().map(String::as_str),
    );
    match row.mark {
        Mark::Unknown | Mark::Alike => put_line(out, &line),
        _ => put_line(out, &paint.tone(Tone::Bad, line.trim_end())),
    }
    for line in row.whole_handle.iter().chain(&row.differences) {
        put_hanging(out, "    ", "      ", line);
    }
}

// ---- the registers

fn put_registers(out: &mut String, seen: &Seen, compared: &str, paint: Paint) {
    let title = format!("Registers{compared}");
    put_line(out, &format!("\n{}", paint.heading(&title)));
    let zeros = seen.registers.iter().filter(|row| row.is_plain_zero());
    let zeros = zeros.count();
    for row in seen.registers.iter().filter(|row| !row.is_plain_zero()) {
        put_register(out, row, paint);
    }
    if zeros > 0 {
        let others = counted(zeros as u64, "other is", "others are");
        put_line(out, &format!("  the {others} zero"));
    }
}

fn put_register(out: &mut String, row: &registers::Row, paint: Paint) {
    let sign = if row.replayed.is_some() { "≠" } else { " " };
    let line = format!(
        "{sign} {:6} {:14}  {}",
        row.name(),
        short(&row.value),
        row.role
    );
    match &row.difference {
        None => put_line(out, &line),
        Some(difference) => {
            put_line(out, &paint.tone(Tone::Bad, line.trim_end()));
            put_hanging(out, "    ", "      ", difference);
        }
    }
}
