//! The report as one page that needs nothing else: style and picture are in it. Its tags are closed as in
//! XML, so that a plain check of them suffices.

use std::fmt::{self, Write};

use crate::chain::{Mark, Row, Stand};
use crate::image::NODES;
use crate::registers;
use crate::report::{Report, Seen, Tone};
use crate::survey::{Refusal, Shown, Survey};
use crate::tree::Line;
use crate::words::{
    counted, entry_words, grouped, handle_words, hex, parent_words, short, type_words,
};

const STYLE: &str = "
:root { color-scheme: light dark; --text: #1b1d21; --back: #ffffff; --soft: #5c6370; --line: #d5d9e0;
  --box: #f4f5f7; --good: #17692f; --doubtful: #8a5a00; --bad: #b3141e; --badbox: #fdecec; }
@media (prefers-color-scheme: dark) { :root { --text: #e6e8ec; --back: #15171b; --soft: #9aa2af;
  --line: #3a3f49; --box: #1f2228; --good: #6cd08a; --doubtful: #f0b84f; --bad: #ff8080; --badbox: #3a1d20; } }
body { color: var(--text); background: var(--back); font: 16px/1.5 system-ui, sans-serif; margin: 0; }
main { max-width: 62rem; margin: 0 auto; padding: 1.5rem 1rem 4rem; }
h1 { margin: 0 0 .3rem; font-size: 1.8rem; } h2 { margin: 2.2rem 0 .6rem; font-size: 1.2rem; }
.verdict { border-left: .5rem solid; padding: .6rem 1rem; background: var(--box); }
.verdict p { margin: 0; color: var(--text); }
.good { color: var(--good); } .doubtful { color: var(--doubtful); } .bad { color: var(--bad); }
.remark { border-left: .25rem solid var(--line); padding-left: .8rem; margin: .8rem 0; }
.remark.doubtful, .remark.bad { border-color: currentColor; } .remark span { color: var(--text); }
dl { display: grid; grid-template-columns: max-content 1fr; gap: .2rem 1rem; margin: 1.2rem 0; }
dt { color: var(--soft); } dd { margin: 0; overflow-wrap: anywhere; }
.scroll { overflow: auto; max-height: 36rem; }
table { border-collapse: collapse; width: 100%; font-size: .9rem; }
th { text-align: left; color: var(--soft); font-weight: 600; }
td, th { padding: .2rem .7rem .2rem 0; border-bottom: 1px solid var(--line); vertical-align: top; }
td.number, th.number { text-align: right; }
code, pre { font: .85rem/1.5 ui-monospace, monospace; overflow-wrap: anywhere; }
pre { background: var(--box); padding: .8rem 1rem; overflow: auto; }
mark { color: var(--back); background: var(--bad); padding: 0 .15rem; }
tr.bad td { background: var(--badbox); color: var(--text); } tr.erased td { color: var(--soft); }
.difference { color: var(--bad); } figure { margin: 0 0 1rem; overflow: auto; }
figcaption { color: var(--soft); font-size: .9rem; }
svg { display: block; max-width: 100%; height: auto; } svg text { fill: var(--text); font-size: 14px; }
svg .small { fill: var(--soft); font: 12px ui-monospace, monospace; } svg .badtext { fill: var(--bad); }
svg path { stroke: var(--soft); stroke-width: 2; fill: none; stroke-linejoin: round; }
svg circle { fill: var(--good); stroke: var(--back); stroke-width: 2; }
svg .unknown { fill: var(--soft); } svg .differs { fill: var(--bad); }
svg .apart { fill: var(--back); stroke: var(--bad); stroke-dasharray: 3 2; }
";

/// Text that stands between tags or in quotes.
struct Plain<'a>(&'a str);

impl fmt::Display for Plain<'_> {
    fn fmt(&self, f: &mut fmt::Formatter<'_>) -> fmt::Result {
        for c in self.0.chars() {
            match c {
                '&' => f.write_str("&amp;")?,
                '<' => f.write_str("&lt;")?,
                '>' => f.write_str("&gt;")?,
                '"' => f.write_str("&quot;")?,
                '\'' => f.write_str("&#39;")?,
                c => f.write_char(c)?,
            }
        }
        Ok(())
    }
}

/// The whole page.
pub fn html(report: &Report) -> String {
    let mut out = String::new();
    // Writing to a string does not fail.
    let _ = put_page(&mut out, report);
    out
}

fn put_page(out: &mut String, report: &Report) -> fmt::Result {
    let headline = report.headline();
    let headline = Plain(&headline);
    writeln!(out, "<!DOCTYPE html>\n<html lang=\"en\">\n<head>")?;
    writeln!(out, "<meta charset=\"utf-8\"/>")?;
    writeln!(
        out,
        "<meta name=\"viewport\" content=\"width=device-width, initial-scale=1\"/>"
    )?;
    writeln!(
        out,
        "<meta http-equiv=\"Content-Security-Policy\" \
         content=\"default-src &#39;none&#39;; style-src &#39;unsafe-inline&#39;\"/>"
    )?;
    writeln!(out, "<title>Waggleloft inspection: {headline}</title>")?;
    writeln!(
        out,
        "<style>{STYLE}</style>\n</head>\n<body>\n<main>\n<header class=\"verdict {}\">",
        tone(report.tone())
    )?;
    writeln!(
        out,
        "<h1>{headline}</h1>\n<p>{}</p>\n</header>",
        Plain(&report.sentence())
    )?;
    if let Some(disagreement) = &report.disagreement {
        let text = format!("{disagreement}. Trust neither.");
        let name = "The display disagrees with the judgement:";
        put_remark(out, "bad", name, &text)?;
    }
    put_facts(out, report)?;
    if let Some(seen) = &report.seen {
        for warning in &seen.warnings {
            put_remark(out, "doubtful", "Warning:", warning)?;
        }
        for note in &seen.notes {
            put_remark(out, "note", "Note:", note)?;
        }
        put_journal(out, seen.survey)?;
        put_chain(out, seen, report.compared_words())?;
        put_registers(out, &seen.registers, report.compared_words())?;
    }
    writeln!(out, "</main>\n</body>\n</html>")
}

fn tone(tone: Tone) -> &'static str {
    match tone {
        Tone::Good => "good",
        Tone::Doubtful => "doubtful",
        Tone::Bad => "bad",
    }
}

fn put_remark(out: &mut String, class: &str, name: &str, text: &str) -> fmt::Result {
    writeln!(
        out,
        "<p class=\"remark {class}\"><strong>{name}</strong> <span>{}</span></p>",
        Plain(text)
    )
}

fn put_facts(out: &mut String, report: &Report) -> fmt::Result {
    let bytes = counted(report.image_bytes as u64, "byte", "bytes");
    let (image, journal) = match &report.seen {
        Some(seen) => (
            format!("{bytes}; {}", seen.image_words()),
            seen.journal_words(),
        ),
        None => (bytes, "not looked at".into()),
    };
    writeln!(out, "<dl>")?;
    for (name, file, words) in [
        ("image", &report.names.image, image),
        ("journal", &report.names.journal, journal),
    ] {
        let (file, words) = (Plain(file), Plain(&words));
        writeln!(out, "<dt>{name}</dt><dd><code>{file}</code>: {words}</dd>")?;
    }
    writeln!(out, "</dl>")
}

// ---- the journal

fn put_journal(out: &mut String, survey: &Survey) -> fmt::Result {
    writeln!(out, "<h2>Journal</h2>")?;
    if survey.count() == 0 && survey.refusal().is_none() {
        return writeln!(out, "<p>no entries</p>");
    }
    writeln!(
        out,
        "<div class=\"scroll\">\n<table>\n<tr><th class=\"number\">order</th>\
         <th class=\"number\">offset</th><th>entry</th><th>holds</th></tr>"
    )?;
    for shown in survey.first() {
        put_entry(out, survey, shown)?;
    }
    if survey.left_out() > 0 {
        let entries = counted(survey.left_out(), "entry is", "entries are");
        writeln!(
            out,
            "<tr><td></td><td></td><td colspan=\"2\">{entries} not shown</td></tr>"
        )?;
    }
    for shown in survey.last() {
        put_entry(out, survey, shown)?;
    }
    if let Some(refusal) = survey.refusal() {
        writeln!(
            out,
            "<tr class=\"bad\"><td class=\"number\">{}</td><td class=\"number\">{}</td>\
             <td>{}</td><td>refused with {}</td></tr>",
            grouped(refusal.order),
            grouped(refusal.offset),
            Plain(refusal.name.unwrap_or("no kind of entry")),
            refusal.number
        )?;
    }
    writeln!(out, "</table>\n</div>")?;
    if let Some(order) = survey.last_cold_boot().filter(|&order| order > 1) {
        let order = grouped(order);
        writeln!(
            out,
            "<p>Entries in grey were erased by the cold boot, entry {order}.</p>"
        )?;
    }
    survey
        .refusal()
        .map_or(Ok(()), |refusal| put_refusal(out, refusal))
}

fn put_entry(out: &mut String, survey: &Survey, shown: &Shown) -> fmt::Result {
    let class = match survey.is_erased(shown) {
        true => " class=\"erased\"",
        false => "",
    };
    write!(
        out,
        "<tr{class}><td class=\"number\">{}</td><td class=\"number\">{}</td><td>{}</td><td>",
        grouped(shown.order),
        grouped(shown.offset),
        shown.entry.name()
    )?;
    for (i, line) in entry_words(&shown.entry, &shown.places).iter().enumerate() {
        let before = if i == 0 { "" } else { "<br/>" };
        write!(out, "{before}<code>{}</code>", Plain(line))?;
    }
    writeln!(out, "</td></tr>")
}

/// The refused entry's bytes, with those that decide marked, and why.
fn put_refusal(out: &mut String, refusal: &Refusal) -> fmt::Result {
    write!(out, "<pre>")?;
    for place in 0..refusal.places() {
        match place % 16 {
            0 if place > 0 => write!(out, "\n{:>10} ", refusal.offset + place as u64)?,
            0 => write!(out, "{:>10} ", refusal.offset)?,
            _ => {}
        }
        let digits = match refusal.bytes.get(place) {
            Some(byte) => format!("{byte:02x}"),
            None => "the journal ends here".into(),
        };
        match refusal.is_marked(place) {
            true => write!(out, " <mark>{digits}</mark>")?,
            false => write!(out, " {digits}")?,
        }
    }
    writeln!(out, "</pre>")?;
    writeln!(out, "<p>Why: {}.</p>", Plain(&refusal.why))
}

// ---- the chain

fn put_chain(out: &mut String, seen: &Seen, compared: &str) -> fmt::Result {
    let used = seen.image.nodes().filter(|(_, node)| node.is_used());
    writeln!(
        out,
        "<h2>Tree: {} of {NODES} nodes used{}</h2>",
        used.count(),
        Plain(compared)
    )?;
    if seen.chain.is_empty() {
        return Ok(());
    }
    put_picture(out, &seen.chain)?;
    writeln!(
        out,
        "<div class=\"scroll\">\n<table>\n<tr><th></th><th class=\"number\">node</th><th>hangs</th>\
         <th>type</th><th>digest</th><th>cumulative</th><th class=\"number\">svn</th>\
         <th class=\"number\">locality</th><th>handle</th></tr>"
    )?;
    let mut stand = None;
    for row in &seen.chain {
        if let Some(title) = row.stand.title(stand) {
            writeln!(out, "<tr><td></td><td colspan=\"8\">{title}:</td></tr>")?;
        }
        stand = Some(row.stand);
        put_node(out, row)?;
    }
    writeln!(out, "</table>\n</div>")?;
    match seen.chain.iter().any(|row| row.mark.is_difference()) {
        true => writeln!(
            out,
            "<p>≠ unlike the replayed node, + in the image alone, - replayed alone</p>"
        ),
        false => Ok(()),
    }
}

fn put_node(out: &mut String, row: &Row) -> fmt::Result {
    let node = &row.node;
    let class = match row.mark.is_difference() {
        true => " class=\"bad\"",
        false => "",
    };
    write!(
        out,
        "<tr{class}><td>{}</td><td class=\"number\">{}</td><td>{}</td><td><code>{}</code></td>",
        row.mark.sign(),
        row.place,
        parent_words(node.parent()),
        Plain(&type_words(node.kind()))
    )?;
    put_digest(out, &node.current())?;
    put_digest(out, &node.cumulative())?;
    writeln!(
        out,
        "<td class=\"number\">{}</td><td class=\"number\">{}</td><td><code title=\"{}\">{}</code></td></tr>",
        node.svn(),
        node.locality(),
        hex(&node.handle().bytes()),
        handle_words(node.handle())
    )?;
    if let Some(line) = &row.whole_handle {
        writeln!(
            out,
            "<tr><td></td><td colspan=\"8\"><code>{line}</code></td></tr>"
        )?;
    }
    for difference in &row.differences {
        writeln!(
            out,
            "<tr><td></td><td colspan=\"8\" class=\"difference\">{}</td></tr>",
            Plain(difference)
        )?;
    }
    Ok(())
}

/// A digest shortened; its whole shows where the pointer rests, as a handle's does.
fn put_digest(out: &mut String, digest: &[u8]) -> fmt::Result {
    write!(
        out,
        "<td><code title=\"{}\">{}</code></td>",
        hex(digest),
        short(digest)
    )
}

// ---- the picture

const ROW_HEIGHT: usize = 46;

/// Where the dots of the rows are. The deeper the tree, the narrower its steps.
fn dots(rows: &[Row]) -> Vec<(usize, usize)> {
    let depth = |row: &Row| match row.stand {
        Stand::Tree(line) => line.depth,
        _ => 0,
    };
    let deepest = rows.iter().map(depth).max().unwrap_or(0).max(1);
    let step = (320 / deepest).min(32);
    let place = |(at, row)| (24 + step * depth(row), 24 + ROW_HEIGHT * at);
    rows.iter().enumerate().map(place).collect()
}

/// The tree from the root down.
fn put_picture(out: &mut String, rows: &[Row]) -> fmt::Result {
    let height = ROW_HEIGHT * rows.len() + 4;
    writeln!(
        out,
        "<figure>\n<svg viewBox=\"0 0 960 {height}\" width=\"960\" height=\"{height}\" role=\"img\" \
         aria-label=\"The tree of nodes from the root down\">"
    )?;
    let dots = dots(rows);
    for (row, dot) in rows.iter().zip(&dots) {
        if let Stand::Tree(Line {
            above: Some(above), ..
        }) = row.stand
        {
            put_way(out, dots[above], *dot)?;
        }
    }
    for (row, dot) in rows.iter().zip(&dots) {
        put_dot(out, row, *dot)?;
    }
    writeln!(out, "</svg>")?;
    if rows.iter().any(|row| !row.node.handle().is_live()) {
        let line = "A small dot is a retired node: no handle names it.";
        writeln!(out, "<figcaption>{line}</figcaption>")?;
    }
    writeln!(out, "</figure>")
}

/// A line from a node down, and across to one that hangs on it.
fn put_way(out: &mut String, (x, y): (usize, usize), (to_x, to_y): (usize, usize)) -> fmt::Result {
    writeln!(out, "<path d=\"M{x} {y}V{to_y}H{to_x}\"/>")
}

/// A node of the picture: a dot, small if the node is retired, and two lines of text.
fn put_dot(out: &mut String, row: &Row, (x, y): (usize, usize)) -> fmt::Result {
    let class = match (row.stand, row.mark) {
        (Stand::Tree(_), Mark::Unknown) => "unknown",
        (Stand::Tree(_), Mark::Alike) => "alike",
        (Stand::Tree(_), _) => "differs",
        _ => "apart",
    };
    let node = &row.node;
    let radius = if node.handle().is_live() { 9 } else { 6 };
    let sign = row.mark.sign().trim();
    let text_class = match row.mark.is_difference() {
        true => " class=\"badtext\"",
        false => "",
    };
    let (label, first, second) = (x + 18, y - 2, y + 14);
    let title = format!(
        "{sign} node {}, {}: type {}, svn {}, locality {}",
        row.place,
        parent_words(node.parent()),
        type_words(node.kind()),
        node.svn(),
        node.locality()
    );
    writeln!(
        out,
        "<circle class=\"{class}\" cx=\"{x}\" cy=\"{y}\" r=\"{radius}\"/>"
    )?;
    writeln!(
        out,
        "<text{text_class} x=\"{label}\" y=\"{first}\">{}</text>",
        Plain(title.trim())
    )?;
    writeln!(
        out,
        "<text class=\"small\" x=\"{label}\" y=\"{second}\">handle {}, digest {}</text>",
        handle_words(node.handle()),
        short(&node.current())
    )
}

// ---- the registers

fn put_registers(out: &mut String, rows: &[registers::Row], compared: &str) -> fmt::Result {
    writeln!(
        out,
        "<h2>Registers{}</h2>\n<table>\n<tr><th></th><th>register</th><th>value</th><th></th></tr>",
        Plain(compared)
    )?;
    for row in rows.iter().filter(|row| !row.is_plain_zero()) {
        put_register(out, row)?;
    }
    writeln!(out, "</table>")?;
    let zeros = rows.iter().filter(|row| row.is_plain_zero()).count();
    match zeros {
        0 => Ok(()),
        n => {
            let others = counted(n as u64, "other is", "others are");
            writeln!(out, "<p>The {others} zero.</p>")
        }
    }
}

/// A register in full, and the replayed value below it where that is another.
fn put_register(out: &mut String, row: &registers::Row) -> fmt::Result {
    let (class, sign) = match row.replayed {
        Some(_) => (" class=\"bad\"", "≠"),
        None => ("", ""),
    };
    writeln!(
        out,
        "<tr{class}><td>{sign}</td><td>{}</td><td><code>{}</code></td><td>{}</td></tr>",
        row.name(),
        hex(&row.value),
        Plain(row.role)
    )?;
    match &row.replayed {
        None => Ok(()),
        Some(value) => writeln!(
            out,
            "<tr><td></td><td class=\"difference\">replayed</td>\
             <td colspan=\"2\" class=\"difference\"><code>{}</code></td></tr>",
            hex(value)
        ),
    }
}
