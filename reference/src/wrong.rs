//! Engines that are wrong on purpose, to show that the scripts would tell.
//!
//! Each has the papers' rules but for the methods that stand below its name.
//! A method that calls `Paper` alters what the right rule is given, or what it
//! gives.

mod boots;
mod caught;
mod empty;
mod entry;
mod extension;
mod manifest;
mod memory;
mod nodes;
mod program;
mod program_boot;
mod requests;
mod running;
mod shortcuts;
mod stash;
mod svn;
mod tree;
mod walk;
mod works;

pub use caught::{caught, untold, Caught};

use crate::book::replay::wrong::{HOARDER, REPLAYERS};
use crate::book::wrong::BOOKS;
use crate::engine::Engine;
use Shown::{ByProgram, ByProgramImage, ByScripts};

/// A wrong engine.
#[derive(Clone, Copy)]
pub struct Wrong {
    pub name: &'static str,
    /// What it does instead.
    pub says: &'static str,
    pub engine: Engine,
}

/// Where a fault has to show.
#[derive(Clone, Copy)]
pub enum Shown {
    /// In what a script of the driver writes.
    ByScripts,
    /// In what the small program writes.
    ByProgram,
    /// In the image of the small program, of which it writes nothing.
    ByProgramImage,
}

/// Wrong engines that belong together.
pub struct Group {
    pub title: &'static str,
    pub engines: &'static [Wrong],
    pub shown: Shown,
}

const fn group(title: &'static str, engines: &'static [Wrong], shown: Shown) -> Group {
    Group {
        title,
        engines,
        shown,
    }
}

pub const GROUPS: &[Group] = &[
    group(
        "Shortcuts the buyer would catch",
        shortcuts::ENGINES,
        ByScripts,
    ),
    group("Empty builds", empty::ENGINES, ByScripts),
    group("The image", memory::ENGINES, ByScripts),
    group("Thirty-two nodes", nodes::ENGINES, ByScripts),
    group("The way to the root", walk::ENGINES, ByScripts),
    group("Requests", requests::ENGINES, ByScripts),
    group("Stash", stash::ENGINES, ByScripts),
    group("The svn", svn::ENGINES, ByScripts),
    group("Extension", extension::ENGINES, ByScripts),
    group("Nodes as a tree", tree::ENGINES, ByScripts),
    group("Boots", boots::ENGINES, ByScripts),
    group("The manifest digest", manifest::ENGINES, ByScripts),
    group("Works by value", works::ENGINES, ByScripts),
    group("The journal entry", entry::ENGINES, ByScripts),
    group("The running digest", running::ENGINES, ByScripts),
    group("The small program", program::ENGINES, ByProgram),
    group(
        "The small program's boot",
        program_boot::ENGINES,
        ByProgramImage,
    ),
];

/// The wrong engine of a name.
pub fn named(name: &str) -> Option<&'static Wrong> {
    let mut engines = GROUPS.iter().flat_map(|group| group.engines);
    engines.find(|wrong| wrong.name == name)
}

/// All names and what they do instead, as a table in Markdown.
pub fn table() -> String {
    let mut text = "| Wrong on purpose | What it does instead |\n|---|---|\n".to_string();
    for group in GROUPS {
        text += &title(group.title);
        text.extend(
            group
                .engines
                .iter()
                .map(|wrong| row(wrong.name, wrong.says)),
        );
    }
    text += &title("The book");
    text.extend(BOOKS.iter().map(|book| row(book.name, book.says)));
    text += &title("The program replay");
    let replayers = REPLAYERS.iter().chain([&HOARDER]);
    text.extend(replayers.map(|wrong| row(wrong.name, wrong.says)));
    text
}

fn title(title: &str) -> String {
    format!("| **{title}** | |\n")
}

fn row(name: &str, says: &str) -> String {
    format!("| `{name}` | {says} |\n")
}

/// A list of engines: a name, what it says, and for each part that is wrong the
/// methods that it has instead.
macro_rules! engines {
    ($($name:ident: $says:literal $([$part:ident: $rules:ident] { $($methods:tt)* })+)*) => {
        $(
            struct $name;
            $(impl $rules for $name { $($methods)* })+
        )*

        pub const ENGINES: &[crate::wrong::Wrong] = &[$(crate::wrong::Wrong {
            name: stringify!($name),
            says: $says,
            engine: crate::engine::Engine {
                $($part: &$name,)+
                ..crate::engine::Engine::PAPER
            },
        }),*];
    };
}
use engines;
