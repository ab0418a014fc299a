//! A second implementation of the measurement core in plain Rust.
//!
//! It is written from the papers alone and shares no code with the proved
//! crates. Tests run both and compare what they hand back.
//!
//! The reading of document 01 is `layout`, `memory`, `requests`, `boots`,
//! `work`, `engine`, `mailbox` and `book`, with document 02's manifest digest,
//! register extension and svn in them; its tree commands are `tree` and
//! `book::tree` besides, its running digest is `running` and
//! `book::slices`, its journal `journal`, `book::journal` and `book::replay`. Around it: `script` and `player` are the driver, `generate`
//! makes scripts, `campaign` compares, and `wrong` and `book::wrong` hold what is
//! wrong on purpose.

// The reading.
pub mod book;
pub mod boots;
pub mod checksum;
pub mod engine;
pub mod journal;
pub mod layout;
pub mod mailbox;
pub mod memory;
pub mod requests;
pub mod running;
pub mod sha384;
pub mod tree;
pub mod work;

// What is around it.
pub mod campaign;
pub mod generate;
pub mod player;
pub mod random;
pub mod script;
pub mod show;
pub mod wrong;
