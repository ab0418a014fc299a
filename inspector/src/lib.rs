//! Shows an inspector a saved image and a journal: the verdict in words, the journal entry by entry, the
//! nodes as a tree and the registers, with what differs marked.
//!
//! The judgement (verdict, refusal, replayed registers) is that of the proved program `replay`. What is
//! read here is read for display; where it disagrees with the judgement, the report says so.

pub mod chain;
pub mod form;
pub mod html;
pub mod image;
pub mod judge;
pub mod output;
pub mod registers;
pub mod replayed;
pub mod report;
pub mod sha384;
pub mod shape;
pub mod survey;
pub mod text;
pub mod tree;
pub mod words;
