//! Stand-in for the parser's root: it names the two files that are in the text.

mod common;
pub mod tcp;
