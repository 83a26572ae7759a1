//! Stand-in for the crate root, which is not in the text: it names the modules.

pub mod database;
pub mod db_matching_trait;
pub mod error;
pub mod parse;
pub mod tcp;
