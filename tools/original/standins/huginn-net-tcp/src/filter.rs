//! Stand-in: packet filters are not in the text.

pub mod raw {}
