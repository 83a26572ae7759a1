//! Stand-in: link-layer parsing is not in the text.

pub mod hash {}
pub mod packet {}
