//! Stand-in for the crate `ttl_cache`: a short list, the oldest entry dropped when full.
//! Nothing expires: an answer never waits for the 30 seconds after which the original forgets.

#[cfg_attr(feature = "one_slot", path = "one_slot.rs")]
#[cfg_attr(not(feature = "one_slot"), path = "short_list.rs")]
mod memory;

pub use memory::TtlCache;
