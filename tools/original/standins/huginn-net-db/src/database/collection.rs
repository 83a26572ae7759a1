//! Stand-in: the indexed collection is not in the text.

pub struct FingerprintCollection;
