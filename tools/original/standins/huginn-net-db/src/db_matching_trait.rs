//! Stand-in: the traits that `matching.rs` implements, and the fit that it returns.

#[derive(Debug, Clone, PartialEq, Eq)]
pub enum SignatureFit<F> {
    Exact,
    Fuzzy(F),
}

impl<F> SignatureFit<F> {
    pub fn exact() -> Self {
        Self::Exact
    }

    pub fn fuzzy(reason: F) -> Self {
        Self::Fuzzy(reason)
    }
}

pub trait ObservedFingerprint {
    type Key;
    fn generate_index_key(&self) -> Self::Key;
}

pub trait DatabaseSignature<O: ObservedFingerprint> {
    type Fuzziness;
    fn fit(&self, observed: &O) -> Option<SignatureFit<Self::Fuzziness>>;
    fn generate_index_keys_for_db_entry(&self) -> Vec<O::Key>;
}
