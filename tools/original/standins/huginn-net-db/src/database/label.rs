//! Stand-in: the label that `parse/common.rs` fills in.

#[derive(Debug, Clone, PartialEq)]
pub enum Type {
    Specified,
    Generic,
}

#[derive(Debug, Clone, PartialEq)]
pub struct Label {
    pub ty: Type,
    pub class: Option<String>,
    pub name: String,
    pub flavor: Option<String>,
}
