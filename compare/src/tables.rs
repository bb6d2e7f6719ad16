//! The tables of a mapping as the original keeps them, and its answer about a text.

use std::collections::BTreeMap;

pub type Range = Option<(u32, u32)>;

/// Raw name and raw descriptor.
pub type Key = (String, String);

#[derive(Debug, PartialEq)]
pub struct Method {
    pub owner: String,
    pub name: String,
    pub raw_range: Range,
    pub display_range: Range,
}

#[derive(Debug, Default, PartialEq)]
pub struct Class {
    pub display: String,
    pub fields: BTreeMap<Key, String>,
    pub methods: BTreeMap<Key, Vec<Method>>,
}

#[derive(Debug, Default, PartialEq)]
pub struct Tables {
    pub classes_by_raw: BTreeMap<String, Class>,
    pub raw_by_display: BTreeMap<String, String>,
}

/// The tables, or the line and the message of the error.
pub type Answer = Result<Tables, (usize, String)>;
