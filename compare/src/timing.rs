//! The original's own `Mapping::parse`, look-ups and applying, for timing them where its source is at hand.

pub const AT_HAND: bool = cfg!(original);

#[cfg(original)]
pub use crate::original::doors::{Kept, Key, parse};
#[cfg(original)]
pub use crate::smali_trees::{SmaliNode, SmaliTree};
#[cfg(not(original))]
pub use without::{Kept, Key, SmaliNode, SmaliTree, parse};

/// In place of the original: it has no mapping, so that nothing is looked up.
#[cfg(not(original))]
mod without {
    use crate::tree_files::TreeFile;
    use std::sync::Arc;

    pub struct Kept;
    pub struct Key;
    pub struct SmaliTree;
    #[derive(Clone)]
    pub struct SmaliNode;

    impl SmaliTree {
        pub fn of(_: &TreeFile) -> Option<Self> {
            None
        }

        pub fn node(&self) -> SmaliNode {
            SmaliNode
        }

        pub fn written(&self, _: &SmaliNode) -> Vec<u8> {
            Vec::new()
        }
    }

    pub fn parse(_: &[u8]) -> Option<Kept> {
        None
    }

    impl Key {
        pub fn new(_: &str, _: &str, _: &str) -> Self {
            Key
        }
    }

    impl Kept {
        pub fn display_class_name(&self, _: &str) -> Option<Arc<str>> {
            None
        }

        pub fn display_field_name(&self, _: &Key) -> Option<Arc<str>> {
            None
        }

        pub fn display_method_name(&self, _: &Key) -> Option<Arc<str>> {
            None
        }

        pub fn display_line(&self, _: &Key, _: u32) -> Option<u32> {
            None
        }

        pub fn apply_to_smali(&self, _: &str, _: &mut SmaliNode) {}
    }
}
