//! What the original's file takes from its crate `java_asm`: shared strings, and the types of a tree, which `build.rs` hands on
//! from that crate's own file.

use std::sync::Arc;

pub type ConstStr = &'static str;
pub type StrRef = Arc<str>;
pub type DescriptorRef = StrRef;

#[allow(clippy::all)]
pub mod smali {
    use super::{ConstStr, StrRef};

    include!(concat!(env!("OUT_DIR"), "/smali.rs"));
}
