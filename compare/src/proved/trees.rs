//! The proved functions over tree files.

use super::{Bytes, Tables, UNWRITTEN};

unsafe extern "C" {
    fn clumarief_probe_tree(tree: Bytes, length: usize) -> u32;
    fn clumarief_probe_node_signature(
        tree: Bytes,
        length: usize,
        first: usize,
        count: usize,
        answer: &mut [u64; 5],
    );
    fn clumarief_apply(
        classes: *const [u32; 4],
        class_rows: usize,
        members: *const [u32; 15],
        member_rows: usize,
        pool: Bytes,
        pool_length: usize,
        used: &[u32; 3],
        class: Bytes,
        class_length: usize,
        tree: Bytes,
        tree_length: usize,
        output: *mut u8,
        output_length: usize,
        answer: &mut [u32; 2],
    );
}

/// 1 where a tree file is well formed.
pub fn tree(tree: &[u8]) -> u32 {
    unsafe { clumarief_probe_tree(tree.as_ptr(), tree.len()) }
}

/// The signature of a node whose `count` tokens start at token `first`: 1, the tokens of its member name and of its
/// descriptor, and 1 and the token of its owner or zeros for the class given. All zeros where there is none, the file is
/// malformed or has no such tokens.
pub fn node_signature(tree: &[u8], first: usize, count: usize) -> [u64; 5] {
    let mut answer = [UNWRITTEN; 5];
    let (address, length) = (tree.as_ptr(), tree.len());
    unsafe { clumarief_probe_node_signature(address, length, first, count, &mut answer) };
    answer
}

/// Applies a mapping to a tree of the class given: 0 or the number of a refusal; the output's length.
pub fn apply(tables: &Tables<'_>, class: &[u8], tree: &[u8], output: &mut [u8]) -> [u32; 2] {
    let mut answer = [u32::MAX; 2];
    let (address, length) = (output.as_mut_ptr(), output.len());
    unsafe {
        clumarief_apply(
            tables.classes.as_ptr(),
            tables.classes.len(),
            tables.members.as_ptr(),
            tables.members.len(),
            tables.pool.as_ptr(),
            tables.pool.len(),
            &tables.used,
            class.as_ptr(),
            class.len(),
            tree.as_ptr(),
            tree.len(),
            address,
            length,
            &mut answer,
        );
    }
    answer
}
