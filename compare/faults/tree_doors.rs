//! The C functions of tree_probes, answered by the plain program.

use super::slices::{Bytes, text};
use super::trees::{Signature, is_well_formed, read};

#[unsafe(no_mangle)]
pub unsafe extern "C" fn clumarief_probe_tree(tree: Bytes, length: usize) -> u32 {
    u32::from(is_well_formed(unsafe { text(tree, length) }))
}

/// 1, two tokens, and 1 and a token or zeros.
fn numbers(signature: Signature) -> [u64; 5] {
    let Signature {
        member,
        descriptor,
        owner,
    } = signature;
    let [given, owner] = owner.map_or([0; 2], |owner| [1, owner as u64]);
    [1, member as u64, descriptor as u64, given, owner]
}

#[unsafe(no_mangle)]
pub unsafe extern "C" fn clumarief_probe_node_signature(
    tree: Bytes,
    length: usize,
    first: usize,
    count: usize,
    answer: &mut [u64; 5],
) {
    let tree = read(unsafe { text(tree, length) }).filter(|tree| tree.is_well_formed());
    let signature = tree.and_then(|tree| tree.signature(first, count));
    *answer = signature.map_or([0; 5], numbers);
}
