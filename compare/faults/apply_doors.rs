//! The C function of capi for applying, answered by the plain program.

use super::applying::{answered, apply};
use super::name_doors::lookup;
use super::names::Lookup;
use super::slices::{Bytes, lent, text};
use super::{ClassRow, MemberRow};

/// Number and length, and all of the output.
fn put(tables: &Lookup, class: &[u8], tree: &[u8], output: &mut [u8]) -> [u32; 2] {
    let room = output.len();
    let applied = answered(apply(tables, class, tree, room), room);
    output.copy_from_slice(&applied.output);
    [applied.number, applied.length]
}

#[unsafe(no_mangle)]
pub unsafe extern "C" fn clumarief_apply(
    classes: *const ClassRow,
    class_rows: usize,
    members: *const MemberRow,
    member_rows: usize,
    pool: Bytes,
    pool_length: usize,
    used: &[u32; 3],
    class: Bytes,
    class_length: usize,
    tree: Bytes,
    tree_length: usize,
    output: *mut u8,
    output_length: usize,
    answer: &mut [u32; 2],
) {
    let tables = unsafe {
        lookup(
            classes,
            class_rows,
            members,
            member_rows,
            pool,
            pool_length,
            used,
        )
    };
    let (class, tree) = unsafe { (text(class, class_length), text(tree, tree_length)) };
    *answer = put(&tables, class, tree, unsafe {
        lent(output, output_length)
    });
}
