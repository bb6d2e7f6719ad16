//! The C functions of capi for class names, answered by the plain program.

use super::names::{Found, Lookup};
use super::slices::{Bytes, lent, text};
use super::{ClassRow, MemberRow};

/// What is lent, as C hands it over.
pub unsafe fn lookup<'a>(
    classes: *const ClassRow,
    class_rows: usize,
    members: *const MemberRow,
    member_rows: usize,
    pool: Bytes,
    pool_length: usize,
    used: &[u32; 3],
) -> Lookup<'a> {
    Lookup {
        classes: unsafe { lent(classes.cast_mut(), class_rows) },
        members: unsafe { lent(members.cast_mut(), member_rows) },
        pool: unsafe { text(pool, pool_length) },
        used: *used,
    }
}

/// 0 or 14; then 1 found, place and length, or zeros.
fn numbers(lookup: Lookup, found: impl FnOnce(&Lookup) -> Option<Found>) -> [u32; 4] {
    if lookup.is_malformed() {
        return [14, 0, 0, 0];
    }
    found(&lookup).map_or([0; 4], |(place, length)| [0, 1, place, length])
}

#[unsafe(no_mangle)]
pub unsafe extern "C" fn clumarief_display_class_name(
    classes: *const ClassRow,
    class_rows: usize,
    members: *const MemberRow,
    member_rows: usize,
    pool: Bytes,
    pool_length: usize,
    used: &[u32; 3],
    name: Bytes,
    length: usize,
    answer: &mut [u32; 4],
) {
    let tables = unsafe {
        lookup(
            classes,
            class_rows,
            members,
            member_rows,
            pool,
            pool_length,
            used,
        )
    };
    let name = unsafe { text(name, length) };
    *answer = numbers(tables, |tables| tables.display_class_name(name));
}

#[unsafe(no_mangle)]
pub unsafe extern "C" fn clumarief_raw_class_name(
    classes: *const ClassRow,
    class_rows: usize,
    members: *const MemberRow,
    member_rows: usize,
    pool: Bytes,
    pool_length: usize,
    used: &[u32; 3],
    name: Bytes,
    length: usize,
    answer: &mut [u32; 4],
) {
    let tables = unsafe {
        lookup(
            classes,
            class_rows,
            members,
            member_rows,
            pool,
            pool_length,
            used,
        )
    };
    let name = unsafe { text(name, length) };
    *answer = numbers(tables, |tables| tables.raw_class_name(name));
}

#[unsafe(no_mangle)]
pub unsafe extern "C" fn clumarief_mapped_class_name(
    classes: *const ClassRow,
    class_rows: usize,
    members: *const MemberRow,
    member_rows: usize,
    pool: Bytes,
    pool_length: usize,
    used: &[u32; 3],
    name: Bytes,
    length: usize,
    answer: &mut [u32; 3],
) {
    let tables = unsafe {
        lookup(
            classes,
            class_rows,
            members,
            member_rows,
            pool,
            pool_length,
            used,
        )
    };
    let name = unsafe { text(name, length) };
    let [_, found, place, length] = numbers(tables, |tables| tables.display_class_name(name));
    *answer = [found, place, length];
}
