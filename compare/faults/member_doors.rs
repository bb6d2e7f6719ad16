//! The C functions of capi for names and lines of members, answered by the plain program.

use super::members::{Key, Named};
use super::name_doors::lookup;
use super::names::Lookup;
use super::slices::{Bytes, text};
use super::{ClassRow, MemberRow};

/// 0 or 14; then 1 found, row, place and length, or zeros.
fn name_numbers(tables: &Lookup, found: impl FnOnce() -> Option<Named>) -> [u32; 5] {
    if tables.is_malformed() {
        return [14, 0, 0, 0, 0];
    }
    found().map_or([0; 5], |[row, place, length]| [0, 1, row, place, length])
}

fn field(tables: Lookup, key: Key) -> [u32; 5] {
    name_numbers(&tables, || tables.display_field_name(key))
}

fn method(tables: Lookup, key: Key) -> [u32; 5] {
    name_numbers(&tables, || tables.display_method_name(key))
}

/// 0 or 14; then 1 found, row and display line, or zeros.
fn shown_line(tables: Lookup, key: Key, line: u32) -> [u32; 4] {
    if tables.is_malformed() {
        return [14, 0, 0, 0];
    }
    let found = tables.display_line(key, line);
    found.map_or([0; 4], |[row, line]| [0, 1, row, line])
}

#[unsafe(no_mangle)]
pub unsafe extern "C" fn clumarief_probe_method_row(
    classes: *const ClassRow,
    class_rows: usize,
    members: *const MemberRow,
    member_rows: usize,
    pool: Bytes,
    pool_length: usize,
    used: &[u32; 3],
    owner: Bytes,
    owner_length: usize,
    name: Bytes,
    name_length: usize,
    descriptor: Bytes,
    descriptor_length: usize,
) -> u64 {
    let (tables, key) = unsafe {
        let tables = lookup(
            classes,
            class_rows,
            members,
            member_rows,
            pool,
            pool_length,
            used,
        );
        let key = Key {
            owner: text(owner, owner_length),
            name: text(name, name_length),
            descriptor: text(descriptor, descriptor_length),
        };
        (tables, key)
    };
    match method(tables, key) {
        [14, ..] => 0,
        [_, 0, ..] => 1,
        [_, _, row, ..] => u64::from(row) + 2,
    }
}

/// A C function over lent tables and a key, and what answers it.
macro_rules! door {
    ($function:ident($($line:ident)?) -> $numbers:literal by $answers:ident) => {
        #[unsafe(no_mangle)]
        pub unsafe extern "C" fn $function(
            classes: *const ClassRow,
            class_rows: usize,
            members: *const MemberRow,
            member_rows: usize,
            pool: Bytes,
            pool_length: usize,
            used: &[u32; 3],
            owner: Bytes,
            owner_length: usize,
            name: Bytes,
            name_length: usize,
            descriptor: Bytes,
            descriptor_length: usize,
            $($line: u32,)?
            answer: &mut [u32; $numbers],
        ) {
            let (tables, key) = unsafe {
                let tables =
                    lookup(classes, class_rows, members, member_rows, pool, pool_length, used);
                let key = Key {
                    owner: text(owner, owner_length),
                    name: text(name, name_length),
                    descriptor: text(descriptor, descriptor_length),
                };
                (tables, key)
            };
            *answer = $answers(tables, key, $($line)?);
        }
    };
}

door!(clumarief_display_field_name() -> 5 by field);
door!(clumarief_display_method_name() -> 5 by method);
door!(clumarief_display_line(line) -> 4 by shown_line);
