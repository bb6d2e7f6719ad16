//! The C functions as `include/clumarief.h` declares them, and a safe call of each: slices in, numbers out.
//!
//! The one reason for every `unsafe` below: a proved function reads and writes only the slices that it is handed, of the lengths that are
//! said, and keeps nothing. Slices of Rust are never null, are aligned, and no two of them that are written overlap.

use crate::rows::{ClassRow, MemberRow};

/// Class rows, member rows and pool bytes that are used.
pub type Used = [u32; 3];

/// The numbers that a load answers.
pub type LoadNumbers = [u32; 24];

mod c {
    use super::{ClassRow, LoadNumbers, MemberRow, Used};

    /// How the C functions take tables: each slice its pointer and its length.
    macro_rules! over_tables {
        ($($name:ident($($word:ident: $type:ty),*);)*) => {
            extern "C" {
                $(pub fn $name(
                    classes: *const ClassRow, class_rows: usize,
                    members: *const MemberRow, member_rows: usize,
                    pool: *const u8, pool_length: usize,
                    used: *const Used,
                    $($word: $type),*
                );)*
            }
        };
    }

    extern "C" {
        pub fn clumarief_parse(
            text: *const u8,
            text_length: usize,
            classes: *mut ClassRow,
            class_rows: usize,
            members: *mut MemberRow,
            member_rows: usize,
            pool: *mut u8,
            pool_length: usize,
            answer: *mut LoadNumbers,
        );
        pub fn clumarief_parse_str(
            text: *const u8,
            text_length: usize,
            classes: *mut ClassRow,
            class_rows: usize,
            members: *mut MemberRow,
            member_rows: usize,
            pool: *mut u8,
            pool_length: usize,
            answer: *mut LoadNumbers,
        );
    }

    over_tables! {
        clumarief_display_class_name(raw: *const u8, length: usize, answer: *mut [u32; 4]);
        clumarief_raw_class_name(display: *const u8, length: usize, answer: *mut [u32; 4]);
        clumarief_display_field_name(
            owner: *const u8, owner_length: usize, name: *const u8, name_length: usize,
            descriptor: *const u8, descriptor_length: usize, answer: *mut [u32; 5]
        );
        clumarief_display_method_name(
            owner: *const u8, owner_length: usize, name: *const u8, name_length: usize,
            descriptor: *const u8, descriptor_length: usize, answer: *mut [u32; 5]
        );
        clumarief_display_line(
            owner: *const u8, owner_length: usize, name: *const u8, name_length: usize,
            descriptor: *const u8, descriptor_length: usize, line: u32, answer: *mut [u32; 4]
        );
        clumarief_apply(
            class: *const u8, class_length: usize, tree: *const u8, tree_length: usize,
            output: *mut u8, output_length: usize, answer: *mut [u32; 2]
        );
    }
}

/// Whether the marks that a text begins with go.
#[derive(Clone, Copy, PartialEq, Eq)]
pub enum Marks {
    /// As `parse` does.
    Go,
    /// As `parse_str` does.
    Stay,
}

/// Loads a text into what is lent.
pub fn load(
    marks: Marks,
    text: &[u8],
    classes: &mut [ClassRow],
    members: &mut [MemberRow],
    pool: &mut [u8],
) -> LoadNumbers {
    let mut answer = [0; 24];
    let call = match marks {
        Marks::Go => c::clumarief_parse,
        Marks::Stay => c::clumarief_parse_str,
    };
    // SAFETY: see the head of this file.
    unsafe {
        call(
            text.as_ptr(),
            text.len(),
            classes.as_mut_ptr(),
            classes.len(),
            members.as_mut_ptr(),
            members.len(),
            pool.as_mut_ptr(),
            pool.len(),
            &mut answer,
        );
    }
    answer
}

/// Tables that are looked up in, and how much of them is used.
#[derive(Clone, Copy)]
pub struct Tables<'a> {
    pub classes: &'a [ClassRow],
    pub members: &'a [MemberRow],
    pub pool: &'a [u8],
    pub used: Used,
}

/// A member by the raw descriptor of its class, its raw name and its raw descriptor.
#[derive(Clone, Copy)]
pub struct Key<'a> {
    pub owner: &'a [u8],
    pub name: &'a [u8],
    pub descriptor: &'a [u8],
}

/// Calls a C function over tables with more words, and gives its answer.
macro_rules! called {
    ($name:ident, $tables:expr, $answer:expr, $($word:expr),*) => {{
        let (tables, mut answer): (&Tables<'_>, _) = ($tables, $answer);
        // SAFETY: see the head of this file.
        unsafe {
            c::$name(
                tables.classes.as_ptr(), tables.classes.len(),
                tables.members.as_ptr(), tables.members.len(),
                tables.pool.as_ptr(), tables.pool.len(),
                &tables.used,
                $($word,)*
                &mut answer,
            );
        }
        answer
    }};
}

impl Tables<'_> {
    pub fn display_class_name(&self, raw: &[u8]) -> [u32; 4] {
        called!(
            clumarief_display_class_name,
            self,
            [0; 4],
            raw.as_ptr(),
            raw.len()
        )
    }

    pub fn raw_class_name(&self, display: &[u8]) -> [u32; 4] {
        called!(
            clumarief_raw_class_name,
            self,
            [0; 4],
            display.as_ptr(),
            display.len()
        )
    }

    pub fn display_field_name(&self, key: Key<'_>) -> [u32; 5] {
        called!(
            clumarief_display_field_name,
            self,
            [0; 5],
            key.owner.as_ptr(),
            key.owner.len(),
            key.name.as_ptr(),
            key.name.len(),
            key.descriptor.as_ptr(),
            key.descriptor.len()
        )
    }

    pub fn display_method_name(&self, key: Key<'_>) -> [u32; 5] {
        called!(
            clumarief_display_method_name,
            self,
            [0; 5],
            key.owner.as_ptr(),
            key.owner.len(),
            key.name.as_ptr(),
            key.name.len(),
            key.descriptor.as_ptr(),
            key.descriptor.len()
        )
    }

    pub fn display_line(&self, key: Key<'_>, line: u32) -> [u32; 4] {
        called!(
            clumarief_display_line,
            self,
            [0; 4],
            key.owner.as_ptr(),
            key.owner.len(),
            key.name.as_ptr(),
            key.name.len(),
            key.descriptor.as_ptr(),
            key.descriptor.len(),
            line
        )
    }

    pub fn apply(&self, class: &[u8], tree: &[u8], output: &mut [u8]) -> [u32; 2] {
        called!(
            clumarief_apply,
            self,
            [0; 2],
            class.as_ptr(),
            class.len(),
            tree.as_ptr(),
            tree.len(),
            output.as_mut_ptr(),
            output.len()
        )
    }
}
