//! The proved look-ups in lent tables.

use super::Bytes;

/// Tables that are lent to a look-up, and how much of them is used: class rows, member rows, pool bytes.
pub struct Tables<'a> {
    pub classes: &'a [[u32; 4]],
    pub members: &'a [[u32; 15]],
    pub pool: &'a [u8],
    pub used: [u32; 3],
}

/// A look-up: the C function that it calls, what that takes after the tables, and how many numbers it answers.
///
/// Safety of the call: as for every one of `proved`.
macro_rules! look_up {
    (
        $(#[$said:meta])*
        $name:ident = $function:ident($($text:ident),+ $(; $line:ident)?) -> $numbers:literal
    ) => {
        $(#[$said])*
        pub fn $name(tables: &Tables<'_>, $($text: &[u8],)+ $($line: u32,)?) -> [u32; $numbers] {
            unsafe extern "C" {
                fn $function(
                    classes: *const [u32; 4],
                    class_rows: usize,
                    members: *const [u32; 15],
                    member_rows: usize,
                    pool: Bytes,
                    pool_length: usize,
                    used: &[u32; 3],
                    $($text: Bytes, _: usize,)+
                    $($line: u32,)?
                    answer: &mut [u32; $numbers],
                );
            }
            let mut answer = [u32::MAX; $numbers];
            unsafe {
                $function(
                    tables.classes.as_ptr(),
                    tables.classes.len(),
                    tables.members.as_ptr(),
                    tables.members.len(),
                    tables.pool.as_ptr(),
                    tables.pool.len(),
                    &tables.used,
                    $($text.as_ptr(), $text.len(),)+
                    $($line,)?
                    &mut answer,
                );
            }
            answer
        }
    };
}

look_up! {
    /// 0 or 14; 1 found or 0; the place and the length of the display descriptor.
    display_class_name = clumarief_display_class_name(raw) -> 4
}

look_up! {
    /// The same for the raw descriptor, by the display one.
    raw_class_name = clumarief_raw_class_name(display) -> 4
}

look_up! {
    /// 1 out of the pool or 0 the caller's own; place and length.
    mapped_class_name = clumarief_mapped_class_name(raw) -> 3
}

look_up! {
    /// 0 or 14; 1 found or 0; the member row, the place and the length of its display name.
    display_field_name = clumarief_display_field_name(owner, name, descriptor) -> 5
}

look_up! {
    /// The same for a method.
    display_method_name = clumarief_display_method_name(owner, name, descriptor) -> 5
}

look_up! {
    /// 0 or 14; 1 found or 0; the member row, and the display line.
    display_line = clumarief_display_line(owner, name, descriptor; line) -> 4
}

unsafe extern "C" {
    fn clumarief_probe_method_row(
        classes: *const [u32; 4],
        class_rows: usize,
        members: *const [u32; 15],
        member_rows: usize,
        pool: Bytes,
        pool_length: usize,
        used: &[u32; 3],
        owner: Bytes,
        owner_length: usize,
        name: Bytes,
        name_length: usize,
        descriptor: Bytes,
        descriptor_length: usize,
    ) -> u64;
}

/// The row of a method by an index of all members, which is made for the call: its number and 2; 1 where it is unknown; 0
/// where the tables are malformed.
pub fn method_row(tables: &Tables<'_>, owner: &[u8], name: &[u8], descriptor: &[u8]) -> u64 {
    unsafe {
        clumarief_probe_method_row(
            tables.classes.as_ptr(),
            tables.classes.len(),
            tables.members.as_ptr(),
            tables.members.len(),
            tables.pool.as_ptr(),
            tables.pool.len(),
            &tables.used,
            owner.as_ptr(),
            owner.len(),
            name.as_ptr(),
            name.len(),
            descriptor.as_ptr(),
            descriptor.len(),
        )
    }
}
