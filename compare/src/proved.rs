//! The proved functions, as they come out of `libcapi.a` and the libraries of probes, behind safe calls.

mod lookups;
mod trees;

pub use lookups::*;
pub use trees::*;

/// A byte slice crosses as its address and its length.
type Bytes = *const u8;

unsafe extern "C" {
    fn clumarief_probe_sequence(text: Bytes, length: usize, at: usize, answer: &mut [u64; 3]);
    fn clumarief_probe_check(text: Bytes, length: usize, answer: &mut [u64; 3]);
    fn clumarief_probe_white(code: u32) -> u32;
    fn clumarief_probe_trim(text: Bytes, length: usize, answer: &mut [u64; 8]);
    fn clumarief_probe_line(text: Bytes, length: usize, at: usize, answer: &mut [u64; 4]);
    fn clumarief_probe_bytes(text: Bytes, length: usize, a: u8, b: u8, answer: &mut [u64; 3]);
    fn clumarief_probe_same(s: Bytes, s_length: usize, t: Bytes, t_length: usize) -> u32;
    fn clumarief_probe_number(text: Bytes, length: usize, answer: &mut [u64; 2]);
    fn clumarief_probe_leading(text: Bytes, length: usize, answer: &mut [u64; 4]);
    fn clumarief_probe_trailing(text: Bytes, length: usize, answer: &mut [u64; 4]);
    fn clumarief_probe_comment(text: Bytes, length: usize, answer: &mut [u64; 5]);
    fn clumarief_probe_decoded_length(
        text: Bytes,
        length: usize,
        start: usize,
        answer: &mut [u64; 2],
    );
    fn clumarief_probe_decode(
        text: Bytes,
        length: usize,
        start: usize,
        room: *mut u8,
        room_length: usize,
        at: usize,
        answer: &mut [u64; 2],
    );
    fn clumarief_probe_residual(text: Bytes, length: usize, start: usize) -> u32;
    fn clumarief_probe_line_parts(text: Bytes, length: usize, answer: &mut [u64; 20]);
    fn clumarief_probe_argument(text: Bytes, length: usize, at: usize, answer: &mut [u64; 4]);
    fn clumarief_probe_class(
        name: Bytes,
        length: usize,
        room: *mut u8,
        room_length: usize,
        at: usize,
        answer: &mut [u64; 2],
    );
    fn clumarief_probe_type_shape(text: Bytes, length: usize, answer: &mut [u64; 5]);
    fn clumarief_probe_signature(
        room: *mut u8,
        room_length: usize,
        at: usize,
        end: usize,
        method: u32,
        answer: &mut [u64; 2],
    );
    fn clumarief_parse(
        text: Bytes,
        length: usize,
        classes: *mut [u32; 4],
        class_rows: usize,
        members: *mut [u32; 15],
        member_rows: usize,
        pool: *mut u8,
        pool_length: usize,
        answer: &mut [u32; 24],
    );
    fn clumarief_parse_str(
        text: Bytes,
        length: usize,
        classes: *mut [u32; 4],
        class_rows: usize,
        members: *mut [u32; 15],
        member_rows: usize,
        pool: *mut u8,
        pool_length: usize,
        answer: &mut [u32; 24],
    );
}

/// What stands in an answer before the call: no judge gives it, so a slot that is not written shows.
const UNWRITTEN: u64 = u64::MAX;

// Safety of every call below: an address and a length are those of one slice that lives through the call, and the
// answer is an array of the length that the function is declared with. The functions keep neither.

/// 0 end, 1 good or 2 bad; the code point, 0 unless good; the length.
pub fn sequence(text: &[u8], at: usize) -> [u64; 3] {
    let mut answer = [UNWRITTEN; 3];
    unsafe { clumarief_probe_sequence(text.as_ptr(), text.len(), at, &mut answer) };
    answer
}

/// 0 valid or 1 broken; the valid bytes before that; the length of what is broken, 0 where the text ends in it.
pub fn check(text: &[u8]) -> [u64; 3] {
    let mut answer = [UNWRITTEN; 3];
    unsafe { clumarief_probe_check(text.as_ptr(), text.len(), &mut answer) };
    answer
}

/// 1 white space, 0 not.
pub fn white(code: u32) -> u32 {
    unsafe { clumarief_probe_white(code) }
}

/// The place that trimming the start leads to, and trimming the end; start and end when both are trimmed; the place
/// after every leading U+FEFF; 1 where the first character is white; the places of the first and of the last white
/// character, each plus 1, or 0.
pub fn trim(text: &[u8]) -> [u64; 8] {
    let mut answer = [UNWRITTEN; 8];
    unsafe { clumarief_probe_trim(text.as_ptr(), text.len(), &mut answer) };
    answer
}

/// 1 line or 0 none; its start, its end, and where the following line starts.
pub fn line(text: &[u8], at: usize) -> [u64; 4] {
    let mut answer = [UNWRITTEN; 4];
    unsafe { clumarief_probe_line(text.as_ptr(), text.len(), at, &mut answer) };
    answer
}

/// The first place of `a`, its last place, and the first place of `a` with `b` after it; each plus 1, or 0.
pub fn bytes(text: &[u8], a: u8, b: u8) -> [u64; 3] {
    let mut answer = [UNWRITTEN; 3];
    unsafe { clumarief_probe_bytes(text.as_ptr(), text.len(), a, b, &mut answer) };
    answer
}

/// 1 where both texts have the same bytes.
pub fn same(s: &[u8], t: &[u8]) -> u32 {
    unsafe { clumarief_probe_same(s.as_ptr(), s.len(), t.as_ptr(), t.len()) }
}

/// 1 where the text reads as a number, and the number.
pub fn number(text: &[u8]) -> [u64; 2] {
    let mut answer = [UNWRITTEN; 2];
    unsafe { clumarief_probe_number(text.as_ptr(), text.len(), &mut answer) };
    answer
}

/// The range before a method: 1 taken; start, end, place of the rest. Zeros where it is not taken.
pub fn leading(text: &[u8]) -> [u64; 4] {
    let mut answer = [UNWRITTEN; 4];
    unsafe { clumarief_probe_leading(text.as_ptr(), text.len(), &mut answer) };
    answer
}

/// The range after a method: 1 taken; start, end; 1 where its second part is there and does not read.
pub fn trailing(text: &[u8]) -> [u64; 4] {
    let mut answer = [UNWRITTEN; 4];
    unsafe { clumarief_probe_trailing(text.as_ptr(), text.len(), &mut answer) };
    answer
}

/// 1 where the comment reads; then what stands under `id` and under `signature`: 0 nothing, 1 no string, or 2 a string;
/// and the place of its first character, or 0.
pub fn comment(text: &[u8]) -> [u64; 5] {
    let mut answer = [UNWRITTEN; 5];
    unsafe { clumarief_probe_comment(text.as_ptr(), text.len(), &mut answer) };
    answer
}

/// 1 where a string's characters start there, and how many bytes they stand for.
pub fn decoded_length(text: &[u8], start: usize) -> [u64; 2] {
    let mut answer = [UNWRITTEN; 2];
    unsafe { clumarief_probe_decoded_length(text.as_ptr(), text.len(), start, &mut answer) };
    answer
}

/// Writes what the string's characters stand for into the room from `at` on: 0 no string, 1 written and where that
/// ends, or 2 too little room.
pub fn decode(text: &[u8], start: usize, room: &mut [u8], at: usize) -> [u64; 2] {
    let mut answer = [UNWRITTEN; 2];
    let (address, length) = (room.as_mut_ptr(), room.len());
    unsafe {
        clumarief_probe_decode(
            text.as_ptr(),
            text.len(),
            start,
            address,
            length,
            at,
            &mut answer,
        );
    }
    answer
}

/// 1 where the string there stands for the id of a residual signature.
pub fn residual(text: &[u8], start: usize) -> u32 {
    unsafe { clumarief_probe_residual(text.as_ptr(), text.len(), start) }
}

/// Which kind a line is, and its parts, each its start and its end: 0 blank; 1 comment: the place of its `{` plus 1, or
/// 0; 2 class: display name, raw name; 3 field: type, name, raw name; 4 method: return type, 1 and the owner or zeros,
/// name, arguments, raw name, 1 and the raw range or zeros, 1 and the display range or zeros, 1 where that has a second
/// part that does not read; 5 refused: the number of the refusal.
pub fn line_parts(text: &[u8]) -> [u64; 20] {
    let mut answer = [UNWRITTEN; 20];
    unsafe { clumarief_probe_line_parts(text.as_ptr(), text.len(), &mut answer) };
    answer
}

/// The first argument from the place on: 1, its start, its end, and where the search for the following one starts; or
/// zeros.
pub fn argument(text: &[u8], at: usize) -> [u64; 4] {
    let mut answer = [UNWRITTEN; 4];
    unsafe { clumarief_probe_argument(text.as_ptr(), text.len(), at, &mut answer) };
    answer
}

/// Writes the descriptor of a class name into the room from `at` on: 1 and where that ends, or zeros where it does not
/// fit.
pub fn class(name: &[u8], room: &mut [u8], at: usize) -> [u64; 2] {
    let mut answer = [UNWRITTEN; 2];
    let (address, length) = (room.as_mut_ptr(), room.len());
    unsafe { clumarief_probe_class(name.as_ptr(), name.len(), address, length, at, &mut answer) };
    answer
}

/// The same for the descriptor of a raw signature that stands in the room from `at` to `end`.
pub fn signature(room: &mut [u8], at: usize, end: usize, method: bool) -> [u64; 2] {
    let mut answer = [UNWRITTEN; 2];
    let (address, length) = (room.as_mut_ptr(), room.len());
    unsafe { clumarief_probe_signature(address, length, at, end, method.into(), &mut answer) };
    answer
}

/// What a type is: the number of `[]`s at its end; start and end of its base, without them; what that is: 0 one of the nine
/// words, 1 `L..;`, which is kept, 2 a class name; and the word's letter, or 0.
pub fn type_shape(text: &[u8]) -> [u64; 5] {
    let mut answer = [UNWRITTEN; 5];
    unsafe { clumarief_probe_type_shape(text.as_ptr(), text.len(), &mut answer) };
    answer
}

/// Rows and bytes that are lent to a load.
pub struct Rooms<'a> {
    pub classes: &'a mut [[u32; 4]],
    pub members: &'a mut [[u32; 15]],
    pub pool: &'a mut [u8],
}

/// Loads a text as `parse` does where `marks` says that leading marks are dropped, else as `parse_str` does. Number,
/// place, length, lines, blank, applied, idle, class, field, method, short, names, then zeros.
pub fn load(text: &[u8], marks: bool, rooms: Rooms<'_>) -> [u32; 24] {
    let mut answer = [u32::MAX; 24];
    let Rooms {
        classes,
        members,
        pool,
    } = rooms;
    let entry = if marks {
        clumarief_parse
    } else {
        clumarief_parse_str
    };
    unsafe {
        entry(
            text.as_ptr(),
            text.len(),
            classes.as_mut_ptr(),
            classes.len(),
            members.as_mut_ptr(),
            members.len(),
            pool.as_mut_ptr(),
            pool.len(),
            &mut answer,
        );
    }
    answer
}
