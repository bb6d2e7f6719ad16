//! Slices as C hands them over, and places in them.

use std::slice;

pub type Bytes = *const u8;

// Safety of every function below: the caller gives the address and the length of one slice that lives through the call.

pub unsafe fn text<'a>(address: Bytes, length: usize) -> &'a [u8] {
    unsafe { slice::from_raw_parts(address, length) }
}

pub unsafe fn lent<'a, T>(address: *mut T, length: usize) -> &'a mut [T] {
    unsafe { slice::from_raw_parts_mut(address, length) }
}

/// A place plus 1, or 0.
pub fn place_or_0(place: Option<usize>) -> u64 {
    place.map_or(0, |place| place as u64 + 1)
}

/// Where a part of the text starts in it.
pub fn start(text: &[u8], part: &[u8]) -> u64 {
    (part.as_ptr() as usize - text.as_ptr() as usize) as u64
}

/// Where a part of the text starts and ends in it.
pub fn span(text: &[u8], part: &[u8]) -> [u64; 2] {
    let start = start(text, part);
    [start, start + part.len() as u64]
}

/// Writes the bytes into the room from the place on: 1 and where they end, or zeros where they do not fit.
pub fn written(bytes: &[u8], room: &mut [u8], at: usize) -> [u64; 2] {
    let end = at.checked_add(bytes.len());
    match end.and_then(|end| room.get_mut(at..end)) {
        Some(place) => {
            place.copy_from_slice(bytes);
            [1, (at + bytes.len()) as u64]
        }
        None => [0; 2],
    }
}
