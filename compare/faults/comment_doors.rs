//! The C functions of json_probes, answered by the plain program.

use super::json::{LEVELS, RESIDUAL, Reader, Value, object};
use super::slices::{Bytes, lent, text, written};

/// What stands under a name: its kind and its place.
fn value_of(value: &Value, place: usize) -> [u64; 2] {
    match value {
        Value::Text(_) => [2, place as u64 + 1],
        _ => [1, 0],
    }
}

/// What stands under `id` and under `signature`, in a text that is an object.
fn said(json: &[u8]) -> Option<[u64; 5]> {
    let mut said = [1, 0, 0, 0, 0];
    let mut reader = Reader { rest: json };
    reader.space();
    object(reader.rest)?;
    while reader.exactly(b"}").is_none() {
        // the brace that opens, or a comma
        reader.rest = reader.rest.get(1..)?;
        reader.space();
        let Some(name) = reader.string() else {
            break;
        };
        reader.space();
        reader.exactly(b":")?;
        reader.space();
        let place = json.len() - reader.rest.len();
        let value = value_of(&reader.value(LEVELS)?, place);
        reader.space();
        match &name[..] {
            b"id" => said[1..3].copy_from_slice(&value),
            b"signature" => said[3..5].copy_from_slice(&value),
            _ => {}
        }
    }
    Some(said)
}

#[unsafe(no_mangle)]
pub unsafe extern "C" fn clumarief_probe_comment(
    address: Bytes,
    length: usize,
    answer: &mut [u64; 5],
) {
    *answer = said(unsafe { text(address, length) }).unwrap_or_default();
}

/// What the string stands for whose characters start at the place.
fn decoded(text: &[u8], start: usize) -> Option<Vec<u8>> {
    let rest = text.get(start..)?;
    Reader { rest }.characters()
}

#[unsafe(no_mangle)]
pub unsafe extern "C" fn clumarief_probe_decoded_length(
    address: Bytes,
    length: usize,
    start: usize,
    answer: &mut [u64; 2],
) {
    let bytes = decoded(unsafe { text(address, length) }, start);
    *answer = bytes.map_or([0; 2], |bytes| [1, bytes.len() as u64]);
}

#[unsafe(no_mangle)]
pub unsafe extern "C" fn clumarief_probe_decode(
    address: Bytes,
    length: usize,
    start: usize,
    room: *mut u8,
    room_length: usize,
    at: usize,
    answer: &mut [u64; 2],
) {
    let (text, room) = unsafe { (text(address, length), lent(room, room_length)) };
    *answer = match decoded(text, start).map(|bytes| written(&bytes, room, at)) {
        None => [0; 2],
        Some([0, _]) => [2, 0],
        Some(written) => written,
    };
}

#[unsafe(no_mangle)]
pub unsafe extern "C" fn clumarief_probe_residual(
    address: Bytes,
    length: usize,
    start: usize,
) -> u32 {
    let bytes = decoded(unsafe { text(address, length) }, start);
    u32::from(bytes.is_some_and(|bytes| bytes == RESIDUAL))
}
