//! The C functions of line_probes and descriptor_probes, answered by the plain program.

use super::characters::trim;
use super::descriptors::{Base, class_descriptor, raw_signature, type_shape};
use super::lines::{Line, Method, Range, line_of};
use super::slices::{Bytes, lent, span, start, text, written};

/// 1 and the range, or zeros.
fn range_of(range: Range) -> [u64; 3] {
    range.map_or([0; 3], |(from, to)| [1, from.into(), to.into()])
}

fn method_parts(line: &[u8], method: &Method, raw: &[u8]) -> Vec<u64> {
    let owner = method.owner.map_or([0; 3], |owner| {
        let [start, end] = span(line, owner);
        [1, start, end]
    });
    [
        &[4],
        &span(line, method.returned)[..],
        &owner,
        &span(line, method.name),
        &span(line, method.between),
        &span(line, raw),
        &range_of(method.raw_range),
        &range_of(method.display_range),
        &[method.short.into()],
    ]
    .concat()
}

#[unsafe(no_mangle)]
pub unsafe extern "C" fn clumarief_probe_line_parts(
    address: Bytes,
    length: usize,
    answer: &mut [u64; 20],
) {
    let line = unsafe { text(address, length) };
    let said = match line_of(line, true) {
        Ok(Line::Blank) => vec![0],
        Ok(Line::Comment(json)) => vec![1, json.map_or(0, |json| start(line, json) + 1)],
        Ok(Line::Class { display, raw }) => {
            [&[2], &span(line, display)[..], &span(line, raw)].concat()
        }
        Ok(Line::Field {
            declared,
            name,
            raw,
        }) => [
            &[3],
            &span(line, trim(declared))[..],
            &span(line, name),
            &span(line, raw),
        ]
        .concat(),
        Ok(Line::Method { method, raw }) => method_parts(line, &method, raw),
        Err(number) => vec![5, number.into()],
    };
    *answer = [0; 20];
    answer[..said.len()].copy_from_slice(&said);
}

#[unsafe(no_mangle)]
pub unsafe extern "C" fn clumarief_probe_argument(
    address: Bytes,
    length: usize,
    at: usize,
    answer: &mut [u64; 4],
) {
    let text = unsafe { text(address, length) };
    *answer = [0; 4];
    let mut from = at;
    while from < text.len() {
        let comma = text[from..].iter().position(|byte| *byte == b',');
        let end = comma.map_or(text.len(), |comma| from + comma);
        let next = (end + 1).min(text.len());
        let part = trim(&text[from..end]);
        if !part.is_empty() {
            let [start, end] = span(text, part);
            *answer = [1, start, end, next as u64];
            return;
        }
        from = next;
    }
}

#[unsafe(no_mangle)]
pub unsafe extern "C" fn clumarief_probe_class(
    address: Bytes,
    length: usize,
    room: *mut u8,
    room_length: usize,
    at: usize,
    answer: &mut [u64; 2],
) {
    let (name, room) = unsafe { (text(address, length), lent(room, room_length)) };
    *answer = written(&class_descriptor(name), room, at);
}

#[unsafe(no_mangle)]
pub unsafe extern "C" fn clumarief_probe_type_shape(
    address: Bytes,
    length: usize,
    answer: &mut [u64; 5],
) {
    let text = unsafe { text(address, length) };
    let shape = type_shape(trim(text));
    let [start, end] = span(text, shape.text);
    let (kind, letter) = match shape.base {
        Base::Word(letter) => (0, letter),
        Base::Kept => (1, 0),
        Base::Class => (2, 0),
    };
    *answer = [shape.brackets as u64, start, end, kind, letter.into()];
}

#[unsafe(no_mangle)]
pub unsafe extern "C" fn clumarief_probe_signature(
    room: *mut u8,
    room_length: usize,
    at: usize,
    end: usize,
    method: u32,
    answer: &mut [u64; 2],
) {
    let room = unsafe { lent(room, room_length) };
    *answer = match room.get(at..end) {
        Some(text) => {
            let settled = raw_signature(text, method == 1);
            written(&settled, room, at)
        }
        None => [0; 2],
    };
}
