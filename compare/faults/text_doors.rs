//! The C functions of text_probes and number_probes, answered by the plain program.

use super::characters::{
    around_last_white, at_first_white, first_character, first_sequence, first_white, is_white,
    lines, not_utf8, trim, trim_end, trim_start, without_marks,
};
use super::lines::{leading_range, number, trailing_range};
use super::slices::{Bytes, place_or_0, span, start, text};

#[unsafe(no_mangle)]
pub unsafe extern "C" fn clumarief_probe_sequence(
    address: Bytes,
    length: usize,
    at: usize,
    answer: &mut [u64; 3],
) {
    let text = unsafe { text(address, length) };
    let rest = text.get(at..).unwrap_or_default();
    *answer = match first_character(rest) {
        Some((code, length)) => [1, u64::from(code), length as u64],
        None if rest.is_empty() => [0; 3],
        None => [
            2,
            0,
            first_sequence(rest).unwrap_or_else(|length| length) as u64,
        ],
    };
}

#[unsafe(no_mangle)]
pub unsafe extern "C" fn clumarief_probe_check(
    address: Bytes,
    length: usize,
    answer: &mut [u64; 3],
) {
    let text = unsafe { text(address, length) };
    *answer = match not_utf8(text) {
        Some((place, length)) => [1, place as u64, length as u64],
        None => [0; 3],
    };
}

#[unsafe(no_mangle)]
pub extern "C" fn clumarief_probe_white(code: u32) -> u32 {
    u32::from(is_white(code))
}

#[unsafe(no_mangle)]
pub unsafe extern "C" fn clumarief_probe_trim(
    address: Bytes,
    length: usize,
    answer: &mut [u64; 8],
) {
    let text = unsafe { text(address, length) };
    let [inner, inner_end] = span(text, trim(text));
    let first = at_first_white(text).map(|(before, _)| before.len());
    let last = around_last_white(text).map(|(before, _)| before.len());
    *answer = [
        start(text, trim_start(text)),
        trim_end(text).len() as u64,
        inner,
        inner_end,
        start(text, without_marks(text)),
        u64::from(first_white(text).is_some()),
        place_or_0(first),
        place_or_0(last),
    ];
}

#[unsafe(no_mangle)]
pub unsafe extern "C" fn clumarief_probe_line(
    address: Bytes,
    length: usize,
    at: usize,
    answer: &mut [u64; 4],
) {
    let text = unsafe { text(address, length) };
    let lines = lines(text.get(at..).unwrap_or_default());
    *answer = match lines[..] {
        [] => [0; 4],
        [only] => [1, at as u64, span(text, only)[1], length as u64],
        [first, second, ..] => [1, at as u64, span(text, first)[1], start(text, second)],
    };
}

#[unsafe(no_mangle)]
pub unsafe extern "C" fn clumarief_probe_bytes(
    address: Bytes,
    length: usize,
    first: u8,
    second: u8,
    answer: &mut [u64; 3],
) {
    let text = unsafe { text(address, length) };
    let pair = text.windows(2).position(|pair| pair == [first, second]);
    *answer = [
        place_or_0(text.iter().position(|byte| *byte == first)),
        place_or_0(text.iter().rposition(|byte| *byte == first)),
        place_or_0(pair),
    ];
}

#[unsafe(no_mangle)]
pub unsafe extern "C" fn clumarief_probe_same(
    left: Bytes,
    left_length: usize,
    right: Bytes,
    right_length: usize,
) -> u32 {
    let (left, right) = unsafe { (text(left, left_length), text(right, right_length)) };
    u32::from(left == right)
}

#[unsafe(no_mangle)]
pub unsafe extern "C" fn clumarief_probe_number(
    address: Bytes,
    length: usize,
    answer: &mut [u64; 2],
) {
    let number = number(unsafe { text(address, length) });
    *answer = number.map_or([0; 2], |number| [1, u64::from(number)]);
}

#[unsafe(no_mangle)]
pub unsafe extern "C" fn clumarief_probe_leading(
    address: Bytes,
    length: usize,
    answer: &mut [u64; 4],
) {
    let text = unsafe { text(address, length) };
    *answer = match leading_range(text) {
        (Some((from, to)), rest) => [1, from.into(), to.into(), start(text, rest)],
        (None, _) => [0; 4],
    };
}

#[unsafe(no_mangle)]
pub unsafe extern "C" fn clumarief_probe_trailing(
    address: Bytes,
    length: usize,
    answer: &mut [u64; 4],
) {
    let text = unsafe { text(address, length) };
    *answer = match trailing_range(text) {
        (Some((from, to)), short) => [1, from.into(), to.into(), short.into()],
        (None, _) => [0; 4],
    };
}
