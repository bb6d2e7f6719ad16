//! The tables of the original, beside those that the plain program's rows and pool stand for.

use crate::original::doors;
use crate::plain::{self, LIMITS, LONGEST, Loaded, Refusal};
use crate::reading;
use crate::tables::{Answer, Method, Range, Tables};
use std::str;

/// The original's message for a number.
fn message(refused: Refusal) -> String {
    let Refusal {
        number,
        place,
        length,
    } = refused;
    let message = match number {
        2 if length == 0 => {
            return format!(
                "mapping is not UTF-8: incomplete utf-8 byte sequence from index {place}"
            );
        }
        2 => {
            return format!(
                "mapping is not UTF-8: invalid utf-8 sequence of {length} bytes from index {place}"
            );
        }
        3 => "invalid class mapping",
        4 => "member mapping has no class",
        5 => "invalid member mapping",
        6 => "invalid method mapping",
        7 => "invalid field mapping",
        8 => "mapping contains no classes",
        _ => "no such error of the original",
    };
    message.to_owned()
}

/// The plain program's answer, as the original would give it.
pub fn plain_tables(text: &[u8], marks: bool) -> Answer {
    let load = plain::read(text, marks).and_then(|mapping| mapping.fit(LIMITS));
    match load {
        Ok(loaded) => rebuilt(&loaded).ok_or((0, "rows that name no text".to_owned())),
        // the original's errors about characters have no line
        Err(refused) if refused.number == 2 => Err((0, message(refused))),
        Err(refused) => Err((refused.place, message(refused))),
    }
}

/// The text at a place of the pool.
fn text_at(loaded: &Loaded, row: &[u32], at: usize) -> Option<String> {
    let start = row[at] as usize;
    let text = loaded.pool.get(start..start + row[at + 1] as usize)?;
    str::from_utf8(text).ok().map(str::to_owned)
}

/// "The last class row with a given raw (or display) descriptor answers. Member rows of class lines with the same raw
/// descriptor belong together", and of fields the last matching one answers.
fn rebuilt(loaded: &Loaded) -> Option<Tables> {
    let mut tables = Tables::default();
    let mut raws = Vec::new();
    for row in &loaded.classes {
        let (raw, display) = (text_at(loaded, row, 0)?, text_at(loaded, row, 2)?);
        let class = tables.classes_by_raw.entry(raw.clone()).or_default();
        class.display.clone_from(&display);
        tables.raw_by_display.insert(display, raw.clone());
        raws.push(raw);
    }
    for row in &loaded.members {
        let class = tables.classes_by_raw.get_mut(raws.get(row[1] as usize)?)?;
        let key = (text_at(loaded, row, 2)?, text_at(loaded, row, 4)?);
        let name = text_at(loaded, row, 6)?;
        if row[0] == 0 {
            if row[8..] != [0; 7] {
                return None;
            }
            class.fields.insert(key, name);
            continue;
        }
        let (raw_range, display_range) = ranges(row)?;
        class.methods.entry(key).or_default().push(Method {
            owner: text_at(loaded, row, 8)?,
            name,
            raw_range,
            display_range,
        });
    }
    Some(tables)
}

fn ranges(row: &[u32; 15]) -> Option<(Range, Range)> {
    let [.., flag, raw, raw_end, display, display_end] = *row;
    let (raw, display) = ((raw, raw_end), (display, display_end));
    match flag {
        0 => ((raw, display) == ((0, 0), (0, 0))).then_some((None, None)),
        1 => (raw == (0, 0)).then_some((None, Some(display))),
        2 => Some((Some(raw), Some(display))),
        _ => None,
    }
}

/// Shorter texts can't need more rows or bytes than the limits.
const SURELY_WITHIN: usize = 4_000;

/// The original's answer; `None` where equality is not claimed, and for `parse_str` of what is not UTF-8.
pub fn original_tables(text: &[u8], marks: bool) -> Option<Answer> {
    if text.len() > LONGEST || text.len() > SURELY_WITHIN && beyond_limits(text, marks) {
        return None;
    }
    if let Ok(text) = str::from_utf8(text)
        && text.lines().any(misread)
    {
        return None;
    }
    doors::tables(text, marks)
}

fn beyond_limits(text: &[u8], marks: bool) -> bool {
    let load = plain::read(text, marks).and_then(|mapping| mapping.fit(LIMITS));
    load.is_err_and(|refused| refused.number >= 9)
}

/// A comment with a number that `serde_json` misreads or that is out of the domain of equality.
fn misread(line: &str) -> bool {
    let Some(brace) = line.find('{').filter(|_| line.contains('#')) else {
        return false;
    };
    reading::judge_comment(line[brace..].trim_end().as_bytes()).is_none()
}
