//! `check`: what became of the lines of a mapping file.

use std::io::Write;

use clumarief::{Fates, Mapping, MOST_TEXT};

use crate::words::{lines, read, refused, visible, Failure, Outcome};

/// Prints the fates, and with `listed` the lines that a reader would want to see.
pub fn check(name: &str, listed: bool, out: &mut Vec<u8>) -> Outcome {
    let text = read(name, MOST_TEXT)?;
    let mapping = Mapping::parse(&text)
        .map_err(|refusal| Failure::Refused(refused(name, &text, &refusal)))?;
    let fates = mapping.fates();
    let facts = [
        ("lines", fates.lines),
        ("blank", fates.blank),
        ("applied", fates.applied),
        ("idle", fates.idle),
        ("class", fates.class),
        ("field", fates.field),
        ("method", fates.method),
        ("short", fates.short),
    ];
    for (what, count) in facts {
        writeln!(out, "{what} {count}")?;
    }
    writeln!(out, "names {}", mapping.names())?;
    if listed {
        list(name, &text, &fates, out)?;
    }
    Ok(())
}

/// What one line is, by a load of a small text that ends with it: a class and a field stand before it.
fn alone(line: &[u8]) -> Option<Fates> {
    let mut text = b"a -> a:\n int a -> a\n".to_vec();
    text.extend(line);
    Mapping::parse_str(&text)
        .ok()
        .map(|mapping| mapping.fates())
}

/// Lists methods that are short, and comments that are idle.
fn list(name: &str, text: &[u8], fates: &Fates, out: &mut Vec<u8>) -> Outcome {
    let (mut short, mut idle, mut has_member) = (0, 0, false);
    for (number, line) in lines(text).enumerate() {
        // A line that is empty ends the small text, and is no line of it.
        let Some(own) = alone(line).filter(|own| own.lines == 3) else {
            continue;
        };
        let comment = own.applied + own.idle == 1;
        let what = if own.short == 1 {
            short += 1;
            "short"
        } else if own.idle == 1 || (own.applied == 1 && !has_member) {
            idle += 1;
            "idle"
        } else {
            ""
        };
        if !comment && own.blank == 0 {
            has_member = own.class == 1;
        }
        if !what.is_empty() {
            writeln!(
                out,
                "{name}:{}: {what}: {}",
                number + 1,
                visible(&String::from_utf8_lossy(line))
            )?;
        }
    }
    // Both are counted by the load itself: a list that says otherwise would hide a line.
    if (short, idle) != (fates.short, fates.idle) {
        return Err(Failure::Refused(format!(
            "{name}: the list has {short} short and {idle} idle lines, the load {} and {}",
            fates.short, fates.idle
        )));
    }
    Ok(())
}
