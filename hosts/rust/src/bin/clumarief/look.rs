//! `class` and `line`: what a mapping says of a class, its members and their lines.

use std::io::Write;

use clumarief::{Mapping, Member, MemberKind, Range};

use crate::words::{descriptor, load, Failure, Outcome};

/// Prints a class both ways, and with `members` those of all class lines with its raw descriptor.
pub fn class(file: &str, name: &str, members: bool, out: &mut Vec<u8>) -> Outcome {
    let mapping = load(file)?;
    let wanted = descriptor(name);
    let as_raw = mapping
        .display_class_name(&wanted)
        .map(|display| (wanted.as_str(), display));
    let as_display = mapping
        .raw_class_name(&wanted)
        .map(|raw| (raw, wanted.as_str()));
    if as_raw.is_none() && as_display.is_none() {
        return Err(unknown(file, &wanted));
    }
    let mut told = Vec::new();
    for (raw, display) in as_raw.into_iter().chain(as_display) {
        if told.contains(&(raw, display)) {
            continue;
        }
        told.push((raw, display));
        writeln!(out, "class raw {raw} display {display}")?;
        if members {
            for member in members_of(&mapping, raw) {
                writeln!(out, "{}", told_member(&member))?;
            }
        }
    }
    Ok(())
}

/// Prints the display line of a raw line, and the row that answers.
pub fn line(file: &str, class: &str, method: &str, line: &str, out: &mut Vec<u8>) -> Outcome {
    let number: u32 = line
        .parse()
        .map_err(|_| Failure::Usage(format!("`{line}` is no line number")))?;
    let mapping = load(file)?;
    let owner = descriptor(class);
    if mapping.display_class_name(&owner).is_none() {
        return Err(unknown(file, &owner));
    }
    let split = method.find('(').unwrap_or(method.len());
    let (name, wanted) = method.split_at(split);
    let mut kinds: Vec<&str> = members_of(&mapping, &owner)
        .filter(|member| {
            matches!(member.kind, MemberKind::Method { .. }) && member.raw_name == name
        })
        .map(|member| member.descriptor)
        .filter(|own| wanted.is_empty() || *own == wanted)
        .collect();
    kinds.sort_unstable();
    kinds.dedup();
    if kinds.is_empty() {
        return Err(Failure::Refused(format!(
            "{file}: no method {method} in {owner}"
        )));
    }
    let mut found = false;
    for kind in kinds {
        let Some(shown) = mapping.display_line(&owner, name, kind, number) else {
            continue;
        };
        found = true;
        writeln!(
            out,
            "line {number} shown {} by row {}",
            shown.line, shown.row
        )?;
        if let Some(member) = mapping.member(shown.row) {
            writeln!(out, "{}", told_member(&member))?;
        }
    }
    if found {
        return Ok(());
    }
    Err(Failure::Refused(format!(
        "{file}: no row of {method} in {owner} holds line {number}"
    )))
}

fn unknown(file: &str, class: &str) -> Failure {
    Failure::Refused(format!("{file}: no class {class}, raw or display"))
}

fn members_of<'a>(mapping: &'a Mapping, raw: &'a str) -> impl Iterator<Item = Member<'a>> {
    mapping.members().filter(move |member| {
        mapping
            .class(member.class)
            .is_some_and(|class| class.raw == raw)
    })
}

/// A member in one line: what it is, raw, display, and of a method its owner and its ranges.
fn told_member(member: &Member<'_>) -> String {
    let texts = format!(
        "raw {} {} display {}",
        member.raw_name, member.descriptor, member.name
    );
    match member.kind {
        MemberKind::Field => format!("field row {} {texts}", member.row),
        MemberKind::Method {
            owner,
            raw_lines,
            display_lines,
        } => {
            let lines = told_range(" lines", raw_lines) + &told_range(" shown", display_lines);
            format!("method row {} {texts} owner {owner}{lines}", member.row)
        }
    }
}

fn told_range(label: &str, range: Option<Range>) -> String {
    range
        .map(|range| format!("{label} {}:{}", range.start, range.end))
        .unwrap_or_default()
}
