//! Comments, lines, arguments, types and signatures made to be slow to read.

use crate::hostile::{self, Hostile};
use clumarief_compare::proved;

fn rows(parts: &[(&str, &str, &str, &str)]) -> Vec<Hostile> {
    let row = |(name, before, part, after): &(&str, &str, &str, &str)| {
        Hostile::new(name, before, part, after)
    };
    parts.iter().map(row).collect()
}

fn hostile_comments() -> Vec<Hostile> {
    let deep = format!("{}{},", "[".repeat(125), "]".repeat(125));
    rows(&[
        ("one string", "{\"id\":\"", "a", "\"}"),
        ("string without end", "{\"id\":\"", "a", ""),
        ("one name", "{\"", "a", "\":1}"),
        ("\\u escapes", "{\"id\":\"", "\\u0061", "\"}"),
        ("surrogate pairs", "{\"id\":\"", "\\ud834\\udd1e", "\"}"),
        ("reverse solidi", "{\"id\":\"", "\\\\", "\"}"),
        ("members id", "{", "\"id\":0,", "\"id\":0}"),
        (
            "members signature",
            "{",
            "\"signature\":\"a\",",
            "\"id\":0}",
        ),
        ("strings", "{\"id\":[", "\"a\",", "0]}"),
        ("opened arrays", "{\"id\":", "[", "}"),
        ("opened objects", "{\"id\":", "{\"a\":", "}"),
        ("127 levels", "{\"id\":[", &deep, "0]}"),
        ("one number", "{\"id\":", "1", "}"),
        ("one fraction", "{\"id\":0.", "1", "}"),
        ("white space", "{", " ", "}"),
        ("only white space", "{", " ", ""),
    ])
}

/// What lines of one part are made of.
const LINE_PARTS: [(&str, &str); 10] = [
    ("(", "("),
    (")", ")"),
    (":", ":"),
    ("[]", "[]"),
    (",", ","),
    ("->", "->"),
    ("-", "-"),
    ("U+3000", "\u{3000}"),
    (".", "."),
    ("1", "1"),
];

/// Lines of one part, as a class line and as a member line, and parts at the edges of what is looked for.
fn hostile_lines() -> Vec<Hostile> {
    let alone = [("", ""), (" ", " as a member")];
    let alone = alone.into_iter().flat_map(|(before, kind)| {
        let row = move |(name, part): (&str, &str)| {
            Hostile::new(&format!("{name}{kind}"), before, part, "")
        };
        LINE_PARTS.map(row)
    });
    let framed = rows(&[
        ("class of names", "", "a.", "->b:"),
        ("class without colon", "", "a", "->b"),
        ("U+3000 in a class", "a", "\u{3000}", "->b:"),
        ("U+3000 in a field", " a", "\u{3000}", "b->c"),
        ("U+3000 in a method", " a", "\u{3000}", "b()->c"),
        ("field of names", " a ", "a", "->b"),
        ("method of dots", " a ", ".", "()->b"),
        ("method of (", " a ", "(", ")->b"),
        ("method of )", " a (", ")", "->b"),
        ("method of commas", " a b(", ",", ")->b"),
        ("leading number", " ", "1", ":2:a b()->c"),
        ("trailing colons", " a b():1", ":", "->c"),
        ("comment", "#", "a", "{"),
    ]);
    alone.chain(framed).collect()
}

fn hostile_arguments() -> Vec<Hostile> {
    rows(&[
        ("commas", "", ",", ""),
        ("a and commas", "", "a,", ""),
        ("U+3000", "", "\u{3000}", ""),
        ("U+3000 and commas", "", "\u{3000},", ""),
        ("one", "", "a", ""),
    ])
}

fn hostile_types() -> Vec<Hostile> {
    rows(&[
        ("brackets", "", "[]", ""),
        ("open brackets", "", "[", ""),
        ("dots", "", ".", ""),
        ("letters", "", "a", ""),
        ("U+3000", "", "\u{3000}", ""),
    ])
}

fn yes_or_no(number: u64) -> &'static str {
    if number == 1 { "yes" } else { "no" }
}

fn comment_reads(text: &[u8]) -> &'static str {
    yes_or_no(proved::comment(text)[0])
}

fn line_kind(text: &[u8]) -> &'static str {
    let kinds = ["blank", "comment", "class", "field", "method"];
    let kind = proved::line_parts(text)[0] as usize;
    kinds.get(kind).copied().unwrap_or("refused")
}

/// All arguments, one after another.
fn arguments_there(text: &[u8]) -> &'static str {
    let (mut at, mut there) = (0, "none");
    while let [1, _, _, next] = proved::argument(text, at) {
        (at, there) = (next as usize, "some");
    }
    there
}

/// What a type is without its brackets.
fn type_base(text: &[u8]) -> &'static str {
    let bases = ["word", "kept", "class"];
    let [_, _, _, base, _] = proved::type_shape(text);
    bases.get(base as usize).copied().unwrap_or("wrong")
}

/// A raw signature of a field, settled where it stands.
fn signature_settled(text: &[u8]) -> &'static str {
    let mut room = text.to_vec();
    room.extend([0; 2]);
    yes_or_no(proved::signature(&mut room, 0, text.len(), false)[0])
}

/// What is timed; its answer is said beside the times.
type Work = fn(&[u8]) -> &'static str;

fn table(head: &str, said: &str, work: Work, rows: Vec<Hostile>, runs: u64) {
    hostile::print_head(head, said);
    for row in rows {
        hostile::print_row(&row, runs, |text| move || work(&text));
    }
}

pub fn run(runs: u64) {
    let table = |head, said, work: Work, rows| table(head, said, work, rows, runs);
    table(
        "hostile comment",
        "reads",
        comment_reads,
        hostile_comments(),
    );
    table("hostile line", "is", line_kind, hostile_lines());
    table(
        "hostile arguments",
        "there",
        arguments_there,
        hostile_arguments(),
    );
    table("hostile type", "is", type_base, hostile_types());
    table(
        "hostile signature",
        "settled",
        signature_settled,
        hostile_types(),
    );
}
