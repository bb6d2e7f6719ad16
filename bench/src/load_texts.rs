//! Texts made to be slow to load.

use crate::hostile::Hostile;
use clumarief_compare::comment_parts::residual_comment;

/// So many class lines, each with a name of its own.
fn classes(count: usize) -> String {
    let line = |at: usize| format!("a.b.C{at} -> c{at}:\n");
    (0..count).map(line).collect()
}

const CLASS: &str = "a -> b:\n";
const MEMBER: &str = "a -> b:\n int n -> c\n";

/// A member, and comments of four kinds that R8 writes, none of which is a residual signature.
const FOUR_KINDS: &str = r#" int n -> c
      # {"id":"com.android.tools.r8.synthesized"}
      # {"id":"com.android.tools.r8.rewriteFrame","conditions":["throws(La/b;)"],"actions":["removeInnerFrames(1)"]}
      # {"id":"com.android.tools.r8.outlineCallsite","positions":{"1":10,"2":11},"outline":"La/b;c()V"}
      # {"id":"com.android.tools.r8.outline"}
"#;

/// A member, and comments of one kind.
const ONE_KIND: &str = r#" int n -> c
      # {"id":"com.android.tools.r8.synthesized"}
      # {"id":"com.android.tools.r8.synthesized"}
      # {"id":"com.android.tools.r8.synthesized"}
      # {"id":"com.android.tools.r8.synthesized"}
"#;

/// A line of so many equal characters.
fn line_of(character: char, count: usize) -> String {
    character.to_string().repeat(count) + "\n"
}

/// Texts of lines that say nothing and of comments that change nothing, by their names.
pub fn idle_lines() -> [(&'static str, Hostile); 10] {
    let [spaces, wide] = [' ', '\u{3000}'].map(|white| line_of(white, 100));
    [
        ("JSON comments, four kinds", CLASS, FOUR_KINDS),
        ("JSON comments, one kind", CLASS, ONE_KIND),
        ("blank after a class", CLASS, "\n"),
        ("blank after a member", MEMBER, "\n"),
        ("CRLF alone", MEMBER, "\r\n"),
        ("1 space a line", MEMBER, " \n"),
        ("100 spaces a line", MEMBER, &spaces),
        ("1 U+3000 a line", MEMBER, "\u{3000}\n"),
        ("100 U+3000 a line", MEMBER, &wide),
        ("# alone", MEMBER, "#\n"),
    ]
    .map(|(name, before, part)| (name, Hostile::new(name, before, part, "")))
}

/// Comments, long parts of a line, and members that name types or classes, all after a class.
pub fn hostile_lines() -> Vec<Hostile> {
    let residual = residual_comment("(La/b;)V") + "\n";
    let parts = [
        ("comments", "", "# {}\n", ""),
        ("residual comments", "", &residual, ""),
        ("one comment", "# {\"id\":\"", "a", "\"}"),
        ("arguments", " a b(", "a,", ") -> c"),
        ("fields", "", " java.lang.String name_of_a_field -> c\n", ""),
        ("methods", "", " 1:9:void run(int,long,a):10:19 -> d\n", ""),
        ("type of L", " ", "L", " n -> c"),
        ("type of pieces", " ", "La;", " n -> c"),
        ("type of semicolons", " ", ";", " n -> c"),
        ("type of brackets", " ", "[]", " n -> c"),
    ];
    let after_member = |(name, before, part, after): (&str, &str, &str, &str)| {
        Hostile::new(name, &format!("{MEMBER}{before}"), part, after)
    };
    let mut texts: Vec<Hostile> = parts.map(after_member).into();
    // as many as a text of 64 KiB can begin with, and as many as there may be
    for (name, count) in [
        ("methods, 1,000 classes", 1_000),
        ("methods, 4,000 classes", 4_000),
    ] {
        let method = " a.b.C0 f(a.b.C1,a.b.C999,a.b.D) -> d\n";
        texts.push(Hostile::new(name, &classes(count), method, ""));
    }
    texts
}

#[cfg(test)]
mod tests {
    use super::*;
    use clumarief_compare::plain::{self, Fates, LIMITS, LONGEST};

    fn fates(text: &str) -> Fates {
        let read = plain::read(text.as_bytes(), true);
        let loaded = read.and_then(|read| read.fit(LIMITS));
        loaded.expect("it loads").fates
    }

    #[test]
    fn idle_lines_change_nothing() {
        for (name, text) in idle_lines() {
            let text = text.text(LONGEST);
            let fates = fates(&text);
            assert!(
                text.len() <= LONGEST && text.len() + 400 > LONGEST,
                "{name}"
            );
            assert_eq!((fates.class, fates.applied), (1, 0), "{name}");
            assert!(
                fates.blank + fates.idle >= 3 * (fates.field + fates.method),
                "{name}"
            );
        }
    }
}
