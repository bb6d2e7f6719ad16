//! A mapping file in other forms: with the comments of R8, with long comments, with other line ends.

use crate::comment_parts::residual_comment;
use crate::plain::{self, LIMITS, LONGEST, Loaded, MemberRow};
use crate::repeats::{filled, repeated};

/// A class line or a member line.
struct Line<'a> {
    text: &'a str,
    /// the raw signature of a member
    signature: Option<String>,
}

/// A member's raw descriptor, out of the pool.
fn signature(loaded: &Loaded, row: &MemberRow) -> String {
    let start = row[4] as usize;
    let bytes = &loaded.pool[start..start + row[5] as usize];
    String::from_utf8_lossy(bytes).into_owned()
}

/// Neither blank nor a comment.
fn names(line: &str) -> bool {
    let line = line.trim();
    !line.is_empty() && !line.starts_with('#')
}

/// The class lines and member lines of a mapping; none where it is refused.
fn lines(mapping: &str) -> Vec<Line<'_>> {
    let read = plain::read(mapping.as_bytes(), true);
    let Ok(loaded) = read.and_then(|read| read.fit(LIMITS)) else {
        return Vec::new();
    };
    let mut signatures = loaded.members.iter().map(|row| signature(&loaded, row));
    let texts = mapping.trim_start_matches('\u{FEFF}').lines();
    let mut lines = Vec::new();
    for text in texts.filter(|text| names(text)) {
        let member = text.starts_with(char::is_whitespace);
        let signature = if member { signatures.next() } else { None };
        lines.push(Line { text, signature });
    }
    lines
}

impl Line<'_> {
    /// The comment that names the source file of a class.
    fn source_file(&self) -> String {
        let display = self.text.split("->").next().unwrap_or_default().trim();
        let name = display.rsplit('.').next().unwrap_or_default();
        // a class within another one stands in the file of that
        let file = name.split('$').next().unwrap_or_default();
        format!("# {{\"id\":\"sourceFile\",\"fileName\":\"{file}.java\"}}")
    }

    /// The line and the comment that R8 writes after it.
    fn as_r8(&self) -> String {
        match &self.signature {
            Some(signature) => format!("{}\n      {}\n", self.text, residual_comment(signature)),
            None => format!("{}\n{}\n", self.text, self.source_file()),
        }
    }

    /// A class line alone, or a member line and a residual comment of so many bytes.
    fn with_comment(&self, length: usize) -> String {
        let Some(signature) = &self.signature else {
            return format!("{}\n", self.text);
        };
        let room = length.saturating_sub(residual_comment("").len());
        let long = if signature.starts_with('(') {
            repeated(["(", "La/b/c;", ")V"], room)
        } else {
            repeated(["L", "a/b/c/", "d;"], room)
        };
        format!("{}\n{}\n", self.text, residual_comment(&long))
    }
}

/// The mapping as R8 writes it: the source file after each class, and the residual signature after each member.
pub fn as_r8(mapping: &str) -> String {
    filled(lines(mapping).iter().map(Line::as_r8), LONGEST)
}

/// The mapping's lines again and again up to the length, with a residual comment of 16 KB after each member.
pub fn long_comments(mapping: &str, length: usize) -> String {
    let lines = lines(mapping);
    let lines = lines.iter().cycle();
    filled(lines.map(|line| line.with_comment(16_384)), length)
}

fn with_crlf(line: &str) -> String {
    format!("{line}\r\n")
}

/// The mapping with other line ends.
pub fn crlf(mapping: &str) -> String {
    filled(mapping.lines().map(with_crlf), LONGEST)
}

/// The same, again and again up to the length.
pub fn crlf_again(mapping: &str, length: usize) -> String {
    filled(mapping.lines().cycle().map(with_crlf), length)
}

#[cfg(test)]
mod tests {
    use super::*;

    const MAPPING: &str = "# a comment of its own
a.Main$Inner -> x:
    int n -> b

    1:9:a.Main$Inner run(int[],b.Other):10:18 -> c
b.Other -> y:
";

    const R8: &str = r#"a.Main$Inner -> x:
# {"id":"sourceFile","fileName":"Main.java"}
    int n -> b
      # {"id":"com.android.tools.r8.residualsignature","signature":"I"}
    1:9:a.Main$Inner run(int[],b.Other):10:18 -> c
      # {"id":"com.android.tools.r8.residualsignature","signature":"([ILy;)Lx;"}
b.Other -> y:
# {"id":"sourceFile","fileName":"Other.java"}
"#;

    fn load(text: &str) -> Loaded {
        let read = plain::read(text.as_bytes(), true);
        read.and_then(|read| read.fit(LIMITS)).expect("it loads")
    }

    #[test]
    fn r8_writes_a_comment_after_each_line() {
        assert_eq!(as_r8(MAPPING), R8);
    }

    #[test]
    fn residual_signatures_are_those_that_the_types_give() {
        let (plain, r8) = (load(MAPPING), load(R8));
        assert_eq!(r8.fates.applied, 2);
        assert_eq!(
            (plain.classes, plain.members, plain.pool),
            (r8.classes, r8.members, r8.pool)
        );
    }

    #[test]
    fn nothing_is_made_of_what_is_refused() {
        assert_eq!(as_r8("a\n"), "");
        assert_eq!(long_comments("a\n", LONGEST), "");
    }

    #[test]
    fn long_comments_have_16_kb() {
        let text = long_comments(MAPPING, LONGEST);
        let loaded = load(&text);
        assert!(LONGEST - 17_000 < text.len() && text.len() <= LONGEST);
        assert_eq!((loaded.members.len(), loaded.fates.applied), (63, 63));
        let comments = text.lines().filter(|line| line.starts_with('#'));
        for comment in comments {
            assert!((16_378..=16_384).contains(&comment.len()), "{comment}");
        }
    }

    #[test]
    fn every_line_ends_with_crlf() {
        assert_eq!(
            crlf("a -> b:\n\n int n -> c"),
            "a -> b:\r\n\r\n int n -> c\r\n"
        );
        assert_eq!(crlf_again("a -> b:\n", 29), "a -> b:\r\n".repeat(3));
        assert_eq!(load(&crlf(MAPPING)).pool, load(MAPPING).pool);
    }
}
