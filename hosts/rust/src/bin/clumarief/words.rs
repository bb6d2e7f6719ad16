//! What goes wrong, in words, and files that are read.

use std::fmt::{self, Display, Formatter};
use std::fs::File;
use std::io::{self, Read};

use clumarief::{Mapping, Refusal, MOST_TEXT, MOST_TREE};

/// Why a command did not do what was asked.
pub enum Failure {
    /// Its words do not fit.
    Usage(String),
    /// A file can't be read or written.
    Io(String, io::Error),
    /// A file is refused: what is said of it, on lines of its own.
    Refused(String),
}

/// What a command comes to; it prints what it has found.
pub type Outcome = Result<(), Failure>;

impl Failure {
    /// The exit status.
    pub fn status(&self) -> u8 {
        match self {
            Failure::Refused(_) => 1,
            Failure::Usage(_) | Failure::Io(..) => 2,
        }
    }
}

impl Display for Failure {
    fn fmt(&self, out: &mut Formatter<'_>) -> fmt::Result {
        match self {
            Failure::Usage(what) => writeln!(
                out,
                "clumarief: {what}\nclumarief: `clumarief --help` says what there is"
            ),
            Failure::Io(name, error) => writeln!(out, "clumarief: {name}: {error}"),
            Failure::Refused(what) => writeln!(out, "{what}"),
        }
    }
}

impl From<io::Error> for Failure {
    fn from(error: io::Error) -> Self {
        Failure::Io("output".into(), error)
    }
}

/// Reads a file, or standard input for `-`, up to one byte more than is of use: a longer one is refused as one of that length is.
pub fn read(name: &str, most: usize) -> Result<Vec<u8>, Failure> {
    let mut bytes = Vec::new();
    let limit = most as u64 + 1;
    let done = if name == "-" {
        io::stdin().lock().take(limit).read_to_end(&mut bytes)
    } else {
        File::open(name).and_then(|file| file.take(limit).read_to_end(&mut bytes))
    };
    done.map_err(|error| Failure::Io(name.into(), error))?;
    Ok(bytes)
}

/// Reads and loads a mapping file.
pub fn load(name: &str) -> Result<Mapping, Failure> {
    let text = read(name, MOST_TEXT)?;
    Mapping::parse(&text).map_err(|refusal| Failure::Refused(refused(name, &text, &refusal)))
}

/// Reads a tree file.
pub fn read_tree(name: &str) -> Result<Vec<u8>, Failure> {
    read(name, MOST_TREE)
}

/// A refusal of a mapping file as compilers say it: file, line and column where it has them, and the line itself.
pub fn refused(name: &str, text: &[u8], refusal: &Refusal) -> String {
    let reason = format!("refused {}: {}", refusal.number(), refusal.words());
    if let Some(line) = refusal.line() {
        let shown = lines(text)
            .nth(line as usize - 1)
            .map(|bytes| visible(&String::from_utf8_lossy(bytes)));
        return format!("{name}:{line}: {reason}\n    {}", shown.unwrap_or_default());
    }
    let Some(byte) = refusal.byte() else {
        return format!("{name}: {reason}");
    };
    let good = &text[..byte as usize];
    let line = good.iter().filter(|&&byte| byte == b'\n').count() + 1;
    let start = good
        .iter()
        .rposition(|&byte| byte == b'\n')
        .map_or(0, |place| place + 1);
    let before = String::from_utf8_lossy(&good[start..]);
    let length = match refusal.length() {
        0 => "the text ends in a sequence".to_string(),
        1 => "1 bad byte".to_string(),
        length => format!("{length} bad bytes"),
    };
    let column = before.chars().count() + 1;
    format!(
        "{name}:{line}:{column}: {reason}, {length}\n    {}<{:02X}>",
        visible(&before),
        text[byte as usize]
    )
}

/// The lines of a text as a load counts them, without the marks that it begins with.
pub fn lines(text: &[u8]) -> impl Iterator<Item = &[u8]> {
    let mut text = text;
    while let Some(rest) = text.strip_prefix("\u{FEFF}".as_bytes()) {
        text = rest;
    }
    let ended = text.strip_suffix(b"\n").unwrap_or(text);
    let none = text.is_empty();
    ended
        .split(|&byte| byte == b'\n')
        .filter(move |_| !none)
        .map(|line| {
            let end = line
                .iter()
                .rposition(|&byte| byte != b'\r')
                .map_or(0, |place| place + 1);
            &line[..end]
        })
}

/// A text with its control characters made visible, and no more of it than a reader looks at.
pub fn visible(text: &str) -> String {
    const MOST: usize = 200;
    let mut shown: String = text
        .chars()
        .take(MOST)
        .flat_map(|c| {
            if c.is_control() {
                c.escape_default().collect()
            } else {
                vec![c]
            }
        })
        .collect();
    if text.chars().nth(MOST).is_some() {
        shown.push_str("..");
    }
    shown
}

/// A class as people write it: `a.Main`, `a/Main` or `La/Main;`, as its descriptor.
pub fn descriptor(name: &str) -> String {
    if name.starts_with('L') && name.ends_with(';') {
        return name.into();
    }
    format!("L{};", name.replace('.', "/"))
}
