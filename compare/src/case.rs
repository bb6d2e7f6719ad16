//! What a function is asked about, and how a case is made simpler while a disagreement stays.

use std::fmt::Write;
use std::iter;

pub trait Case: Clone {
    /// Cases simpler than this one, those that leave out most first. No chain of them goes on for ever.
    fn simpler(&self) -> Box<dyn Iterator<Item = Self> + '_>;

    fn show(&self) -> String;
}

/// A text alone.
#[derive(Clone, Default)]
pub struct Text(pub Vec<u8>);

/// A place in a text, or beyond it.
#[derive(Clone, Default)]
pub struct Place {
    pub text: Vec<u8>,
    pub at: usize,
}

/// A text and the two bytes looked for.
#[derive(Clone, Default)]
pub struct Search {
    pub text: Vec<u8>,
    pub first: u8,
    pub second: u8,
}

/// Two texts.
#[derive(Clone, Default)]
pub struct Two {
    pub left: Vec<u8>,
    pub right: Vec<u8>,
}

/// A number that may be a code point.
#[derive(Clone, Default)]
pub struct Code(pub u32);

impl Case for Text {
    fn simpler(&self) -> Box<dyn Iterator<Item = Self> + '_> {
        Box::new(simpler_bytes(&self.0).map(Text))
    }

    fn show(&self) -> String {
        show_bytes("text", &self.0)
    }
}

impl Case for Place {
    fn simpler(&self) -> Box<dyn Iterator<Item = Self> + '_> {
        let texts = simpler_bytes(&self.text).flat_map(|text| {
            // what was left out stood behind the place, or before it
            let moved = self.at.saturating_sub(self.text.len() - text.len());
            [self.at, moved].map(|at| Place {
                text: text.clone(),
                at,
            })
        });
        let places = [0, self.at / 2, self.at.saturating_sub(1)];
        let places = places.into_iter().filter(|at| *at < self.at);
        Box::new(texts.chain(places.map(|at| Place {
            text: self.text.clone(),
            at,
        })))
    }

    fn show(&self) -> String {
        format!("{}  place: {}\n", show_bytes("text", &self.text), self.at)
    }
}

impl Case for Search {
    fn simpler(&self) -> Box<dyn Iterator<Item = Self> + '_> {
        Box::new(simpler_bytes(&self.text).map(|text| Search { text, ..*self }))
    }

    fn show(&self) -> String {
        let text = show_bytes("text", &self.text);
        format!(
            "{text}  bytes looked for: {:02X} {:02X}\n",
            self.first, self.second
        )
    }
}

impl Case for Two {
    fn simpler(&self) -> Box<dyn Iterator<Item = Self> + '_> {
        let (left, right) = (&self.left, &self.right);
        let both = simpler_bytes(left).zip(simpler_bytes(right));
        let both = both.map(|(left, right)| Two { left, right });
        let lefts = simpler_bytes(left).map(|left| Two {
            left,
            right: right.clone(),
        });
        let rights = simpler_bytes(right).map(|right| Two {
            left: left.clone(),
            right,
        });
        Box::new(both.chain(lefts).chain(rights))
    }

    fn show(&self) -> String {
        show_bytes("left", &self.left) + &show_bytes("right", &self.right)
    }
}

impl Case for Code {
    fn simpler(&self) -> Box<dyn Iterator<Item = Self> + '_> {
        let fewer_bits = (0..32).map(|bit| self.0 & !(1 << bit));
        Box::new(fewer_bits.filter(|code| *code < self.0).map(Code))
    }

    fn show(&self) -> String {
        format!("  code: {:X} (hex)\n", self.0)
    }
}

/// Bytes that say least, the plainest first.
const PLAIN: &[u8] = b"a0 ";

fn plainness(byte: u8) -> usize {
    let place = PLAIN.iter().position(|plain| *plain == byte);
    place.unwrap_or(PLAIN.len())
}

/// A character has up to four bytes. Parts up to that width are tried at every place, wider ones side by side.
const CHARACTER: usize = 4;

fn widths(length: usize) -> impl Iterator<Item = usize> {
    let wide = iter::successors(Some(length), |width| Some(width / 2));
    let wide = wide.take_while(|width| *width > CHARACTER);
    wide.chain((1..=CHARACTER.min(length)).rev())
}

/// What may stand in place of a part: nothing, or plain bytes, fewer than there were or plainer ones.
fn plainer(part: &[u8]) -> Vec<Vec<u8>> {
    let mut plainer = vec![Vec::new()];
    if part.len() > CHARACTER {
        return plainer;
    }
    let weight = |part: &[u8]| -> usize { part.iter().map(|byte| plainness(*byte)).sum() };
    for byte in PLAIN {
        for length in [1, part.len()] {
            let with = vec![*byte; length];
            if length < part.len() || weight(&with) < weight(part) {
                plainer.push(with);
            }
        }
    }
    plainer
}

/// The text with a part of it left out or made plainer.
pub fn simpler_bytes(text: &[u8]) -> impl Iterator<Item = Vec<u8>> + '_ {
    let parts = widths(text.len()).flat_map(move |width| {
        let step = if width > CHARACTER { width } else { 1 };
        let starts = (0..=text.len() - width).step_by(step);
        starts.map(move |start| (start, width))
    });
    parts.flat_map(move |(start, width)| {
        let (before, rest) = text.split_at(start);
        let (part, after) = rest.split_at(width);
        let with = plainer(part).into_iter();
        with.map(move |with| [before, &with, after].concat())
    })
}

/// A report stays readable where a text is long: the seed gives the whole of it again.
const SHOWN: usize = 200;

pub fn show_bytes(name: &str, text: &[u8]) -> String {
    let shown = &text[..text.len().min(SHOWN)];
    let mut hex = format!("  {name} of length {}:", text.len());
    for byte in shown {
        let _ = write!(hex, " {byte:02X}");
    }
    if shown.len() < text.len() {
        hex.push_str(" and so on");
    }
    match std::str::from_utf8(shown) {
        Ok(letters) => format!("{hex}\n  {name} as characters: {letters:?}\n"),
        Err(_) => hex + "\n",
    }
}
