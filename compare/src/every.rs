//! Every text over a small set of letters.

use crate::case::Text;
use crate::report::Held;

/// Calls `each` with every text that is `start` and at most `most` of the letters.
pub fn text_after(
    start: &[u8],
    letters: &[&[u8]],
    most: usize,
    each: &mut dyn FnMut(&Text) -> Held,
) -> Held {
    grow(&mut Text(start.to_vec()), letters, most, each)
}

/// Calls `each` with every text of at most `most` of the characters.
pub fn text_of(characters: &str, most: usize, each: &mut dyn FnMut(&Text) -> Held) -> Held {
    let letters: Vec<String> = characters.chars().map(String::from).collect();
    let letters: Vec<&[u8]> = letters.iter().map(String::as_bytes).collect();
    text_after(&[], &letters, most, each)
}

fn grow(
    text: &mut Text,
    letters: &[&[u8]],
    most: usize,
    each: &mut dyn FnMut(&Text) -> Held,
) -> Held {
    each(text)?;
    if most > 0 {
        let length = text.0.len();
        for letter in letters {
            text.0.extend_from_slice(letter);
            grow(text, letters, most - 1, each)?;
            text.0.truncate(length);
        }
    }
    Ok(())
}
