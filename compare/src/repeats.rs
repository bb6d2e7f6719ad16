//! Texts of many parts, as many as go into a length.

/// The parts one after the other, up to the first one that would go beyond the length.
pub fn filled(parts: impl Iterator<Item = String>, length: usize) -> String {
    let mut text = String::new();
    for part in parts {
        if text.len() + part.len() > length {
            break;
        }
        text += &part;
    }
    text
}

/// The part again and again between what stands before and after it.
pub fn repeated([before, part, after]: [&str; 3], length: usize) -> String {
    let room = length.saturating_sub(before.len() + after.len());
    let parts = part.repeat(room / part.len());
    [before, &parts, after].concat()
}

#[cfg(test)]
mod tests {
    use super::*;

    #[test]
    fn parts_are_left_out_that_go_beyond_the_length() {
        let parts = || ["ab", "cd", "e"].map(str::to_owned).into_iter();
        assert_eq!(filled(parts(), 5), "abcde");
        assert_eq!(filled(parts(), 3), "ab");
        assert_eq!(filled(parts(), 0), "");
    }

    #[test]
    fn a_part_is_repeated_up_to_the_length() {
        assert_eq!(repeated(["{", "ab", "}"], 7), "{abab}");
        assert_eq!(repeated(["{", "ab", "}"], 8), "{ababab}");
    }

    #[test]
    fn a_short_text_has_no_part() {
        assert_eq!(repeated(["{", "ab", "}"], 1), "{}");
    }
}
