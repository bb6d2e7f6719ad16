//! Words of the command line.

use std::path::PathBuf;

/// What is asked for.
#[derive(Debug, PartialEq)]
pub struct Asked<const N: usize> {
    /// the numbers that follow the named words
    pub numbers: [u64; N],
    /// a real mapping file
    pub real: Option<PathBuf>,
    /// words that stand alone
    pub alone: Vec<String>,
}

/// The numbers that follow the named words, or `numbers` for those not named; the file after `--real`; and those of the
/// words that may stand alone. `None` where something else is said.
pub fn asked<const N: usize>(
    mut words: impl Iterator<Item = String>,
    names: [&str; N],
    numbers: [u64; N],
    alone: &[&str],
) -> Option<Asked<N>> {
    let mut asked = Asked {
        numbers,
        real: None,
        alone: Vec::new(),
    };
    while let Some(word) = words.next() {
        if let Some(place) = names.iter().position(|name| *name == word) {
            asked.numbers[place] = words.next()?.parse().ok()?;
        } else if word == "--real" {
            asked.real = Some(words.next()?.into());
        } else if alone.contains(&word.as_str()) {
            asked.alone.push(word);
        } else {
            return None;
        }
    }
    Some(asked)
}

#[cfg(test)]
mod tests {
    use super::{Asked, asked};

    fn read(words: &str) -> Option<Asked<2>> {
        let words = words.split_whitespace().map(str::to_owned);
        asked(words, ["--seed", "--more"], [1, 2], &["--quick", "utf8"])
    }

    fn of(numbers: [u64; 2], real: Option<&str>, alone: &[&str]) -> Option<Asked<2>> {
        Some(Asked {
            numbers,
            real: real.map(Into::into),
            alone: alone.iter().map(|word| (*word).to_owned()).collect(),
        })
    }

    #[test]
    fn what_is_not_said_is_as_usual() {
        assert_eq!(read(""), of([1, 2], None, &[]));
    }

    #[test]
    fn words_stand_in_any_order() {
        let expected = of([7, 9], Some("a.map"), &["utf8", "--quick"]);
        assert_eq!(
            read("utf8 --more 9 --real a.map --quick --seed 7"),
            expected
        );
    }

    #[test]
    fn the_last_number_counts() {
        assert_eq!(read("--seed 3 --seed 4"), of([4, 2], None, &[]));
    }

    #[test]
    fn other_words_are_none() {
        for words in [
            "--seed",
            "--seed x",
            "--seed -1",
            "--real",
            "utf9",
            "--quickly",
            "7",
        ] {
            assert_eq!(read(words), None, "{words}");
        }
    }
}
