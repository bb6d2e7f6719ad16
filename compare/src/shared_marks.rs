//! Names that share one mark of the proved index, and mappings whose classes have such names.

/// A number by its bits as letters, between four letters and twelve: a mark goes by these and by the length, so that all names of
/// as many bits have one mark.
pub fn name(number: usize, bits: usize) -> String {
    let letter = |bit: usize| if number >> bit & 1 == 1 { 'b' } else { 'a' };
    let between: String = (0..bits).map(letter).collect();
    format!("Same{between}TwelveLetter")
}

/// Bits for the name of each of 4,096 classes.
const BITS: usize = 12;

/// Whose names share the mark.
#[derive(Clone, Copy, Debug, PartialEq)]
pub enum Side {
    Display,
    Raw,
}

impl Side {
    pub const ALL: [Side; 2] = [Side::Display, Side::Raw];

    /// The display name of a class and its raw name.
    fn names(self, at: usize) -> [String; 2] {
        match self {
            Side::Display => [name(at, BITS), format!("c{at}")],
            // so long that the methods are not too many
            Side::Raw => [format!("a.b.Class{at}"), name(at, BITS)],
        }
    }
}

/// So many classes with such names, and methods that name one after the other, up to the length.
pub fn mapping(side: Side, count: usize, length: usize) -> String {
    let names: Vec<[String; 2]> = (0..count).map(|at| side.names(at)).collect();
    let line = |[display, raw]: &[String; 2]| format!("{display} -> {raw}:\n");
    let mut text: String = names.iter().map(line).collect();
    let mut at = 0;
    let mut next = || {
        // steps of a prime number reach every name
        at = (at + 1_021) % count;
        &names[at][0]
    };
    while text.len() + 128 < length {
        text += &format!(" {} f({},{}) -> d\n", next(), next(), next());
    }
    text
}

#[cfg(test)]
mod tests {
    use super::*;
    use crate::plain::{self, LIMITS, LONGEST, Loaded};
    use std::collections::BTreeSet;

    fn load(text: &str) -> Loaded {
        let read = plain::read(text.as_bytes(), true);
        read.and_then(|read| read.fit(LIMITS)).expect("it loads")
    }

    #[test]
    fn names_differ_where_a_mark_does_not_look() {
        let names: BTreeSet<String> = (0..4_096).map(|at| name(at, BITS)).collect();
        assert_eq!(names.len(), 4_096);
        for name in names {
            assert!(name.starts_with("Same") && name.ends_with("TwelveLetter"));
            assert_eq!(name.len(), 28);
        }
    }

    #[test]
    fn they_stand_in_classes_and_methods() {
        // where the length of the class's descriptor stands in its row
        for (side, at) in [(Side::Display, 3), (Side::Raw, 1)] {
            let loaded = load(&mapping(side, 512, 100_000));
            assert_eq!(loaded.classes.len(), 512);
            assert!(loaded.members.len() > 500);
            // L, 28 bytes, ;
            assert!(loaded.classes.iter().all(|row| row[at] == 30), "{side:?}");
        }
    }

    #[test]
    fn the_longest_ones_load() {
        for (side, count) in Side::ALL
            .into_iter()
            .flat_map(|side| [(side, 512), (side, 4_096)])
        {
            let text = mapping(side, count, LONGEST);
            assert!(text.len() <= LONGEST);
            assert_eq!(load(&text).classes.len(), count, "{side:?}");
        }
    }

    #[test]
    fn methods_name_every_class() {
        let text = mapping(Side::Display, 512, 100_000);
        for at in 0..512 {
            assert!(text.contains(&format!(",{}) -> d", name(at, BITS))), "{at}");
        }
    }
}
