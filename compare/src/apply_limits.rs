//! Applying at the limits: trees and outputs of about 4,194,304 bytes, outputs one byte short, needs beyond 32 bits, and which
//! refusal comes first.

use crate::apply_held::Applying;
use crate::lookup_tables::{self, LentTables};
use crate::plain::applying::LONGEST_TREE;
use crate::report::Held;
use crate::tree_files::TreeFile;
use std::rc::Rc;

/// One class, `Lx;`, whose display descriptor has so many bytes.
fn tables(shown: usize) -> LentTables {
    let pool = [&b"Lx;"[..], &vec![b'a'; shown]].concat();
    LentTables {
        classes: vec![[0, 3, 3, shown as u32]],
        members: Vec::new(),
        used: [1, 0, pool.len() as u32],
        pool,
    }
}

/// So many descriptors `Lx;` in one node, and name bytes up to a length of the file.
fn tree(descriptors: usize, length: usize) -> TreeFile {
    let head = 16 + 8 + 12 * descriptors + 8;
    TreeFile {
        nodes: vec![(u32::MAX, vec![[2, 0, 0]; descriptors])],
        names: vec![[0, 3]],
        bytes: [&b"Lx;"[..], &vec![b'b'; length.saturating_sub(head + 3)]].concat(),
    }
}

/// Outputs of so many bytes and about it.
fn rooms(needed: usize) -> [usize; 5] {
    [
        0,
        needed.saturating_sub(1),
        needed,
        needed + 1,
        LONGEST_TREE + 5_000,
    ]
}

/// Files up to the longest and one byte over it, of which nothing or one name is replaced.
fn longest(held: &mut Applying) -> Held {
    for (shown, descriptors) in [(10, 0), (10, 1), (0, 1)] {
        let lent = Rc::new(tables(shown));
        let appended = descriptors * (8 + shown);
        for needed in [LONGEST_TREE - 1, LONGEST_TREE, LONGEST_TREE + 1] {
            for length in [needed, needed - appended] {
                let file = tree(descriptors, length).written();
                for room in rooms(length + appended) {
                    held.any(Rc::clone(&lent), b"Lx;", &file, room)?;
                }
            }
        }
    }
    Ok(())
}

/// Each replaced name needs 2^22 bytes: 1,024 of them need 2^32, of which 32 bits keep nothing.
fn beyond_32_bits(held: &mut Applying) -> Held {
    let lent = Rc::new(tables((1 << 22) - 8));
    for descriptors in [1, 2, 1_023, 1_024, 1_025] {
        let file = tree(descriptors, 0).written();
        for room in [file.len(), file.len() + (1 << 22), LONGEST_TREE] {
            held.any(Rc::clone(&lent), b"Lx;", &file, room)?;
        }
    }
    Ok(())
}

/// "Apply: 14, 1, 12, 13.": each with those that come after it.
fn order(held: &mut Applying) -> Held {
    let (good, mut bad) = (tables(4), tables(4));
    bad.classes[0][3] = u32::MAX;
    let small = tree(2, 0).written();
    let long = tree(2, LONGEST_TREE + 1).written();
    let [mut malformed, mut long_malformed] = [small.clone(), long.clone()];
    for file in [&mut malformed, &mut long_malformed] {
        // row 0's parent
        file[16] = 0;
    }
    for lent in [good, bad].map(Rc::new) {
        for file in [&small, &long, &malformed, &long_malformed, &Vec::new()] {
            for room in [0, small.len(), small.len() + 23, small.len() + 24, 1_000] {
                held.any(Rc::clone(&lent), b"Lx;", file, room)?;
            }
        }
    }
    Ok(())
}

pub fn run(held: &mut Applying) -> Held {
    longest(held)?;
    beyond_32_bits(held)?;
    order(held)?;
    let file = tree(3, 0).written();
    lookup_tables::at_the_limits(&mut |lent| held.tables(lent, "Lx;", &file))
}
