//! Tree files that are damaged: numbers, name bytes, rows and lengths.

use crate::random::Random;
use crate::report::Held;
use crate::tree_files::TreeFile;

/// Numbers that a number of a file may be in place of itself. Rows of eight or twelve bytes lose the bits 29 to 31 of a count
/// where their length is taken in 32 bits.
fn others(random: &mut Random, number: u32) -> [u32; 11] {
    [
        number ^ 1 << 29,
        number ^ 1 << 30,
        number ^ 1 << 31,
        0,
        number.wrapping_add(1),
        number.wrapping_sub(1),
        1 << 31,
        u32::MAX,
        4,
        random.below(9) as u32,
        random.draw() as u32,
    ]
}

/// Every four bytes before the name bytes as another number.
pub fn every_number(
    random: &mut Random,
    tree: &TreeFile,
    hold: &mut impl FnMut(Vec<u8>) -> Held,
) -> Held {
    let file = tree.written();
    for at in (0..file.len() - tree.bytes.len()).step_by(4) {
        let number = u32::from_le_bytes([file[at], file[at + 1], file[at + 2], file[at + 3]]);
        for other in others(random, number) {
            let mut damaged = file.clone();
            damaged[at..at + 4].copy_from_slice(&other.to_le_bytes());
            hold(damaged)?;
        }
    }
    Ok(())
}

/// Half of 2^32 more in the token counts of two nodes, so that their sum is the same in 32 bits.
pub fn counts_beyond(tree: &TreeFile) -> Vec<u8> {
    let mut file = tree.written();
    for row in 0..2.min(tree.nodes.len()) {
        // the highest byte of the second number of a node row
        file[16 + 8 * row + 7] ^= 0x80;
    }
    file
}

/// Every name byte as another.
pub fn every_name_byte(
    random: &mut Random,
    tree: &TreeFile,
    hold: &mut impl FnMut(Vec<u8>) -> Held,
) -> Held {
    let file = tree.written();
    for at in file.len() - tree.bytes.len()..file.len() {
        for other in [b'a', 0x80, 0xC3, 0xE2, 0xED, 0xF0, 0xFF, random.byte()] {
            let mut damaged = file.clone();
            damaged[at] = other;
            hold(damaged)?;
        }
    }
    Ok(())
}

/// Cut at every byte, and longer by up to three.
pub fn every_length(
    random: &mut Random,
    file: &[u8],
    hold: &mut impl FnMut(Vec<u8>) -> Held,
) -> Held {
    for length in 0..=file.len() {
        hold(file[..length].to_vec())?;
    }
    let mut longer = file.to_vec();
    for _ in 0..3 {
        longer.push(random.byte());
        hold(longer.clone())?;
    }
    Ok(())
}

/// One row or name byte is another, while the counts still agree.
pub fn damage(random: &mut Random, tree: &mut TreeFile) {
    let row = random.below(tree.nodes.len());
    match random.below(5) {
        0 => tree.nodes[row].0 = random.below(row + 2) as u32,
        1 => {
            let kind = random.below(5) as u32;
            let mut name = || random.below(tree.names.len() + 2) as u32;
            let (raw, display) = (name(), name());
            tree.nodes[row].1.push([kind, raw, display]);
        }
        2 => {
            let length = tree.bytes.len();
            let place = random.below(length + 2) as u32;
            tree.names.push([place, random.below(length + 2) as u32]);
        }
        3 => tree.bytes.push(random.byte()),
        _ => {
            let at = random.below(tree.bytes.len());
            if let Some(byte) = tree.bytes.get_mut(at) {
                *byte = random.byte();
            }
        }
    }
}
