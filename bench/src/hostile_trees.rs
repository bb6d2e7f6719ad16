//! Applying to trees made to be slow: long names that many tokens share, names that overlap, and many nodes. In most of them
//! nothing is known, so that the output is as long as the tree.

use crate::hostile;
use crate::times::{self, Times};
use clumarief_compare::lookup_tables::{self, LentTables};
use clumarief_compare::proved;
use clumarief_compare::tree_files::TreeFile;
use std::time::Duration;

/// In KiB, up to the longest that a tree file may be.
const LENGTHS: [usize; 4] = [64, 256, 1_024, 4_096];

/// Where a call takes longer than this, longer trees are left out.
const MOST: Duration = Duration::from_secs(1);

/// The four counts, the root's row, and a few short names with their rows.
const HEAD: usize = 128;

/// Names 0 to 2 are a member name, a method's descriptor and a class; what follows is the row's own.
const NAMES: [&str; 3] = ["c", "()V", "Lx;"];

fn tree(nodes: Vec<(u32, Vec<[u32; 3]>)>) -> TreeFile {
    let mut tree = TreeFile {
        nodes,
        ..TreeFile::default()
    };
    for name in NAMES {
        tree.names
            .push([tree.bytes.len() as u32, name.len() as u32]);
        tree.bytes.extend(name.bytes());
    }
    tree
}

/// Half of the file is one name of equal parts, and the rest nodes of the same tokens, in which name 3 is the long one.
fn long_name(length: usize, part: &str, tokens: &[[u32; 3]]) -> TreeFile {
    let half = (length - HEAD) / 2;
    let row = 8 + 12 * tokens.len();
    let below = (0..half / row).map(|_| (0, tokens.to_vec()));
    let root = (u32::MAX, Vec::new());
    let mut tree = tree([root].into_iter().chain(below).collect());
    let (place, long) = (tree.bytes.len() as u32, part.repeat(half / part.len()));
    tree.names.push([place, long.len() as u32]);
    tree.bytes.extend(long.bytes());
    tree
}

/// Half of the file is name bytes of equal parts, and the rest nodes with a name of their own, which is what follows a part
/// that no other starts at; in `tokens` its number stands for 3.
fn overlapping(length: usize, part: &str, tokens: &[[u32; 3]]) -> TreeFile {
    let half = (length - HEAD) / 2;
    let count = half / (8 + 12 * tokens.len() + 8);
    let parts = half / part.len();
    let node = |at: usize| {
        let own = |[kind, a, b]: [u32; 3]| {
            let number = |name: u32| if name == 3 { 3 + at as u32 } else { name };
            [kind, number(a), number(b)]
        };
        (0, tokens.iter().copied().map(own).collect())
    };
    let root = (u32::MAX, Vec::new());
    let mut tree = tree([root].into_iter().chain((0..count).map(node)).collect());
    let start = tree.bytes.len();
    for at in 0..count {
        let place = start + at % parts * part.len();
        let end = start + parts * part.len();
        tree.names.push([place as u32, (end - place) as u32]);
    }
    tree.bytes.extend(part.repeat(parts).bytes());
    tree
}

/// A method that the mapping knows, and each node below the one before it, with a line.
fn chain(length: usize) -> TreeFile {
    let count = (length - HEAD) / (8 + 12);
    let below = (0..count).map(|row| (row as u32, vec![[3, row as u32 % 12, 0]]));
    let method = (u32::MAX, vec![[1, 0, 0], [2, 1, 1]]);
    tree([method].into_iter().chain(below).collect())
}

/// Nothing but lines in such a method.
fn lines(length: usize) -> TreeFile {
    let count = (length - HEAD) / 12;
    let lines = (0..count).map(|at| [3, at as u32 % 12, 0]);
    let method = [[1, 0, 0], [2, 1, 1]].into_iter();
    tree(vec![(u32::MAX, method.chain(lines).collect())])
}

type Maker = fn(usize) -> TreeFile;

const DESCRIPTOR: [u32; 3] = [2, 3, 3];
const MEMBER: [[u32; 3]; 2] = [[1, 0, 0], DESCRIPTOR];
const NAMED: [[u32; 3]; 2] = [[1, 3, 3], [2, 1, 1]];
const OWNED: [[u32; 3]; 3] = [DESCRIPTOR, [1, 0, 0], [2, 1, 1]];

/// The one whose pieces are known needs more than there may be.
const MADE: [(&str, Maker); 15] = [
    ("one name, pieces", |l| long_name(l, "Lq;", &[DESCRIPTOR])),
    ("one name, long pieces", |l| {
        long_name(l, "Lquite/a/long/name/of/a/class;", &[DESCRIPTOR])
    }),
    ("one name, L", |l| long_name(l, "L", &[DESCRIPTOR])),
    ("one name, no L", |l| long_name(l, "a", &[DESCRIPTOR])),
    ("one name, known", |l| long_name(l, "Lx;", &[DESCRIPTOR])),
    ("one signature", |l| long_name(l, "Lq;", &MEMBER)),
    ("one method's signature", |l| long_name(l, "(Lq;", &MEMBER)),
    ("one member name", |l| long_name(l, "c", &NAMED)),
    ("one owner", |l| long_name(l, "Lq;", &OWNED)),
    ("overlapping pieces", |l| {
        overlapping(l, "Lq;", &[DESCRIPTOR])
    }),
    ("overlapping L", |l| overlapping(l, "L", &[DESCRIPTOR])),
    ("overlapping signatures", |l| overlapping(l, "Lq;", &MEMBER)),
    ("overlapping owners", |l| overlapping(l, "Lq;", &OWNED)),
    ("a chain of nodes", chain),
    ("lines", lines),
];

/// Class `Lx;` with a method `c()V`, and fields that are near the signatures.
const MAPPING: &str = "a.Main -> x:
    1:9:void run():10:18 -> c
    int n -> c
b.Other -> yy:
    a.Main m -> c
";

/// More output than trees need of which next to nothing is replaced.
const MORE: usize = 64;

/// The times of calls, and the number that they answered.
fn times_of(lent: &LentTables, file: &[u8], runs: u64) -> (Times, u32) {
    let mut output = vec![0; file.len() + MORE];
    let mut call = || times::time(|| proved::apply(&lent.tables(), b"Lx;", file, &mut output)[0]);
    let (number, first) = call();
    let more = if first < MOST { runs } else { 1 };
    let times = (1..more).map(|_| call().1);
    (
        Times::of([first].into_iter().chain(times).collect()),
        number,
    )
}

/// A number of nanoseconds for a column.
fn column(nanos: f64) -> String {
    if nanos < 1_000.0 {
        format!("{nanos:>9.3}")
    } else {
        format!("{nanos:>9.0}")
    }
}

/// Prints a row as `hostile::print_row_of` does, with - for what is left out.
fn row(lent: &LentTables, name: &str, made: Maker, runs: u64) {
    let (mut row, mut last, mut said, mut slow) = (String::new(), String::new(), 0, false);
    for length in LENGTHS {
        if slow {
            row += &format!("{:>9}", "-");
            continue;
        }
        let file = made(length * 1_024).written();
        let (times, number) = times_of(lent, &file, runs);
        let of_byte = |time: Duration| time.as_secs_f64() * 1e9 / file.len() as f64;
        row += &column(of_byte(times.best()));
        last = format!(
            "{}{:>7.1}%",
            column(of_byte(times.median())),
            times.spread()
        );
        (said, slow) = (number, times.best() > MOST);
    }
    println!("{name:<26}{said:<9}{row}{last}");
}

pub fn run(runs: u64) {
    let Some(lent) = lookup_tables::loaded(MAPPING.as_bytes()) else {
        return;
    };
    hostile::print_head_of("hostile applying", "answer", &LENGTHS);
    for (name, made) in MADE {
        row(&lent, name, made, runs.min(10));
    }
}
