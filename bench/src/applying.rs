//! Applying a mapping to trees, beside the original's `apply_to_smali`, which changes a tree in place: it is given a copy that
//! was made before the clock starts.

use crate::apply_trees::{self, Names};
use crate::race::Unequal;
use crate::times::{self, Times};
use clumarief_compare::lookup_tables::{self, LentTables};
use clumarief_compare::plain::applying;
use clumarief_compare::proved;
use clumarief_compare::timing::{self, Kept, SmaliTree};
use clumarief_compare::tree_files::TreeFile;
use std::fmt::Write;
use std::fs;
use std::hint::black_box;
use std::path::Path;
use std::time::Duration;

/// A mapping as both sides have it, and the class given.
struct Applying<'a> {
    lent: &'a LentTables,
    kept: Option<Kept>,
    class: &'a str,
    runs: u64,
}

/// Best and median in microseconds a call, and spread.
fn said(times: &Times) -> String {
    let micros = |time: Duration| time.as_secs_f64() * 1e6;
    let (best, median) = (micros(times.best()), micros(times.median()));
    format!("{best:>11.2}{median:>11.2}{:>7.1}%", times.spread())
}

/// The times of both, by turns.
struct Timed {
    proved: Vec<Duration>,
    other: Vec<Duration>,
}

impl Applying<'_> {
    fn proved(&self, file: &[u8], output: &mut [u8]) -> [u32; 2] {
        let class = black_box(self.class.as_bytes());
        proved::apply(&self.lent.tables(), class, black_box(file), output)
    }

    /// An output of as many bytes as are needed.
    fn output(&self, file: &[u8]) -> Option<Vec<u8>> {
        let (lookup, most) = (self.lent.lookup(), applying::LONGEST_TREE);
        applying::apply(&lookup, self.class.as_bytes(), file, most).ok()
    }

    fn timed(&self, tree: &TreeFile, file: &[u8], mut output: Vec<u8>) -> Option<Timed> {
        let (smali, length) = (SmaliTree::of(tree), output.len() as u32);
        let mut timed = Timed {
            proved: Vec::new(),
            other: Vec::new(),
        };
        for _ in 0..self.runs.max(1) {
            let (answer, time) = times::time(|| self.proved(file, &mut output));
            timed.proved.push(time);
            if answer != [0, length] {
                return None;
            }
            let (Some(kept), Some(smali)) = (&self.kept, &smali) else {
                continue;
            };
            let mut node = smali.node();
            let apply = || kept.apply_to_smali(black_box(self.class), &mut node);
            timed.other.push(times::time(apply).1);
            if timed.other.len() == 1 && smali.written(&node) != output {
                return None;
            }
        }
        Some(timed)
    }

    /// Prints a row for a tree, of which both have to make the same file.
    fn row(&self, name: &'static str, tree: &TreeFile) -> Result<(), Unequal> {
        let (file, tokens) = (tree.written(), tree.tokens());
        let Some(output) = self.output(&file) else {
            println!("{name:<26}left out: its output is too long");
            return Ok(());
        };
        let timed = self.timed(tree, &file, output).ok_or(Unequal(name))?;
        let proved = Times::of(timed.proved);
        let best = proved.best().as_secs_f64();
        let mut row = format!("{tokens:>8}{:>9}{}", file.len(), said(&proved));
        let of = |count: usize| best * 1e9 / count as f64;
        let _ = write!(row, "{:>11.1}{:>9.2}", of(tokens), of(file.len()));
        if !timed.other.is_empty() {
            let other = Times::of(timed.other);
            let ratio = other.best().as_secs_f64() / best;
            let _ = write!(row, "{}{ratio:>8.2}", said(&other));
        }
        println!("{name:<26}{row}");
        Ok(())
    }
}

/// Ten tokens.
fn small(names: &Names) -> TreeFile {
    let mut tree = apply_trees::usual(names, 1, true);
    let (mut nodes, mut left) = (Vec::new(), 10);
    for (parent, mut tokens) in tree.nodes {
        tokens.truncate(left);
        left -= tokens.len();
        nodes.push((parent, tokens));
        if left == 0 {
            break;
        }
    }
    tree.nodes = nodes;
    tree
}

fn real(text: &[u8], runs: u64) -> Result<(), Unequal> {
    let Some(lent) = lookup_tables::loaded(text) else {
        println!("applying      left out: the real file does not load");
        return Ok(());
    };
    let names = Names::of(&lent);
    let mut applying = Applying {
        lent: &lent,
        kept: timing::parse(text),
        class: names.class,
        runs,
    };
    for (name, tokens) in [
        ("a tree, once", 5_000),
        ("a tree, 2 times", 10_000),
        ("a tree, 4 times", 20_000),
        ("a tree, 8 times", 40_000),
    ] {
        applying.row(name, &apply_trees::usual(&names, tokens, true))?;
    }
    let own_names = apply_trees::usual(&names, 20_000, false);
    applying.row("names not shared, 4 times", &own_names)?;
    applying.row("500 deep", &apply_trees::deep(&names, 100_000, 500))?;
    applying.row("ten tokens", &small(&names))?;
    // a class that the mapping does not know
    applying.class = "Lunknown/Class;";
    let unknown = apply_trees::usual(&names, 20_000, true);
    applying.row("class unknown, 4 times", &unknown)
}

/// A method of so many ranges, each of which holds one line.
fn ranges(count: usize) -> String {
    let line = |at: usize| format!("    {at}:{at}:void run():{}:{} -> b\n", at + 9, at + 9);
    let lines: String = (1..=count).map(line).collect();
    format!("a.Main -> a:\n{lines}")
}

/// Lines of such a method, the earliest range last.
fn many_ranges(runs: u64) -> Result<(), Unequal> {
    const RANGES: usize = 20_000;
    let text = ranges(RANGES);
    let Some(lent) = lookup_tables::loaded(text.as_bytes()) else {
        return Err(Unequal("20,000 ranges"));
    };
    let lines = (0..10_000).map(|at: usize| [3, 1 + (at * 7_919 % RANGES) as u32, 0]);
    let tokens = [[1, 0, 0], [2, 1, 1]].into_iter().chain(lines).collect();
    let tree = TreeFile {
        nodes: vec![(u32::MAX, tokens)],
        names: vec![[0, 1], [1, 3]],
        bytes: b"b()V".to_vec(),
    };
    let applying = Applying {
        lent: &lent,
        kept: timing::parse(text.as_bytes()),
        class: "La;",
        runs: runs.min(5),
    };
    applying.row("20,000 ranges of a method", &tree)
}

pub fn run(runs: u64, path: Option<&Path>) -> Result<(), Unequal> {
    println!(
        "\napplying to a tree, in microseconds a call: best, median and spread of proved, its nanoseconds a token and a byte\n\
         (best); best, median and spread of the original, and the ratio of the best\n\
         {:<26}{:>8}{:>9}{:>11}{:>11}{:>8}{:>11}{:>9}{:>11}{:>11}{:>8}{:>8}",
        "tree",
        "tokens",
        "bytes",
        "best",
        "median",
        "spread",
        "ns/token",
        "ns/byte",
        "best",
        "median",
        "spread",
        "ratio"
    );
    match path.and_then(|path| fs::read(path).ok()) {
        Some(text) => real(&text, runs.min(30))?,
        None => println!("applying      left out: no real file is named, see run --real"),
    }
    many_ranges(runs)
}
