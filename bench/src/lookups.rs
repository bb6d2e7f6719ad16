//! Look-ups in the tables of a real mapping file, beside the original's. A proved look-up checks all tables each time, for
//! 14, so that its time is that of the check and of the search; the original's checks nothing, and is a hash map's.

use crate::race::Unequal;
use crate::times::{self, Times};
use clumarief_compare::lookup_tables::{self, LentTables};
use clumarief_compare::proved::{self, Tables};
use clumarief_compare::timing::{self, Kept};
use std::fs;
use std::hint::black_box;
use std::path::Path;
use std::str;
use std::time::Duration;

/// How many keys are looked up in each run, out of all parts of the tables.
const KEYS: usize = 32;

/// What a member is asked for by, and a raw line.
struct Key<'a> {
    owner: &'a [u8],
    name: &'a [u8],
    descriptor: &'a [u8],
    line: u32,
}

/// The same as the original takes it.
type Other = (timing::Key, u32);

impl Key<'_> {
    fn of_original(&self) -> Other {
        let text = |bytes| str::from_utf8(bytes).unwrap_or_default();
        let key = timing::Key::new(text(self.owner), text(self.name), text(self.descriptor));
        (key, self.line)
    }
}

/// Some out of all, with the same step between them.
fn spread_out<T>(all: Vec<T>) -> Vec<T> {
    let step = all.len().div_ceil(KEYS).max(1);
    all.into_iter().step_by(step).collect()
}

/// The keys of members of a kind, those with a raw range alone where `with_range` says so.
fn keys(lent: &LentTables, kind: u32, with_range: bool) -> Vec<(Key<'_>, Other)> {
    let rows = lent.members.iter();
    let rows = rows.filter(|row| row[0] == kind && (!with_range || row[10] == 2));
    let key = |row: &[u32; 15]| {
        let class = &lent.classes[row[1] as usize];
        let key = Key {
            owner: lent.text(class[0], class[1]),
            name: lent.text(row[2], row[3]),
            descriptor: lent.text(row[4], row[5]),
            line: row[12],
        };
        let other = key.of_original();
        (key, other)
    };
    spread_out(rows.map(key).collect())
}

/// Best, median and spread of a look-up, in microseconds.
fn said(times: Vec<Duration>, keys: usize) -> String {
    let times = Times::of(times);
    let of_key = |time: Duration| time.as_secs_f64() * 1e6 / keys as f64;
    let (best, median) = (of_key(times.best()), of_key(times.median()));
    format!("{best:>10.3}{median:>10.3}{:>7.1}%", times.spread())
}

struct Lookups<'a> {
    lent: &'a LentTables,
    kept: Option<Kept>,
    runs: u64,
}

impl Lookups<'_> {
    /// Prints a row for look-ups of all keys, each of which has to be answered the same by both.
    fn row<K, O, A: PartialEq>(
        &self,
        name: &'static str,
        keys: &[(K, O)],
        proved: impl Fn(&Tables, &K) -> A,
        other: impl Fn(&Kept, &O) -> A,
    ) -> Result<(), Unequal> {
        if keys.is_empty() {
            println!("look-up of a {name:<13}left out: the file has none");
            return Ok(());
        }
        let tables = self.lent.tables();
        let (mut times, mut other_times) = (Vec::new(), Vec::new());
        for _ in 0..self.runs.max(1) {
            let of_proved = || keys.iter().map(|(key, _)| proved(&tables, black_box(key)));
            let (found, time) = times::time(|| of_proved().collect::<Vec<A>>());
            times.push(time);
            let Some(kept) = &self.kept else { continue };
            let of_other = || keys.iter().map(|(_, key)| other(kept, black_box(key)));
            let (other_found, time) = times::time(|| of_other().collect::<Vec<A>>());
            other_times.push(time);
            if found != other_found {
                return Err(Unequal(name));
            }
        }
        let other = if other_times.is_empty() {
            String::new()
        } else {
            said(other_times, keys.len())
        };
        println!("look-up of a {name:<13}{}{other}", said(times, keys.len()));
        Ok(())
    }

    /// The length of what is found stands for it: the texts are compared by compare.
    fn class(&self) -> Result<(), Unequal> {
        let rows = self.lent.classes.iter();
        let raws = rows.map(|row| self.lent.text(row[0], row[1])).collect();
        let texts = |raw| (raw, str::from_utf8(raw).unwrap_or_default());
        let keys: Vec<(&[u8], &str)> = spread_out(raws).into_iter().map(texts).collect();
        let proved = |tables: &Tables, raw: &&[u8]| {
            let [_, found, _, length] = proved::display_class_name(tables, raw);
            (found == 1).then_some(length as usize)
        };
        self.row("class", &keys, proved, |kept, raw| {
            kept.display_class_name(raw).map(|name| name.len())
        })
    }

    fn members(&self) -> Result<(), Unequal> {
        let length = |[_, found, _, _, length]: [u32; 5]| (found == 1).then_some(length as usize);
        let field = |tables: &Tables, key: &Key<'_>| {
            let (owner, name, descriptor) = (key.owner, key.name, key.descriptor);
            length(proved::display_field_name(tables, owner, name, descriptor))
        };
        let method = |tables: &Tables, key: &Key<'_>| {
            let (owner, name, descriptor) = (key.owner, key.name, key.descriptor);
            length(proved::display_method_name(tables, owner, name, descriptor))
        };
        self.row(
            "field",
            &keys(self.lent, 0, false),
            field,
            |kept, (key, _)| kept.display_field_name(key).map(|name| name.len()),
        )?;
        self.row(
            "method",
            &keys(self.lent, 1, false),
            method,
            |kept, (key, _)| kept.display_method_name(key).map(|name| name.len()),
        )
    }

    fn lines(&self) -> Result<(), Unequal> {
        let line = |tables: &Tables, key: &Key<'_>| {
            let (owner, name, descriptor) = (key.owner, key.name, key.descriptor);
            let answer = proved::display_line(tables, owner, name, descriptor, key.line);
            (answer[1] == 1).then_some(answer[3])
        };
        self.row(
            "line",
            &keys(self.lent, 1, true),
            line,
            |kept, (key, line)| kept.display_line(key, *line),
        )
    }
}

pub fn run(runs: u64, path: Option<&Path>) -> Result<(), Unequal> {
    let text = path.and_then(|path| fs::read(path).ok());
    let lent = text.as_deref().and_then(lookup_tables::loaded);
    let (Some(text), Some(lent)) = (text, lent) else {
        println!("\nlook-ups      left out: no real file is named that loads, see run --real");
        return Ok(());
    };
    println!(
        "\nmicroseconds a look-up in the tables of the real file: best, median and spread of proved, then of the original.\n\
         A proved look-up checks the tables each time, and its time is that of both; the original checks nothing."
    );
    let lookups = Lookups {
        lent: &lent,
        kept: timing::parse(&text),
        runs,
    };
    lookups.class()?;
    lookups.members()?;
    lookups.lines()
}
