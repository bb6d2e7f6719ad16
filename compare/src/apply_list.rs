//! The list that crates/apply_cases replays: what stands in its standard input, and what it has to write. The cases stand in
//! apply-cases.txt; the answers are the original's where it is at hand, else the plain program's.

use crate::plain::applying::{Applied, answered, apply};
use crate::plain::{self, Lent, Loaded, Lookup};
use crate::timing::{self, SmaliTree};
use crate::tree_files::TreeFile;

const CASES: &str = include_str!("../apply-cases.txt");

/// What the replaying program lends.
const LENT: Lent = Lent {
    classes: 16,
    members: 16,
    pool: 512,
};
const ROOM: usize = 1_024;

/// A case: the tree's file may be damaged.
pub struct ListCase {
    pub name: &'static str,
    class: &'static str,
    file: Vec<u8>,
    mapping: &'static str,
}

/// What is read of a case before its mapping.
#[derive(Default)]
struct Reader {
    class: &'static str,
    tree: TreeFile,
    changes: Vec<(&'static str, usize, usize)>,
}

impl Reader {
    /// The number of a name by its text.
    fn name(&mut self, text: &str) -> u32 {
        let (bytes, names) = (&mut self.tree.bytes, &mut self.tree.names);
        let is_text = |[place, length]: &[u32; 2]| {
            &bytes[*place as usize..][..*length as usize] == text.as_bytes()
        };
        names.iter().position(is_text).unwrap_or_else(|| {
            names.push([bytes.len() as u32, text.len() as u32]);
            bytes.extend(text.bytes());
            names.len() - 1
        }) as u32
    }

    fn token(&mut self, word: &str) -> Option<[u32; 3]> {
        if word == "." {
            return Some([0, 7, 9]);
        }
        if let Some(number) = word.strip_prefix("d#") {
            let number = number.parse().ok()?;
            return Some([2, number, number]);
        }
        let (kind, texts) = word.split_once(':')?;
        let (raw, display) = texts.split_once('=').unwrap_or((texts, texts));
        let [raw, display] = [raw, display].map(|text| match kind {
            "l" => text.parse().ok(),
            _ => Some(self.name(text)),
        });
        let kind = ["m", "d", "l"].iter().position(|known| *known == kind)?;
        Some([kind as u32 + 1, raw?, display?])
    }

    fn line(&mut self, line: &'static str) -> Option<()> {
        let mut words = line.split(' ');
        let first = words.next()?;
        if first == "class" {
            self.class = words.next().unwrap_or_default();
        } else if first == "-" || first.parse::<u32>().is_ok() {
            let tokens = words.map(|word| self.token(word)).collect::<Option<_>>()?;
            let parent = first.parse().unwrap_or(u32::MAX);
            self.tree.nodes.push((parent, tokens));
        } else {
            let mut number = || words.next().map_or(Some(0), |word| word.parse().ok());
            self.changes.push((first, number()?, number()?));
        }
        Some(())
    }

    /// The file with its changes.
    fn file(mut self) -> Option<Vec<u8>> {
        for (change, a, b) in &self.changes {
            match *change {
                "row" => self.tree.names.push([*a as u32, *b as u32]),
                "add" => self.tree.bytes.extend(vec![0; *a]),
                _ => {}
            }
        }
        let mut file = self.tree.written();
        for (change, a, b) in self.changes {
            match change {
                "row" | "add" => {}
                "word" => file
                    .get_mut(a..a + 4)?
                    .copy_from_slice(&(b as u32).to_le_bytes()),
                "byte" => *file.get_mut(a)? = b as u8,
                "cut" => file.truncate(a),
                _ => return None,
            }
        }
        Some(file)
    }
}

/// A case by its name and what follows it.
fn read(record: &'static str) -> Option<ListCase> {
    let (name, rest) = record.split_once('\n')?;
    let (before, mapping) = rest.split_once("\nmapping\n")?;
    let mut reader = Reader::default();
    for line in before.lines() {
        reader.line(line)?;
    }
    let (class, file) = (reader.class, reader.file()?);
    Some(ListCase {
        name,
        class,
        file,
        mapping,
    })
}

/// All cases, or the name of the first that does not read.
pub fn cases() -> Result<Vec<ListCase>, String> {
    let records = CASES.trim_end().split("\n= ").skip(1);
    let case = |record: &'static str| read(record).ok_or_else(|| record.to_owned());
    records.map(case).collect()
}

fn hex(bytes: &[u8]) -> String {
    bytes.iter().map(|byte| format!("{byte:02X}")).collect()
}

impl ListCase {
    /// The case in standard input: its name; the class given; the tree's bytes; and the mapping.
    pub fn asked(&self) -> String {
        let (name, class, mapping) = (self.name, self.class, self.mapping);
        format!("= {name}\n{class}\n{}\n{mapping}\n", hex(&self.file))
    }

    /// The plain program's answer. A mapping that is refused leaves empty tables.
    pub fn by_plain(&self) -> Applied {
        let read = plain::read(self.mapping.as_bytes(), true);
        let loaded = read.ok().and_then(|read| read.fit(LENT).ok());
        let empty = Loaded {
            fates: plain::Fates::default(),
            classes: Vec::new(),
            members: Vec::new(),
            pool: Vec::new(),
        };
        let loaded = loaded.unwrap_or(empty);
        let counts = [
            loaded.classes.len(),
            loaded.members.len(),
            loaded.pool.len(),
        ];
        let lookup = Lookup {
            classes: &loaded.classes,
            members: &loaded.members,
            pool: &loaded.pool,
            used: counts.map(|count| count as u32),
        };
        let applied = apply(&lookup, self.class.as_bytes(), &self.file, ROOM);
        answered(applied, ROOM)
    }

    /// The original's, where it has one: it is at hand, it reads the mapping, and the file is a tree.
    pub fn by_original(&self) -> Option<Applied> {
        let kept = timing::parse(self.mapping.as_bytes())?;
        let tree = SmaliTree::of(&TreeFile::read(&self.file)?)?;
        let mut node = tree.node();
        kept.apply_to_smali(self.class, &mut node);
        let written = tree.written(&node);
        let applied = if written.len() <= ROOM {
            Ok(written)
        } else {
            Err(13)
        };
        Some(answered(applied, ROOM))
    }

    /// What has to be written for it.
    pub fn answer(&self) -> String {
        let applied = self.by_original().unwrap_or_else(|| self.by_plain());
        let (name, length) = (self.name, applied.length as usize);
        match applied.number {
            0 => format!(
                "{name}: applied {length}\n{}\n",
                hex(&applied.output[..length])
            ),
            number => format!("{name}: refused {number}\n"),
        }
    }
}
