//! Holding applying: its cases, and the answers of the proved function, the original and the plain program.

use crate::case::{self, Case};
use crate::lookup_tables::{self, LentTables};
#[cfg(original)]
use crate::original::doors;
use crate::plain::applying::{Applied, answered, apply};
use crate::proved;
use crate::random::Random;
use crate::report::{Comparison, Disagreement, Held, Report, Subject};
#[cfg(original)]
use crate::smali_trees::SmaliTree;
use crate::tree_files::TreeFile;
use std::rc::Rc;

/// What stands in an output before the call.
const RUBBISH: u8 = 0xA5;

/// An answer, and what became of the tree.
type Answer = (Applied, &'static str);

/// A length, or the disagreement that was found on the way.
type Judged = Result<usize, Disagreement>;

/// A tree file that tables are applied to, and how many bytes are lent for the output.
#[derive(Clone)]
struct Asked {
    lent: Rc<LentTables>,
    class: Vec<u8>,
    file: Vec<u8>,
    room: usize,
}

impl Case for Asked {
    fn simpler(&self) -> Box<dyn Iterator<Item = Self> + '_> {
        let fewer = self.lent.fewer().map(|lent| Asked {
            lent: Rc::new(lent),
            ..self.clone()
        });
        let trees = TreeFile::read(&self.file).into_iter();
        let trees = trees.flat_map(|tree| tree.simpler()).map(|tree| Asked {
            file: tree.written(),
            ..self.clone()
        });
        let classes = case::simpler_bytes(&self.class).map(|class| Asked {
            class,
            ..self.clone()
        });
        let files = case::simpler_bytes(&self.file).map(|file| Asked {
            file,
            ..self.clone()
        });
        let all = trees.chain(fewer).chain(classes);
        Box::new(all.chain(files.filter(|asked| asked.file.len() < self.file.len())))
    }

    fn show(&self) -> String {
        let [class, file] = [("class", &self.class), ("file", &self.file)]
            .map(|(said, text)| case::show_bytes(said, text));
        format!("{class}{file}  room: {}\n{}", self.room, self.lent.show())
    }
}

/// A number of a file.
fn number(file: &[u8], at: usize) -> u32 {
    let bytes = file.get(at..at + 4).and_then(|four| four.try_into().ok());
    bytes.map_or(0, u32::from_le_bytes)
}

/// What became of a file that is not refused.
fn changed(file: &[u8], output: &[u8]) -> &'static str {
    let [nodes, tokens] = [0, 4].map(|at| number(file, at) as usize);
    let names = number(file, 8) != number(output, 8);
    let lines = (0..tokens).map(|token| 16 + 8 * nodes + 12 * token);
    let mut lines = lines.filter(|at| number(file, *at) == 3);
    let line = lines.any(|at| number(file, at + 8) != number(output, at + 8));
    match (names, line) {
        (false, false) => "the same",
        (true, false) => "names",
        (false, true) => "lines",
        (true, true) => "names and lines",
    }
}

fn with_kind(file: &[u8], applied: Applied) -> Answer {
    let kind = match applied.number {
        0 => changed(file, &applied.output),
        1 => "too long",
        12 => "tree malformed",
        13 => "no room",
        14 => "tables malformed",
        _ => "another number",
    };
    (applied, kind)
}

fn by_proved(lent: &LentTables, class: &[u8], file: &[u8], room: usize) -> Answer {
    let mut output = vec![RUBBISH; room];
    let [number, length] = proved::apply(&lent.tables(), class, file, &mut output);
    let applied = Applied {
        number,
        length,
        output,
    };
    with_kind(file, applied)
}

fn by_plain(lent: &LentTables, class: &[u8], file: &[u8], room: usize) -> Answer {
    let applied = apply(&lent.lookup(), class, file, room);
    with_kind(file, answered(applied, room))
}

const TABLES: Subject<Asked, Answer> = Subject {
    name: "applying any tables to any file",
    proved: |asked| by_proved(&asked.lent, &asked.class, &asked.file, asked.room),
    judge: |asked| Some(by_plain(&asked.lent, &asked.class, &asked.file, asked.room)),
    outcome: |(_, kind)| kind,
};

/// A mapping as both sides have it.
struct Loaded {
    #[cfg(original)]
    text: Vec<u8>,
    lent: Rc<LentTables>,
    #[cfg(original)]
    kept: doors::Kept,
}

impl Loaded {
    fn of(text: &[u8]) -> Option<Rc<Self>> {
        Some(Rc::new(Loaded {
            #[cfg(original)]
            text: text.to_vec(),
            lent: Rc::new(lookup_tables::loaded(text)?),
            #[cfg(original)]
            kept: doors::parse(text)?,
        }))
    }
}

/// A tree that the mapping of a text is applied to.
#[cfg(original)]
#[derive(Clone)]
struct Looked {
    loaded: Rc<Loaded>,
    class: String,
    tree: TreeFile,
    room: usize,
}

#[cfg(original)]
impl Case for Looked {
    fn simpler(&self) -> Box<dyn Iterator<Item = Self> + '_> {
        let trees = self.tree.simpler().map(|tree| Looked {
            tree,
            ..self.clone()
        });
        let texts = case::simpler_bytes(&self.loaded.text);
        let texts = texts.filter_map(|text| Loaded::of(&text));
        let texts = texts.map(|loaded| Looked {
            loaded,
            ..self.clone()
        });
        Box::new(trees.chain(texts))
    }

    fn show(&self) -> String {
        let text = case::show_bytes("text", &self.loaded.text);
        let (class, room, tree) = (&self.class, self.room, &self.tree);
        format!("{text}  class: {class:?}\n  room: {room}\n{}", tree.show())
    }
}

/// The file that the original's answer makes.
#[cfg(original)]
fn by_original(looked: &Looked) -> Option<Answer> {
    let (tree, room) = (SmaliTree::of(&looked.tree)?, looked.room);
    let mut node = tree.node();
    looked.loaded.kept.apply_to_smali(&looked.class, &mut node);
    let written = tree.written(&node);
    let applied = if written.len() <= room {
        Ok(written)
    } else {
        Err(13)
    };
    Some(with_kind(&looked.tree.written(), answered(applied, room)))
}

#[cfg(original)]
const LOADED: Subject<Looked, Answer> = Subject {
    name: "applying after a load",
    proved: |looked| {
        let (class, file) = (looked.class.as_bytes(), looked.tree.written());
        by_proved(&looked.loaded.lent, class, &file, looked.room)
    },
    judge: by_original,
    outcome: |(_, kind)| kind,
};

#[cfg(original)]
const PLAIN: Subject<Looked, Answer> = Subject {
    name: "plain program, applying after a load",
    proved: |looked| {
        let (class, file) = (looked.class.as_bytes(), looked.tree.written());
        by_plain(&looked.loaded.lent, class, &file, looked.room)
    },
    ..LOADED
};

/// All comparisons of applying, over one mapping after the other.
pub struct Applying {
    #[cfg(original)]
    loaded: Comparison<Looked, Answer>,
    #[cfg(original)]
    plain: Comparison<Looked, Answer>,
    tables: Comparison<Asked, Answer>,
    mapping: Option<Rc<Loaded>>,
}

impl Default for Applying {
    fn default() -> Self {
        Applying {
            #[cfg(original)]
            loaded: Comparison::new(LOADED),
            #[cfg(original)]
            plain: Comparison::new(PLAIN),
            tables: Comparison::new(TABLES),
            mapping: None,
        }
    }
}

impl Applying {
    /// Whether the mapping loads, which is then the one that is applied.
    pub fn load(&mut self, text: &str) -> bool {
        self.mapping = Loaded::of(text.as_bytes());
        self.mapping.is_some()
    }

    /// The tables of the mapping.
    pub fn lent(&self) -> LentTables {
        let mapping = self.mapping.as_ref().expect("a mapping that loads");
        LentTables::clone(&mapping.lent)
    }

    /// Any tables and any file, with an output of so many bytes.
    pub fn any(&mut self, lent: Rc<LentTables>, class: &[u8], file: &[u8], room: usize) -> Held {
        self.tables.hold(&Asked {
            lent,
            class: class.to_vec(),
            file: file.to_vec(),
            room,
        })
    }

    /// Tables that may be damaged.
    pub fn tables(&mut self, lent: LentTables, class: &str, file: &[u8]) -> Held {
        let room = 2 * file.len() + 512;
        self.any(Rc::new(lent), class.as_bytes(), file, room)
    }

    /// A file that may be damaged, with the mapping's tables.
    pub fn file(&mut self, class: &str, file: Vec<u8>) -> Held {
        let mapping = self.mapping.as_ref().expect("a mapping that loads");
        let (lent, room) = (Rc::clone(&mapping.lent), 2 * file.len() + 512);
        self.any(lent, class.as_bytes(), &file, room)
    }

    /// How many bytes the output needs, as the original's answer says where it is at hand; and its judgement.
    #[cfg(original)]
    fn needed(&mut self, loaded: Rc<Loaded>, class: &str, tree: &TreeFile, room: usize) -> Judged {
        let looked = Looked {
            loaded,
            class: class.to_owned(),
            tree: tree.clone(),
            room,
        };
        let mut length = 0;
        let seen = |(applied, _): &Answer| length = applied.length as usize;
        self.loaded.hold_seen(&looked, seen)?;
        self.plain.hold(&looked)?;
        Ok(length)
    }

    #[cfg(not(original))]
    fn needed(&mut self, loaded: Rc<Loaded>, class: &str, tree: &TreeFile, room: usize) -> Judged {
        let (applied, _) = by_plain(&loaded.lent, class.as_bytes(), &tree.written(), room);
        Ok(applied.length as usize)
    }

    /// A tree with more room than it needs; and one in three times with one byte less than that, as much or a little more.
    pub fn tree(&mut self, random: &mut Random, class: &str, tree: &TreeFile) -> Held {
        let loaded = Rc::clone(self.mapping.as_ref().expect("a mapping that loads"));
        let lent = Rc::clone(&loaded.lent);
        let file = tree.written();
        let room = file.len() + 600 * (1 + number(&file, 4) as usize);
        let needed = self.needed(loaded, class, tree, room)?;
        if random.once_in(3) {
            let room = match random.below(3) {
                0 => needed.saturating_sub(1),
                1 => needed,
                _ => needed + 1 + random.below(40),
            };
            self.any(lent, class.as_bytes(), &file, room)?;
        }
        Ok(())
    }

    pub fn report(self, report: &mut Report) {
        #[cfg(original)]
        {
            report.add(self.loaded);
            report.add(self.plain);
        }
        report.add(self.tables);
    }
}
