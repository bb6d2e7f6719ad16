//! Trees out of the names of a mapping: methods with lines below them, invocations, fields, descriptors of up to eight pieces,
//! what is near them, and tokens in any order.

use crate::members::near_line;
use crate::plain::{Loaded, MemberRow};
use crate::random::Random;
use crate::tree_files::{self, TreeFile};

/// A member by its raw texts, and its row.
struct Member {
    owner: String,
    name: String,
    descriptor: String,
    row: MemberRow,
}

/// The names of a mapping.
pub struct Words {
    raws: Vec<String>,
    shown: Vec<String>,
    members: Vec<Member>,
}

impl Words {
    pub fn of(loaded: &Loaded) -> Self {
        let text = |place: u32, length: u32| {
            let start = place as usize;
            String::from_utf8_lossy(&loaded.pool[start..start + length as usize]).into_owned()
        };
        let classes = || loaded.classes.iter();
        let member = |row: &MemberRow| {
            let class = &loaded.classes[row[1] as usize];
            Member {
                owner: text(class[0], class[1]),
                name: text(row[2], row[3]),
                descriptor: text(row[4], row[5]),
                row: *row,
            }
        };
        Words {
            raws: classes().map(|row| text(row[0], row[1])).collect(),
            shown: classes().map(|row| text(row[2], row[3])).collect(),
            members: loaded.members.iter().map(member).collect(),
        }
    }

    /// A class to be given: mostly one of the mapping's.
    pub fn class(&self, random: &mut Random) -> String {
        match random.below(12) {
            0 => (*random.pick(&UNKNOWN)).to_owned(),
            1 => random.pick(&self.shown).clone(),
            2 => near(random, &self.raws[0]),
            _ => random.pick(&self.raws).clone(),
        }
    }
}

/// What no mapping knows as a class, or not as it stands.
const UNKNOWN: [&str; 10] = [
    "Lq;",
    "Ljava/lang/Object;",
    "I",
    "[J",
    "L;",
    "",
    "Lx",
    "x",
    "()V",
    "\u{4E2D}",
];

/// What may stand before a piece.
const BETWEEN: [&str; 10] = ["", "", "", "", "[", "I", "[[", ")", "(", ";"];

/// The text with a character left out, doubled or turned to another.
fn near(random: &mut Random, text: &str) -> String {
    let mut letters: Vec<char> = text.chars().collect();
    let at = random.below(letters.len());
    if letters.is_empty() {
        return "L".to_owned();
    }
    match random.below(3) {
        0 => drop(letters.remove(at)),
        1 => letters.insert(at, letters[at]),
        _ => letters[at] = *random.pick(&['L', ';', '(', '.', '/', 'x', '\u{E9}']),
    }
    letters.into_iter().collect()
}

/// Makes the tokens of one tree after the other node, with their names.
struct Maker<'a> {
    random: &'a mut Random,
    words: &'a Words,
    class: &'a str,
    tree: TreeFile,
    /// the row of the member that was declared last
    declared: MemberRow,
}

impl<'a> Maker<'a> {
    /// The number of a name: of one that is there, in bytes that are there, or of its own.
    fn name(&mut self, text: &str) -> u32 {
        let (bytes, names) = (&mut self.tree.bytes, &mut self.tree.names);
        let is_text = |row: &[u32; 2]| {
            let [place, length] = row.map(|number| number as usize);
            &bytes[place..place + length] == text.as_bytes()
        };
        if let Some(known) = names.iter().position(is_text)
            && !self.random.once_in(3)
        {
            return known as u32;
        }
        let inside = if text.is_empty() || self.random.once_in(2) {
            Some(0).filter(|_| text.is_empty())
        } else {
            let mut parts = bytes.windows(text.len());
            parts.position(|part| part == text.as_bytes())
        };
        let place = inside.unwrap_or(bytes.len());
        if inside.is_none() {
            bytes.extend(text.bytes());
        }
        names.push([place as u32, text.len() as u32]);
        names.len() as u32 - 1
    }

    /// A class piece: known, near one, as shown, or unknown.
    fn piece(&mut self) -> String {
        let raw = self.random.pick(&self.words.raws);
        match self.random.below(8) {
            0 => (*self.random.pick(&UNKNOWN)).to_owned(),
            1 => near(self.random, raw),
            2 => self.random.pick(&self.words.shown).clone(),
            _ => raw.clone(),
        }
    }

    /// Up to eight pieces; now and then an `L` with no `;` behind them.
    fn pieces(&mut self) -> String {
        let mut text = String::new();
        for _ in 0..self.random.below(9) {
            text += *self.random.pick(&BETWEEN);
            text += &self.piece();
        }
        if self.random.once_in(6) {
            text += *self.random.pick(&["L", "Lx", "I", "LLx", "\u{E9}L"]);
        }
        text
    }

    fn descriptor_text(&mut self) -> String {
        match self.random.below(8) {
            0 | 1 => self.piece(),
            2 => format!("[{}", self.piece()),
            3 => format!("({}){}", self.pieces(), self.piece()),
            4 | 5 => self.pieces(),
            6 => (*self.random.pick(&UNKNOWN)).to_owned(),
            _ => self.member().2,
        }
    }

    /// The raw owner, name and descriptor of a member, mostly of the class given.
    fn member(&mut self) -> (String, String, String) {
        let Some(member) = self.any_member() else {
            return (self.class.to_owned(), "c".to_owned(), "()V".to_owned());
        };
        self.declared = member.row;
        let [owner, name, descriptor] =
            [&member.owner, &member.name, &member.descriptor].map(String::clone);
        (owner, name, descriptor)
    }

    fn any_member(&mut self) -> Option<&'a Member> {
        let (members, class) = (&self.words.members, self.class);
        let own = || members.iter().filter(|member| member.owner == class);
        let count = own().count();
        if count == 0 || self.random.once_in(3) {
            return members.get(self.random.below(members.len()));
        }
        own().nth(self.random.below(count))
    }

    /// A token of a name whose display name is the same, another of its own, or any that is there.
    fn named(&mut self, kind: u32, text: &str) -> [u32; 3] {
        let raw = self.name(text);
        let display = match self.random.below(4) {
            0 => self.random.below(self.tree.names.len()) as u32,
            1 => {
                let shown = self.piece();
                self.name(&shown)
            }
            _ => raw,
        };
        [kind, raw, display]
    }

    fn descriptor(&mut self, text: &str) -> [u32; 3] {
        self.named(2, text)
    }

    /// A raw line near the ranges of the member that was declared last, or of another; its display line is the same or any.
    fn line(&mut self) -> [u32; 3] {
        let row = if self.random.once_in(3) {
            self.any_member().map_or([0; 15], |member| member.row)
        } else {
            self.declared
        };
        let raw = near_line(self.random, &row);
        let display = if self.random.once_in(2) {
            raw
        } else {
            self.random.draw() as u32
        };
        [3, raw, display]
    }

    fn other(&mut self) -> [u32; 3] {
        [0, self.random.draw() as u32, self.random.draw() as u32]
    }

    /// "its first member name, the first descriptor after it": one text in six is near what it would be.
    fn signature(&mut self, name: String, descriptor: String) -> Vec<[u32; 3]> {
        let [name, descriptor] = [name, descriptor].map(|text| {
            if self.random.once_in(6) {
                near(self.random, &text)
            } else {
                text
            }
        });
        let mut tokens = vec![self.named(1, &name)];
        if self.random.once_in(4) {
            tokens.push(self.other());
        }
        tokens.push(self.descriptor(&descriptor));
        tokens
    }

    /// A member of the class given, as it is declared.
    fn declaration(&mut self) -> Vec<[u32; 3]> {
        let (_, name, descriptor) = self.member();
        let mut tokens = vec![self.other()];
        tokens.extend(self.signature(name, descriptor));
        if self.random.once_in(3) {
            tokens.push(self.line());
        }
        tokens
    }

    /// A member with its owner before it, now and then with a descriptor that starts `(` between them, and a line.
    fn invocation(&mut self) -> Vec<[u32; 3]> {
        let (owner, name, descriptor) = self.member();
        let mut tokens = vec![self.other(), self.descriptor(&owner)];
        if self.random.once_in(4) {
            let between = format!("({}", self.piece());
            tokens.push(self.descriptor(&between));
        }
        if self.random.once_in(4) {
            tokens.push(self.line());
        }
        tokens.extend(self.signature(name, descriptor));
        if self.random.once_in(3) {
            tokens.push(self.line());
        }
        tokens
    }

    fn any_token(&mut self) -> [u32; 3] {
        match self.random.below(6) {
            0 => self.other(),
            1 => self.line(),
            2 => {
                let (_, name, _) = self.member();
                self.named(1, &name)
            }
            _ => {
                let text = self.descriptor_text();
                self.descriptor(&text)
            }
        }
    }

    fn tokens(&mut self) -> Vec<[u32; 3]> {
        match self.random.below(8) {
            0 | 1 => self.declaration(),
            2 => self.invocation(),
            3 => [self.invocation(), self.declaration()].concat(),
            4 | 5 => (0..1 + self.random.below(2)).map(|_| self.line()).collect(),
            _ => (0..self.random.below(7))
                .map(|_| self.any_token())
                .collect(),
        }
    }
}

/// The deepest tree that the original is asked for.
const LEVELS: usize = 512;

/// The parents of a tree's nodes: usually few nodes, one in a hundred times each below the one before it, up to 512 deep.
fn parents(random: &mut Random) -> Vec<u32> {
    let deep = random.once_in(100);
    let count = if deep {
        LEVELS - random.below(LEVELS) * random.below(2)
    } else {
        1 + random.below(8)
    };
    let parent = |row: usize| match row {
        0 => u32::MAX,
        _ if deep || random.once_in(2) => row as u32 - 1,
        _ => random.below(row) as u32,
    };
    (0..count).map(parent).collect()
}

/// A tree of the class given.
pub fn tree(random: &mut Random, words: &Words, class: &str) -> TreeFile {
    let parents = parents(random);
    let mut maker = Maker {
        random,
        words,
        class,
        tree: TreeFile::default(),
        declared: [0; 15],
    };
    for parent in parents {
        let tokens = maker.tokens();
        maker.tree.nodes.push((parent, tokens));
    }
    if maker.random.once_in(8) {
        // name bytes that no token names, and rows over parts of a text
        let text = tree_files::characters(maker.random, 12);
        maker.name(&text);
    }
    maker.tree
}
