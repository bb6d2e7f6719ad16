//! Trees that mappings are applied to: of a real mapping's own names, and of many nodes with a line in each.

use clumarief_compare::lookup_tables::LentTables;
use clumarief_compare::random::Random;
use clumarief_compare::tree_files::TreeFile;
use std::collections::HashMap;

/// A member by its raw texts, and the start and end of its raw range, if it has one.
struct Member<'a> {
    owner: &'a str,
    name: &'a str,
    descriptor: &'a str,
    range: Option<(u32, u32)>,
}

/// The names of tables, and the class of which a tree is made.
pub struct Names<'a> {
    raws: Vec<&'a str>,
    members: Vec<Member<'a>>,
    pub class: &'a str,
}

fn text(lent: &LentTables, place: u32, length: u32) -> &str {
    std::str::from_utf8(lent.text(place, length)).unwrap_or_default()
}

impl<'a> Names<'a> {
    /// The class is the one with the most methods that have a raw range.
    pub fn of(lent: &'a LentTables) -> Self {
        let class_of = |row: &[u32; 4]| text(lent, row[0], row[1]);
        let member = |row: &[u32; 15]| Member {
            owner: class_of(&lent.classes[row[1] as usize]),
            name: text(lent, row[2], row[3]),
            descriptor: text(lent, row[4], row[5]),
            range: (row[10] == 2).then_some((row[11], row[12])),
        };
        let raws: Vec<&str> = lent.classes.iter().map(class_of).collect();
        let members: Vec<Member> = lent.members.iter().map(member).collect();
        let ranges = |class: &&str| {
            let own = members.iter().filter(|member| member.owner == *class);
            own.filter(|member| member.range.is_some()).count()
        };
        let class = raws.iter().copied().max_by_key(ranges).unwrap_or_default();
        Names {
            raws,
            members,
            class,
        }
    }

    fn own_methods(&self) -> Vec<&Member<'a>> {
        let own = |member: &&Member| member.owner == self.class && member.range.is_some();
        self.members.iter().filter(own).collect()
    }
}

/// Puts tokens and their names.
struct Writer<'a> {
    random: Random,
    names: &'a Names<'a>,
    tree: TreeFile,
    /// the number of each name that is there, where names are shared
    known: Option<HashMap<String, u32>>,
}

impl Writer<'_> {
    fn name(&mut self, text: &str) -> u32 {
        let known = self.known.as_ref().and_then(|known| known.get(text));
        if let Some(known) = known {
            return *known;
        }
        let (place, number) = (self.tree.bytes.len(), self.tree.names.len() as u32);
        self.tree.bytes.extend(text.bytes());
        self.tree.names.push([place as u32, text.len() as u32]);
        if let Some(known) = &mut self.known {
            known.insert(text.to_owned(), number);
        }
        number
    }

    /// A token of a name, one in ten of them unknown.
    fn named(&mut self, kind: u32, text: &str) -> [u32; 3] {
        let number = if self.random.once_in(10) {
            let at = self.random.below(100);
            self.name(&format!("Lunknown/Class{at};"))
        } else {
            self.name(text)
        };
        [kind, number, number]
    }

    fn other(&mut self) -> [u32; 3] {
        [0, self.random.draw() as u32, 0]
    }

    /// A line of the range, one in ten times beyond it.
    fn line(&mut self, range: Option<(u32, u32)>) -> [u32; 3] {
        let (start, end) = range.unwrap_or((1, 1));
        let within = self
            .random
            .below(end.saturating_sub(start) as usize + 1)
            .wrapping_add(if self.random.once_in(10) { 5_000 } else { 0 });
        let line = start.saturating_add(within as u32);
        [3, line, line]
    }

    /// A descriptor of one to eight pieces.
    fn pieces(&mut self) -> String {
        let names = self.names;
        let count = 1 + self.random.below(8);
        let pieces = (1..count).map(|_| *self.random.pick(&names.raws));
        let arguments: String = pieces.collect();
        let last = *self.random.pick(&names.raws);
        if count == 1 {
            last.to_owned()
        } else {
            format!("({arguments}){last}")
        }
    }

    /// What stands in a method with that range: a line, an invocation or a field, a descriptor, or other tokens.
    fn instruction(&mut self, range: Option<(u32, u32)>) -> Vec<[u32; 3]> {
        let mut tokens = vec![self.other(), self.other()];
        match self.random.below(6) {
            0 => tokens.push(self.line(range)),
            1..4 => {
                let names = self.names;
                let member = self.random.pick(&names.members);
                tokens.push(self.named(2, member.owner));
                tokens.push(self.named(1, member.name));
                tokens.push(self.named(2, member.descriptor));
            }
            4 => {
                let text = self.pieces();
                tokens.push(self.named(2, &text));
            }
            _ => tokens.push(self.other()),
        }
        tokens
    }
}

/// A tree of at least so many tokens: methods of the class, with some twenty instructions below each.
pub fn usual(names: &Names, tokens: usize, shared: bool) -> TreeFile {
    let mut writer = Writer {
        random: Random::new(1, "a tree to apply to"),
        names,
        tree: TreeFile::default(),
        known: shared.then(HashMap::new),
    };
    let (methods, mut written) = (names.own_methods(), 0);
    let root = vec![writer.other(), writer.named(2, names.class)];
    writer.tree.nodes.push((u32::MAX, root));
    while written < tokens && !methods.is_empty() {
        let method = *writer.random.pick(&methods);
        let row = writer.tree.nodes.len() as u32;
        let mut head = vec![writer.other()];
        head.push(writer.named(1, method.name));
        head.push(writer.named(2, method.descriptor));
        written += head.len();
        writer.tree.nodes.push((0, head));
        for _ in 0..20 {
            let tokens = writer.instruction(method.range);
            written += tokens.len();
            writer.tree.nodes.push((row, tokens));
        }
    }
    writer.tree
}

/// So many nodes, in chains of so many levels below the root: a method first, and a line in every node.
pub fn deep(names: &Names, nodes: usize, levels: usize) -> TreeFile {
    let mut writer = Writer {
        random: Random::new(1, "a deep tree"),
        names,
        tree: TreeFile::default(),
        known: Some(HashMap::new()),
    };
    writer.tree.nodes.push((u32::MAX, vec![[3, 1, 1]]));
    let (methods, mut range) = (names.own_methods(), None);
    for row in 1..nodes {
        let mut tokens = Vec::new();
        let starts = (row - 1) % (levels - 1) == 0;
        if let Some(method) = methods.get(row % methods.len().max(1)).filter(|_| starts) {
            tokens.push(writer.named(1, method.name));
            tokens.push(writer.named(2, method.descriptor));
            range = method.range;
        }
        tokens.push(writer.line(range));
        let parent = if starts { 0 } else { row as u32 - 1 };
        writer.tree.nodes.push((parent, tokens));
    }
    writer.tree
}
