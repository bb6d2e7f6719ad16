//! A tree file as text that a person can read and write, and back, byte for byte.
//!
//! A line is a node, indented below its parent; `^N` in front names the parent's row where the indentation does not. Behind it stand its
//! tokens, or `-` where it has none: `m"c"="run"` a member name as it is and as it is shown, `d"Lx;"` a descriptor that is shown as it is,
//! `@3=12` a source line, `.1:2` anything else. Names get their numbers in the order of first use. Where a file has them otherwise,
//! lines in front say so: `name "c"` is the next name, its bytes behind all before; `name @7+3` one whose bytes stand there; `bytes "x"` or
//! `bytes x00FF` bytes of no name. Then `#8` behind a text is its name's number where an earlier name has the same text, and stands alone
//! for a name of over 200 bytes, so that a file in which many tokens share one does not make an endless text. Lines that start with `//`,
//! and empty ones, are passed over.

mod read;
mod write;

pub use read::tree_of;
pub use write::text_of;

/// Nodes that are deeper are not indented further.
const DEEPEST: usize = 40;

/// Longer names stand once, where names are said, and by their numbers everywhere else.
const LONG: u32 = 200;

/// What is indented, and the row of the node that stands there: the innermost is last.
#[derive(Default)]
struct Path(Vec<(usize, u32)>);

impl Path {
    /// The parent of a node with an indentation, by those before it.
    fn parent(&mut self, indent: usize) -> Option<u32> {
        while self.0.last().is_some_and(|(own, _)| *own >= indent) {
            self.0.pop();
        }
        self.0.last().map(|(_, row)| *row)
    }

    fn enter(&mut self, indent: usize, row: u32) {
        self.0.push((indent, row));
    }
}
