//! `tree show` and `tree make`.

use clumarief::tree::Tree;
use clumarief::MOST_TREE;

use crate::tree_text::{text_of, tree_of};
use crate::words::{read, read_tree, Failure, Outcome};

/// The longest text that is read: far more than the text of any tree file.
const MOST_TEXT: usize = 256 << 20;

/// A tree file that is read, or why it is not.
pub fn tree(name: &str, file: &[u8]) -> Result<Tree, Failure> {
    if file.len() > MOST_TREE {
        return Err(Failure::Refused(format!(
            "{name}: refused 1: the tree file is over 4,194,304 bytes"
        )));
    }
    Tree::read(file)
        .ok_or_else(|| Failure::Refused(format!("{name}: refused 12: the tree file is malformed")))
}

/// Prints a tree file as text.
pub fn show(name: &str, out: &mut Vec<u8>) -> Outcome {
    let file = read_tree(name)?;
    out.extend(text_of(&tree(name, &file)?).into_bytes());
    Ok(())
}

/// Writes the tree file of a text.
pub fn make(name: &str, out: &mut Vec<u8>) -> Outcome {
    let bytes = read(name, MOST_TEXT)?;
    let text = String::from_utf8(bytes)
        .map_err(|_| Failure::Refused(format!("{name}: the text is not UTF-8")))?;
    let made = tree_of(&text).map_err(|unread| {
        Failure::Refused(format!(
            "{name}:{}:{}: wanted {}",
            unread.line, unread.column, unread.wanted
        ))
    })?;
    out.extend(made.written());
    Ok(())
}
