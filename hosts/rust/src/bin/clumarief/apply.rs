//! `apply`: a mapping applied to a tree file.

use std::fs;
use std::io::{self, IsTerminal, Write};

use clumarief::tree::{Token, Tree};

use crate::show::tree;
use crate::words::{descriptor, load, read_tree, Failure, Outcome};

/// Before and after are set side by side up to this width.
const WIDEST: usize = 60;

/// Applies a mapping, and writes the tree file or shows it.
pub fn apply(words: &[&str], out: &mut Vec<u8>) -> Outcome {
    let (shown, rest) = match words {
        ["--show", rest @ ..] => (true, rest),
        [rest @ .., "--show"] => (true, rest),
        rest => (false, rest),
    };
    let (file, class, name, target) = match rest {
        [file, class, name] => (file, class, name, None),
        [file, class, name, "-o", target] | ["-o", target, file, class, name] if !shown => {
            (file, class, name, Some(target))
        }
        _ => {
            return Err(Failure::Usage(
                "apply takes FILE CLASS TREE, and -o OUT or --show".into(),
            ))
        }
    };
    if !shown && target.is_none() && io::stdout().is_terminal() {
        return Err(Failure::Usage(
            "a tree file is no text: name a file by -o, or ask for --show".into(),
        ));
    }
    let mapping = load(file)?;
    let before = read_tree(name)?;
    let after = mapping
        .apply(&descriptor(class), &before)
        .map_err(|refusal| Failure::Refused(format!("{name}: {refusal}")))?;
    if shown {
        return side_by_side(&tree(name, &before)?, &tree(name, &after)?, out);
    }
    match target {
        Some(target) => {
            fs::write(target, after).map_err(|error| Failure::Io(target.to_string(), error))
        }
        None => {
            out.extend(after);
            Ok(())
        }
    }
}

/// Prints each node before and after, as it is shown.
fn side_by_side(before: &Tree, after: &Tree, out: &mut Vec<u8>) -> Outcome {
    let left = shown_nodes(before);
    let width = left
        .iter()
        .map(|line| line.chars().count())
        .filter(|width| *width <= WIDEST)
        .max()
        .unwrap_or_default();
    for (left, right) in left.iter().zip(shown_nodes(after)) {
        let mark = if *left == right { ' ' } else { '|' };
        writeln!(
            out,
            "{}",
            format!("{left:width$} {mark} {right}").trim_end()
        )?;
    }
    Ok(())
}

/// Each node in one line: what its tokens show, indented below its parent.
fn shown_nodes(tree: &Tree) -> Vec<String> {
    let mut depths: Vec<usize> = Vec::new();
    tree.nodes()
        .iter()
        .map(|node| {
            let depth = node.parent.map_or(0, |parent| depths[parent as usize] + 1);
            depths.push(depth);
            let tokens: Vec<String> = node
                .tokens
                .iter()
                .map(|token| shown_token(tree, token))
                .collect();
            " ".repeat(2 * depth.min(WIDEST / 4)) + &tokens.join(" ")
        })
        .collect()
}

fn shown_token(tree: &Tree, token: &Token) -> String {
    match *token {
        Token::Other(..) => ".".into(),
        Token::MemberName { display, .. } | Token::Descriptor { display, .. } => {
            crate::words::visible(tree.text(display))
        }
        Token::SourceLine { display, .. } => format!("@{display}"),
    }
}
