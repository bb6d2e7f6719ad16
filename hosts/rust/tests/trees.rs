//! Tree files as text: shown, and made again to the byte.

mod common;

use std::fs;

use common::{Folder, TOOL};

#[test]
fn a_tree_is_shown_and_made_again() {
    let folder = Folder::new();
    let text = "d\"Lx;\" @1\n  .1:2 m\"c\"=\"r\\\"\\u{A}é\" d\"(Lx;)V\" @1=10\n    @3 @4\n  -\n";
    folder.file("text", text.as_bytes());
    assert_eq!(
        folder
            .shell(&format!(
                "{TOOL} tree make text > tree && {TOOL} tree show tree"
            ))
            .text,
        text
    );
    let applied = folder.run(&["apply", "examples/small.map", "x", "tree", "-o", "applied"]);
    assert_eq!(
        (
            applied.status,
            applied.text.as_str(),
            applied.error.as_str()
        ),
        (0, "", "")
    );
    let again = folder.shell(&format!("{TOOL} tree show applied | {TOOL} tree make"));
    assert_eq!(
        again.out,
        fs::read(folder.0.join("applied")).expect("it is there")
    );
}

#[test]
fn texts_that_are_no_tree() {
    let folder = Folder::new();
    let refused = |text: &str| {
        let told = folder
            .file("text", text.as_bytes())
            .run(&["tree", "make", "text"]);
        assert_eq!((told.status, told.text.as_str()), (1, ""), "{text}");
        told.error
    };
    assert_eq!(
        refused("@1\n@2\n"),
        "text:2:1: wanted an indentation below the first node\n"
    );
    assert_eq!(
        refused("d\"Lx;\n"),
        "text:1:6: wanted the quotation mark that ends the text\n"
    );
    assert_eq!(
        refused("@4294967296\n"),
        "text:1:2: wanted a number up to 4294967295\n"
    );
    assert_eq!(
        refused("@1 x\n"),
        "text:1:4: wanted a token: m\"..\", d\"..\", @LINE or .A:B\n"
    );
    assert_eq!(
        refused("name \"a\"\nd\"b\"\n"),
        "text:2:2: wanted a text that a `name` line in front has\n"
    );
    for text in ["", "d\"a\"#7\n", "@1\n  ^5 @2\n", "name @0+9\n@1\n"] {
        assert!(refused(text).contains("wanted a node, parents"), "{text}");
    }
}

/// Numbers that look random, from a seed.
struct Random(u64);

impl Random {
    fn below(&mut self, most: u32) -> u32 {
        self.0 = self
            .0
            .wrapping_mul(6364136223846793005)
            .wrapping_add(1442695040888963407);
        ((self.0 >> 33) % u64::from(most)) as u32
    }
}

/// A tree file of random parts: names that overlap and repeat, bytes of no name, rows in any order below their parents.
fn random_file(random: &mut Random) -> Vec<u8> {
    let bytes: Vec<u8> = (0..random.below(30))
        .map(|_| b"Lx;\n\"\\a\x01"[random.below(8) as usize])
        .chain(*b"\xFF")
        .collect();
    let good = bytes.len() as u32 - 1;
    let names: Vec<[u32; 2]> = (0..1 + random.below(5))
        .map(|_| {
            let place = random.below(good + 1);
            [place, random.below(good - place + 1)]
        })
        .collect();
    let (mut rows, mut tokens, nodes) = (Vec::new(), Vec::new(), 1 + random.below(6));
    for row in 0..nodes {
        let count = random.below(4);
        rows.extend([
            if row == 0 {
                u32::MAX
            } else {
                random.below(row)
            },
            count,
        ]);
        for _ in 0..count {
            let kind = random.below(4);
            let most = if kind == 1 || kind == 2 {
                names.len() as u32
            } else {
                u32::MAX
            };
            tokens.extend([kind, random.below(most), random.below(most)]);
        }
    }
    let counts = [
        nodes,
        tokens.len() as u32 / 3,
        names.len() as u32,
        bytes.len() as u32,
    ];
    let numbers = counts
        .into_iter()
        .chain(rows)
        .chain(tokens)
        .chain(names.into_iter().flatten());
    numbers.flat_map(u32::to_le_bytes).chain(bytes).collect()
}

#[test]
fn every_tree_file_is_made_again_to_the_byte() {
    let folder = Folder::new();
    let mut random = Random(1);
    for round in 0..60 {
        let file = random_file(&mut random);
        folder.file("tree", &file);
        let again = folder.shell(&format!("{TOOL} tree show tree | {TOOL} tree make"));
        assert_eq!(
            (again.error.as_str(), again.out == file),
            ("", true),
            "round {round}: {}",
            folder.run(&["tree", "show", "tree"]).text
        );
    }
}

#[test]
fn a_deep_tree_and_a_long_name_make_no_endless_text() {
    let folder = Folder::new();
    let mut text = format!("name \"{}\"\n@1\n", "a".repeat(300_000));
    for row in 0..20_000 {
        text += &format!("^{row} d#0\n");
    }
    folder.file("text", text.as_bytes());
    assert_eq!(
        folder
            .shell(&format!("{TOOL} tree make text > tree"))
            .status,
        0
    );
    let shown = folder.run(&["tree", "show", "tree"]);
    assert!(
        shown.status == 0 && shown.out.len() < 4_000_000,
        "{} bytes",
        shown.out.len()
    );
    let again = folder.shell(&format!("{TOOL} tree show tree | {TOOL} tree make"));
    assert_eq!(
        again.out,
        fs::read(folder.0.join("tree")).expect("it is there")
    );
}
