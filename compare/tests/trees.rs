//! The plain program for tree files, and the makers of them, with no proved library at hand.

use clumarief_compare::plain::trees::{Signature, is_well_formed, read};
use clumarief_compare::random::Random;
use clumarief_compare::tree_files::{self, TreeFile};

/// A root with a descriptor `Lx;`, the member name `run` and a descriptor `()V`; and a node below it.
fn two_nodes() -> TreeFile {
    TreeFile {
        nodes: vec![
            (u32::MAX, vec![[2, 0, 0], [3, 7, 7], [1, 1, 1], [2, 2, 0]]),
            (0, vec![[0, 9, 9]]),
        ],
        names: vec![[0, 3], [3, 3], [6, 3]],
        bytes: b"Lx;run()V".to_vec(),
    }
}

#[test]
fn a_file_is_well_formed_at_its_own_length_alone() {
    let file = two_nodes().written();
    assert_eq!(file.len(), 16 + 2 * 8 + 5 * 12 + 3 * 8 + 9);
    assert!(is_well_formed(&file));
    let longer = [&file[..], &[0]].concat();
    assert!(!is_well_formed(&longer));
    assert!((0..file.len()).all(|length| !is_well_formed(&file[..length])));
}

#[test]
fn each_check_fails_by_itself() {
    let spoilt: [fn(&mut TreeFile); 8] = [
        |tree| tree.nodes.clear(),
        |tree| tree.nodes[0].0 = 0,
        |tree| tree.nodes[1].0 = 1,
        |tree| tree.nodes[1].1[0] = [4, 0, 0],
        |tree| tree.nodes[1].1[0] = [1, 0, 3],
        |tree| tree.names[2] = [6, 4],
        |tree| tree.names[2] = [10, 0],
        |tree| tree.bytes[8] = 0xC3,
    ];
    for (at, spoil) in spoilt.into_iter().enumerate() {
        let mut tree = two_nodes();
        spoil(&mut tree);
        assert!(!is_well_formed(&tree.written()), "{at}");
    }
}

#[test]
fn the_signature_of_a_node() {
    let file = two_nodes().written();
    let tree = read(&file).expect("a file whose length agrees");
    let root = Signature {
        member: 2,
        descriptor: 3,
        owner: Some(0),
    };
    assert_eq!(tree.signature(0, 4), Some(root));
    let given = Signature {
        owner: None,
        ..root
    };
    assert_eq!(tree.signature(1, 3), Some(given));
    assert_eq!(tree.signature(0, 3), None);
    assert_eq!(tree.signature(4, 1), None);
    assert_eq!(tree.signature(4, 2), None);
}

#[test]
fn made_trees_are_well_formed() {
    let mut random = Random::new(1, "trees");
    for length in [250, 1_000, 2_000] {
        for _ in 0..50 {
            assert!(is_well_formed(&tree_files::small(&mut random).written()));
            assert!(is_well_formed(
                &tree_files::long(&mut random, length).written()
            ));
        }
        assert!(is_well_formed(
            &tree_files::usual(&mut random, length).written()
        ));
    }
}
