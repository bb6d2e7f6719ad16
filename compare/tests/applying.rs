//! The plain program for applying, and the makers of trees, with no proved library at hand.

use clumarief_compare::apply_trees::{self, Words};
use clumarief_compare::plain::applying::{LONGEST_TREE, answered, apply};
use clumarief_compare::plain::trees::is_well_formed;
use clumarief_compare::plain::{self, LIMITS, Loaded, Lookup};
use clumarief_compare::random::Random;
use clumarief_compare::tree_files::TreeFile;

const MAPPING: &str = "a.Main -> x:
    int n -> b
    1:9:void run(a.Main):10:12 -> c
    2:4:void b.Other.run():20:22 -> d
b.Other -> y:
    1:9:void run(a.Main):30:38 -> c
";

fn load(text: &str) -> Loaded {
    let read = plain::read(text.as_bytes(), true).expect("a good text");
    read.fit(LIMITS).expect("within the limits")
}

fn lookup(loaded: &Loaded) -> Lookup<'_> {
    let counts = [
        loaded.classes.len(),
        loaded.members.len(),
        loaded.pool.len(),
    ];
    Lookup {
        classes: &loaded.classes,
        members: &loaded.members,
        pool: &loaded.pool,
        used: counts.map(|count| count as u32),
    }
}

/// Nodes by their parents and tokens, a token by its kind and its raw text; its display name is the same.
fn tree(nodes: &[(u32, &[(u32, &str)])]) -> TreeFile {
    let mut tree = TreeFile::default();
    for (parent, tokens) in nodes {
        let mut rows = Vec::new();
        for (kind, text) in *tokens {
            let number = match kind {
                1 | 2 => {
                    let place = tree.bytes.len() as u32;
                    tree.bytes.extend(text.bytes());
                    tree.names.push([place, text.len() as u32]);
                    tree.names.len() as u32 - 1
                }
                _ => text.parse().expect("a number"),
            };
            rows.push([*kind, number, number]);
        }
        tree.nodes.push((*parent, rows));
    }
    tree
}

const ROOT: u32 = u32::MAX;

/// What the tokens show after applying to a tree of class `Lx;`: names, and lines.
fn shown(nodes: &[(u32, &[(u32, &str)])]) -> Vec<String> {
    let (loaded, file) = (load(MAPPING), tree(nodes).written());
    let written = apply(&lookup(&loaded), b"Lx;", &file, LONGEST_TREE).expect("accepted");
    let applied = TreeFile::read(&written).expect("well formed");
    let name = |number: u32| {
        let [place, length] = applied.names[number as usize].map(|number| number as usize);
        String::from_utf8_lossy(&applied.bytes[place..place + length]).into_owned()
    };
    let tokens = applied.nodes.iter().flat_map(|(_, tokens)| tokens);
    let shown = |[kind, _, b]: &[u32; 3]| match kind {
        1 | 2 => name(*b),
        _ => b.to_string(),
    };
    tokens.map(shown).collect()
}

#[test]
fn a_method_and_the_lines_below_it() {
    let nodes: &[(u32, &[(u32, &str)])] = &[
        (ROOT, &[(2, "Lx;")]),
        (0, &[(0, "7"), (1, "c"), (2, "(Lx;)V")]),
        (1, &[(3, "2")]),
        (1, &[(3, "9"), (3, "10")]),
        (0, &[(3, "2")]),
    ];
    let expected = ["La/Main;", "7", "run", "(La/Main;)V", "11", "12", "10", "2"];
    assert_eq!(shown(nodes), expected);
}

#[test]
fn fields_and_methods_of_other_classes() {
    let nodes: &[(u32, &[(u32, &str)])] = &[
        (ROOT, &[(1, "b"), (2, "I"), (1, "b"), (2, "Lx")]),
        (
            0,
            &[(2, "Ly;"), (2, "()Lx;"), (1, "c"), (2, "(Lx;)V"), (3, "2")],
        ),
        (0, &[(2, "Ly;"), (1, "b"), (2, "I")]),
        (0, &[(1, "d"), (2, "()V"), (3, "2")]),
    ];
    let first = ["n", "I", "b", "Lx"];
    // its line context is the parent's, which has none
    let second = ["Lb/Other;", "()La/Main;", "run", "(La/Main;)V", "2"];
    let third = ["Lb/Other;", "b", "I"];
    // no own match has a name or a range, and another owner's gives the name alone
    let fourth = ["run", "()V", "2"];
    assert_eq!(
        shown(nodes),
        [&first[..], &second, &third, &fourth].concat()
    );
}

/// "Giving an invocation's own line the enclosing context though it names a method of the class given."
#[test]
fn an_invocation_of_the_own_class_is_the_context_of_its_line() {
    let nodes: &[(u32, &[(u32, &str)])] = &[
        (ROOT, &[(1, "c"), (2, "(Lx;)V"), (3, "2")]),
        (0, &[(3, "2"), (2, "Lx;"), (1, "q"), (2, "()V"), (3, "2")]),
        (1, &[(3, "2")]),
        (0, &[(3, "2")]),
    ];
    let first = ["run", "(La/Main;)V", "11"];
    let second = ["2", "La/Main;", "q", "()V", "2"];
    assert_eq!(shown(nodes), [&first[..], &second, &["2", "11"]].concat());
}

#[test]
fn descriptors_piece_by_piece() {
    let pieces = [
        ("[Lx;", "[La/Main;"),
        ("Lx", "Lx"),
        ("(Lx;ILy;[Lq;)Lx;", "(La/Main;ILb/Other;[Lq;)La/Main;"),
        ("Lq;Lx;Lq", "Lq;La/Main;Lq"),
        ("LLx;", "LLx;"),
        ("", ""),
    ];
    for (raw, display) in pieces {
        assert_eq!(shown(&[(ROOT, &[(2, raw)])]), [display], "{raw}");
    }
}

#[test]
fn an_equal_name_is_appended() {
    let loaded = load("a -> a:\n int n -> n\n");
    let file = tree(&[(ROOT, &[(2, "La;"), (1, "n"), (2, "I")])]);
    let written = apply(&lookup(&loaded), b"La;", &file.written(), 200).expect("accepted");
    let applied = TreeFile::read(&written).expect("well formed");
    assert_eq!(applied.names, [[0, 3], [3, 1], [4, 1], [5, 3], [8, 1]]);
    assert_eq!(applied.bytes, b"La;nILa;n");
    assert_eq!(applied.nodes[0].1, [[2, 0, 3], [1, 1, 4], [2, 2, 2]]);
}

#[test]
fn refusals_in_their_order() {
    let loaded = load(MAPPING);
    let (good, mut bad) = (lookup(&loaded), lookup(&loaded));
    bad.used[0] += 1;
    let file = tree(&[(ROOT, &[(2, "Lx;")])]).written();
    let needed = file.len() + 8 + "La/Main;".len();
    let longer = vec![0; LONGEST_TREE + 1];
    assert_eq!(apply(&bad, b"Lx;", &longer, 0), Err(14));
    assert_eq!(apply(&good, b"Lx;", &longer, 0), Err(1));
    assert_eq!(apply(&good, b"Lx;", &longer[1..], 0), Err(12));
    assert_eq!(apply(&good, b"Lx;", &file, needed - 1), Err(13));
    assert!(apply(&good, b"Lx;", &file, needed).is_ok());
}

#[test]
fn the_output_is_zero_but_for_what_is_written() {
    let accepted = answered(Ok(vec![7, 8]), 4);
    assert_eq!((accepted.number, accepted.length), (0, 2));
    assert_eq!(accepted.output, [7, 8, 0, 0]);
    let refused = answered(Err(13), 2);
    assert_eq!((refused.number, refused.length), (13, 0));
    assert_eq!(refused.output, [0, 0]);
}

#[test]
fn more_than_the_longest_is_refused_in_any_room() {
    let loaded = load(MAPPING);
    let mut file = tree(&[(ROOT, &[(2, "Lx;")])]);
    let appended = 8 + "La/Main;".len();
    let more = LONGEST_TREE - appended - file.written().len();
    for (length, number) in [(more, 0), (more + 1, 13)] {
        file.bytes.resize(3 + length, b'a');
        let applied = apply(&lookup(&loaded), b"Lx;", &file.written(), usize::MAX);
        let said = applied.map_or_else(|number| number, |_| 0);
        assert_eq!(said, number, "{length}");
    }
}

#[test]
fn made_trees_are_well_formed_and_change() {
    let loaded = load(MAPPING);
    let words = Words::of(&loaded);
    let mut random = Random::new(1, "applying");
    let (mut same, mut deepest) = (0, 0);
    for _ in 0..1_000 {
        let class = words.class(&mut random);
        let tree = apply_trees::tree(&mut random, &words, &class);
        deepest = deepest.max(tree.nodes.len());
        let file = tree.written();
        assert!(is_well_formed(&file));
        let written = apply(&lookup(&loaded), class.as_bytes(), &file, LONGEST_TREE);
        let written = written.expect("accepted");
        assert!(is_well_formed(&written));
        same += u32::from(written == file);
    }
    assert!((10..500).contains(&same), "{same} stay the same");
    assert!((300..=512).contains(&deepest), "{deepest} deep");
}

#[test]
fn simpler_trees_are_well_formed_and_smaller() {
    let nodes: &[(u32, &[(u32, &str)])] = &[
        (ROOT, &[(2, "Lx;"), (3, "1")]),
        (0, &[(1, "c")]),
        (1, &[(0, "1")]),
        (1, &[]),
    ];
    let mut tree = tree(nodes);
    tree.names.push([0, 1]);
    let simpler: Vec<TreeFile> = tree.simpler().collect();
    // without what no token names, without each node but the root, without each token
    assert_eq!(simpler.len(), 1 + 3 + 4);
    for smaller in simpler {
        let file = smaller.written();
        assert!(is_well_formed(&file) && file.len() < tree.written().len());
    }
}
