//! The library as a service uses it.

use clumarief::tree::{Name, Node, Token, Tree};
use clumarief::{Mapping, MemberKind, Range, MOST_CLASSES, MOST_MEMBERS, MOST_TEXT, MOST_TREE};

const SMALL: &[u8] = include_bytes!("../../../examples/small.map");
const REAL: &[u8] = include_bytes!("../../../examples/commons-cli.map");

fn small() -> Mapping {
    Mapping::parse(SMALL).expect("it is accepted")
}

#[test]
fn a_load_says_what_became_of_its_lines() {
    let fates = small().fates();
    assert_eq!(
        (fates.lines, fates.blank, fates.applied, fates.idle),
        (5, 1, 1, 0)
    );
    assert_eq!(
        (fates.class, fates.field, fates.method, fates.short),
        (1, 1, 1, 0)
    );
    assert_eq!(small().names(), 32);
}

#[test]
fn classes_and_members_are_read_back() {
    let mapping = small();
    let class = mapping.classes().next().expect("there is one");
    assert_eq!((class.raw, class.display), ("Lx;", "La/Main;"));
    let members: Vec<_> = mapping.members().collect();
    assert_eq!(
        (
            members[0].raw_name,
            members[0].descriptor,
            members[0].name,
            members[0].kind
        ),
        ("b", "I", "n", MemberKind::Field)
    );
    let lines = MemberKind::Method {
        owner: "La/Main;",
        raw_lines: Some(Range { start: 1, end: 3 }),
        display_lines: Some(Range { start: 10, end: 12 }),
    };
    assert_eq!(
        (
            members[1].raw_name,
            members[1].descriptor,
            members[1].name,
            members[1].kind
        ),
        ("c", "(Lx;)V", "run", lines)
    );
}

#[test]
fn names_are_looked_up_both_ways() {
    let mapping = small();
    assert_eq!(mapping.display_class_name("Lx;"), Some("La/Main;"));
    assert_eq!(mapping.raw_class_name("La/Main;"), Some("Lx;"));
    assert_eq!(mapping.display_class_name("La/Main;"), None);
    assert_eq!(
        (
            mapping.mapped_class_name("Lx;"),
            mapping.mapped_class_name("Ly;")
        ),
        ("La/Main;", "Ly;")
    );
    assert_eq!(
        mapping
            .display_field_name("Lx;", "b", "I")
            .map(|field| (field.row, field.name)),
        Some((0, "n"))
    );
    assert_eq!(mapping.display_field_name("Lx;", "b", "J"), None);
    assert_eq!(
        mapping
            .display_line("Lx;", "c", "(Lx;)V", 3)
            .map(|shown| shown.line),
        Some(12)
    );
    assert_eq!(mapping.display_line("Lx;", "c", "(Lx;)V", 4), None);
}

#[test]
fn each_class_of_a_real_file_turns_back() {
    let mapping = Mapping::parse(REAL).expect("it is accepted");
    assert!(mapping.classes().len() > 20);
    for class in mapping.classes() {
        assert_eq!(mapping.display_class_name(class.raw), Some(class.display));
        assert_eq!(mapping.raw_class_name(class.display), Some(class.raw));
    }
}

#[test]
fn refusals_have_their_numbers_and_places() {
    let refused = |text: &[u8]| {
        Mapping::parse(text)
            .map_err(|refusal| (refusal.number(), refusal.place(), refusal.length()))
            .unwrap_err()
    };
    assert_eq!(refused(&vec![b'\n'; MOST_TEXT + 1]), (1, 0, 0));
    assert_eq!(refused(b"a\xC0\x80"), (2, 1, 1));
    assert_eq!(refused(b"\xE2\x82"), (2, 0, 0));
    assert_eq!(refused(b"a -> b"), (3, 1, 0));
    assert_eq!(refused(b" int n -> b"), (4, 1, 0));
    assert_eq!(refused(b"a -> b:\n int n"), (5, 2, 0));
    assert_eq!(refused(b"a -> b:\n n() -> c"), (6, 2, 0));
    assert_eq!(refused(b"a -> b:\n n -> c"), (7, 2, 0));
    assert_eq!(refused(b""), (8, 0, 0));
    assert_eq!(
        refused("a -> b:\n".repeat(MOST_CLASSES + 1).as_bytes()),
        (9, 0, 0)
    );
    assert_eq!(
        refused(format!("a -> b:\n{}", " int a -> b\n".repeat(MOST_MEMBERS + 1)).as_bytes()),
        (10, 0, 0)
    );
    let long = format!(
        "{} -> b:\n{}",
        "a".repeat(1_000),
        " void a() -> b\n".repeat(10_000)
    );
    assert_eq!(refused(long.as_bytes()), (11, 0, 0));
}

#[test]
fn a_text_may_be_as_long_as_is_said() {
    let mut text = b"a -> b:\n".to_vec();
    text.resize(MOST_TEXT, b'\n');
    assert_eq!(
        Mapping::parse(&text).expect("it is accepted").fates().lines as usize,
        MOST_TEXT - 7
    );
}

#[test]
fn a_pool_that_is_too_small_at_first_is_made_larger() {
    // each method names no owner, and takes the display name of its class once more
    let text = format!(
        "{} -> b:\n{}",
        "a".repeat(1_000),
        " void a() -> b\n".repeat(1_000)
    );
    let mapping = Mapping::parse(text.as_bytes()).expect("it is accepted");
    assert!(mapping.names() > 4 * text.len());
}

#[test]
fn marks_go_or_stay() {
    let text = "\u{FEFF}a -> b:".as_bytes();
    assert_eq!(
        Mapping::parse(text)
            .expect("it is accepted")
            .classes()
            .next()
            .map(|class| class.display.to_string()),
        Some("La;".into())
    );
    let stays = Mapping::parse_str(text).expect("it is accepted");
    assert_eq!(
        stays.classes().next().map(|class| class.display),
        Some("L\u{FEFF}a;")
    );
}

#[test]
fn tables_are_stored_and_taken_back() {
    let mapping = small();
    let (classes, members, pool) = mapping.rows();
    let again = Mapping::from_tables(classes.to_vec(), members.to_vec(), pool.to_vec())
        .expect("they are as they were");
    assert_eq!(again.display_class_name("Lx;"), Some("La/Main;"));
    let number = |classes: Vec<_>, members: Vec<_>, pool: Vec<u8>| {
        Mapping::from_tables(classes, members, pool).map_err(|refusal| refusal.number())
    };
    let mut past = classes.to_vec();
    past[0][1] = 33;
    assert_eq!(number(past, members.to_vec(), pool.to_vec()), Err(14));
    let mut kind = members.to_vec();
    kind[0][0] = 2;
    assert_eq!(number(classes.to_vec(), kind, pool.to_vec()), Err(14));
    let mut bytes = pool.to_vec();
    bytes[1] = 0xFF;
    assert_eq!(number(classes.to_vec(), members.to_vec(), bytes), Err(14));
    assert_eq!(
        number(vec![[0; 4]; MOST_CLASSES + 1], Vec::new(), Vec::new()),
        Err(14)
    );
}

/// A tree with a descriptor that is known, one that is not, a method and its line.
fn tree() -> Tree {
    let mut tree = Tree::new();
    let [class, other, name, kind] = ["Lx;", "Ly;", "c", "(Lx;)V"].map(|text| tree.name(text));
    let shown = |name: Name| Token::Descriptor {
        raw: name,
        display: name,
    };
    let root = tree.node(None, &[shown(class), shown(other), Token::Other(7, 8)]);
    tree.node(
        Some(root),
        &[
            Token::MemberName {
                raw: name,
                display: name,
            },
            shown(kind),
            Token::SourceLine { raw: 2, display: 2 },
        ],
    );
    tree
}

#[test]
fn a_mapping_is_applied_to_a_tree() {
    let applied = small()
        .apply("Lx;", &tree().written())
        .expect("it is accepted");
    let applied = Tree::read(&applied).expect("it is well formed");
    let shown = |token: &Token| match *token {
        Token::Other(a, b) => format!("{a}:{b}"),
        Token::MemberName { display, .. } | Token::Descriptor { display, .. } => {
            applied.text(display).to_string()
        }
        Token::SourceLine { display, .. } => display.to_string(),
    };
    let nodes: Vec<Vec<String>> = applied
        .nodes()
        .iter()
        .map(|node| node.tokens.iter().map(shown).collect())
        .collect();
    assert_eq!(
        nodes,
        [
            vec!["La/Main;", "Ly;", "7:8"],
            vec!["run", "(La/Main;)V", "11"]
        ]
    );
}

#[test]
fn a_name_that_grows_much_gets_its_room() {
    let text = format!("{} -> x:\n", "a".repeat(10_000));
    let mapping = Mapping::parse(text.as_bytes()).expect("it is accepted");
    assert!(
        mapping
            .apply("Lx;", &tree().written())
            .expect("it is accepted")
            .len()
            > 20_000
    );
}

#[test]
fn trees_that_are_refused() {
    let mapping = small();
    let number = |file: &[u8]| {
        mapping
            .apply("Lx;", file)
            .map_err(|refusal| refusal.number())
    };
    assert_eq!(number(&[]), Err(12));
    assert_eq!(number(&vec![0; MOST_TREE + 1]), Err(1));
    let mut file = tree().written();
    file.pop();
    assert_eq!((number(&file), Tree::read(&file)), (Err(12), None));
    // names that take up all the room there may be, and the same again for each of two tokens
    let mut large = Tree::new();
    let name = large.name(&"Lx;".repeat(600_000));
    large.node(
        None,
        &[Token::Descriptor {
            raw: name,
            display: name,
        }; 2],
    );
    assert_eq!(number(&large.written()), Err(13));
}

#[test]
fn what_is_read_is_written_again() {
    let file = tree().written();
    assert_eq!(Tree::read(&file).map(|tree| tree.written()), Some(file));
}

/// The library and the proved check agree on files with one byte changed.
#[test]
fn damaged_trees_are_told_alike() {
    let mapping = small();
    let file = tree().written();
    for place in 0..file.len() {
        for byte in [0, 1, 3, 4, 0x7F, 0x80, 0xC3, 0xFF] {
            let mut damaged = file.clone();
            damaged[place] = byte;
            let proved = mapping
                .apply("Lx;", &damaged)
                .map_err(|refusal| refusal.number())
                != Err(12);
            assert_eq!(
                Tree::read(&damaged).is_some(),
                proved,
                "byte {byte} at {place}"
            );
        }
    }
}

#[test]
fn names_that_overlap_are_read_in_time_that_does_not_grow_with_them() {
    let bytes = "é".repeat(500_000).into_bytes();
    let names = (0..100_000).map(|number| [2 * number, 600_000]).collect();
    let node = Node {
        parent: None,
        tokens: Vec::new(),
    };
    assert!(Tree::of_parts(vec![node.clone()], names, bytes.clone()).is_some());
    assert!(Tree::of_parts(vec![node.clone()], vec![[1, 4]], bytes.clone()).is_none());
    assert!(Tree::of_parts(vec![node.clone()], vec![[0, 3]], bytes.clone()).is_none());
    assert!(Tree::of_parts(vec![node], vec![[1_000_000, 0], [999_998, 2]], bytes).is_some());
}

#[test]
fn any_number_of_threads_may_call() {
    let mapping = Mapping::parse(REAL).expect("it is accepted");
    std::thread::scope(|scope| {
        for _ in 0..4 {
            scope.spawn(|| {
                for class in mapping.classes() {
                    assert_eq!(mapping.raw_class_name(class.display), Some(class.raw));
                }
            });
        }
    });
}
