//! The plain program on document 01's examples, with no other program at hand.

use clumarief_compare::plain::{self, LIMITS, LONGEST, Lent, Loaded, Refusal};

fn load(text: &[u8]) -> Result<Loaded, Refusal> {
    plain::read(text, true)?.fit(LIMITS)
}

fn pool(text: &str) -> String {
    let loaded = load(text.as_bytes()).expect("a good text");
    String::from_utf8(loaded.pool).expect("UTF-8")
}

fn refused(text: &[u8]) -> (u32, usize, usize) {
    let refused = load(text).map(|loaded| loaded.pool).expect_err("a refusal");
    (refused.number, refused.place, refused.length)
}

/// The flag and the ranges of the last member.
fn ranges(text: &str) -> [u32; 5] {
    let loaded = load(text.as_bytes()).expect("a good text");
    let last = loaded.members.last().expect("a member");
    last[10..].try_into().expect("five numbers")
}

#[test]
fn five_lines() {
    let loaded = load(include_bytes!("../../examples/small.map")).expect("a good text");
    let fates = loaded.fates;
    assert_eq!(
        (fates.lines, fates.blank, fates.applied, fates.idle),
        (5, 1, 1, 0)
    );
    assert_eq!(
        (fates.class, fates.field, fates.method, fates.short),
        (1, 1, 1, 0)
    );
    assert_eq!(loaded.pool, b"Lx;La/Main;bInc(Lx;)VrunLa/Main;");
    assert_eq!(loaded.pool.len(), 32);
    assert_eq!(loaded.classes, [[0, 3, 3, 8]]);
    let field = [0, 0, 11, 1, 12, 1, 13, 1, 0, 0, 0, 0, 0, 0, 0];
    let method = [1, 0, 14, 1, 15, 6, 21, 3, 24, 8, 2, 1, 3, 10, 12];
    assert_eq!(loaded.members, [field, method]);
}

#[test]
fn marked_refusals() {
    assert_eq!(refused(b""), (8, 0, 0));
    assert_eq!(refused(b"a -> b"), (3, 1, 0));
    assert_eq!(refused(b" int n -> b"), (4, 1, 0));
    assert_eq!(refused(b"\xC0\x80"), (2, 0, 1));
    assert_eq!(refused(b"\xE2\x82"), (2, 0, 0));
}

#[test]
fn every_other_refusal() {
    assert_eq!(refused(&vec![b'a'; LONGEST + 1]), (1, 0, 0));
    assert_eq!(refused(b"a->b:\n\n int n"), (5, 3, 0));
    assert_eq!(refused(b"a->b:\n run()->c"), (6, 2, 0));
    assert_eq!(refused(b"a->b:\n n->c"), (7, 2, 0));
    let text = b"a->b:\n int n->c";
    let needed = plain::read(text, true).expect("a good text").needed();
    for (number, lent) in [
        (
            9,
            Lent {
                classes: 0,
                ..needed
            },
        ),
        (
            10,
            Lent {
                members: 0,
                ..needed
            },
        ),
        (
            11,
            Lent {
                pool: needed.pool - 1,
                ..needed
            },
        ),
    ] {
        let answer = plain::read(text, true).and_then(|mapping| mapping.fit(lent));
        assert_eq!(answer.expect_err("a refusal").number, number);
    }
}

#[test]
fn marked_ranges() {
    assert_eq!(ranges("a->b:\n void f():10->c"), [1, 0, 0, 10, 10]);
    assert_eq!(ranges("a->b:\n void f():10:x->c"), [1, 0, 0, 10, 10]);
    assert_eq!(ranges("a->b:\n 1:2:void f():x:10->c"), [2, 1, 2, 1, 2]);
    assert_eq!(ranges("a->b:\n +7:9:void f()->c"), [2, 7, 9, 7, 9]);
    assert_eq!(ranges("a->b:\n void f():4294967296->c"), [0; 5]);
    let short = load(b"a->b:\n void f():10:x->c").expect("a good text");
    assert_eq!(short.fates.short, 1);
}

#[test]
fn marked_descriptors() {
    assert_eq!(pool("a->b:\n int [] n->c"), "Lb;La;c[Lint ;n");
    assert_eq!(pool("a->b:\n 1:4: void run()->c"), "Lb;La;c()L;void runLa;");
    assert_eq!(pool("a.Main->x:\n a.Main[] n->c"), "Lx;La/Main;c[Lx;n");
}

#[test]
fn slips() {
    // a line opened by U+00A0 is a member line
    assert_eq!(pool("a->b:\n\u{A0}int n->c"), "Lb;La;cIn");
    // a class that only a later line names
    assert_eq!(pool("a->b:\n c n->d\nc->e:"), "Lb;La;Le;Lc;dLe;n");
}
