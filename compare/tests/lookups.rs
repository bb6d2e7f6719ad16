//! The plain program's look-ups of members on document 01's examples, with no other program at hand.

use clumarief_compare::plain::{self, Key, LIMITS, Loaded, Lookup};

fn load(text: &str) -> Loaded {
    let read = plain::read(text.as_bytes(), true).expect("a good text");
    read.fit(LIMITS).expect("within the limits")
}

fn lookup(loaded: &Loaded) -> Lookup<'_> {
    let counts = [
        loaded.classes.len(),
        loaded.members.len(),
        loaded.pool.len(),
    ];
    Lookup {
        classes: &loaded.classes,
        members: &loaded.members,
        pool: &loaded.pool,
        used: counts.map(|count| count as u32),
    }
}

fn key<'a>(owner: &'a str, name: &'a str, descriptor: &'a str) -> Key<'a> {
    let [owner, name, descriptor] = [owner, name, descriptor].map(str::as_bytes);
    Key {
        owner,
        name,
        descriptor,
    }
}

/// The display line of line 9 of a method with raw range (1,9).
fn line_nine(shown: &str) -> Option<u32> {
    let loaded = load(&format!("a -> x:\n 1:9:void f(){shown} -> c\n"));
    let line = lookup(&loaded).display_line(key("Lx;", "c", "()V"), 9);
    line.map(|[_, line]| line)
}

#[test]
fn lines_of_two_numberings() {
    assert_eq!(line_nine(":10:12"), Some(12));
    assert_eq!(line_nine(":10:5"), Some(10));
    assert_eq!(line_nine(":10"), Some(10));
    assert_eq!(line_nine(""), Some(9));
}

#[test]
fn the_last_match_of_the_own_class_answers() {
    let text = "a -> x:\n void f() -> c\n void b.g() -> c\n int n -> c\n int m -> c\nb -> y:\n void h() -> c\n";
    let loaded = load(text);
    let tables = lookup(&loaded);
    let name = |[_, place, length]: [u32; 3]| tables.text(place, length).to_vec();
    let method = tables.display_method_name(key("Lx;", "c", "()V"));
    assert_eq!(method.map(name), Some(b"f".to_vec()));
    let field = tables.display_field_name(key("Lx;", "c", "I"));
    assert_eq!(field.map(name), Some(b"m".to_vec()));
    assert_eq!(tables.display_field_name(key("Ly;", "c", "I")), None);
}

#[test]
fn another_owner_answers_where_no_own_does() {
    let loaded = load("a -> x:\n void b.f() -> c\n 1:2:void b.g() -> c\n");
    let tables = lookup(&loaded);
    let asked = key("Lx;", "c", "()V");
    let row = tables.display_method_name(asked).map(|[row, ..]| row);
    assert_eq!(row, Some(1));
    assert_eq!(tables.display_line(asked, 1), None);
}
