//! Holds the proved functions of Clumarief against Rust's standard library, `serde_json`, and the original where its source
//! is at hand.
//!
//! A subject is one function and its judge (`report`), run over cases (`case`) that are made one after another
//! (`every`, `texts`, `repeats`, `synthetic`, `comment_texts` with `comment_parts`, `part_texts`). `reading` has both answers about a
//! comment, `parts` those about a line, by way of `original`. For loading, `plain` is a program of its own: `load_tables`
//! sets it beside the original's `tables`, `load_rooms` the proved program beside it, and `load_held` holds both pairs, over
//! `load_texts`, `load_files`, `load_largest` and `load_kinds`, which has its texts of `file_forms`, `shared_marks`,
//! `equal_names` and `idle_runs`; `load_examples` has answers of its own. `lookup_tables` makes and damages what look-ups are
//! lent, `tree_files` makes tree files, `tree_damage` damages them. For applying, `apply_trees` makes trees of a mapping's names,
//! `apply_mappings` some of these mappings, `apply_every` and `apply_limits` trees of their own, `smali_trees` turns a tree file
//! into the original's tree and back, and `apply_held` holds the answers; `apply_list` makes the list that crates/apply_cases
//! replays. Each of the other modules is one part of the comparison; `main` lists them. No two modules use each other, by
//! whatever way round (tests/modules.rs). bench times texts of `synthetic`, `file_forms` and `shared_marks` too.

pub mod apply_every;
pub mod apply_held;
pub mod apply_limits;
pub mod apply_list;
pub mod apply_mappings;
pub mod apply_trees;
pub mod applying;
pub mod arguments;
pub mod bytes;
pub mod case;
pub mod comment_parts;
pub mod comment_texts;
pub mod comments;
#[cfg(original)]
pub mod descriptors;
pub mod equal_names;
pub mod every;
pub mod file_forms;
pub mod idle_runs;
#[cfg(original)]
pub mod java_asm;
pub mod lines;
pub mod load_examples;
pub mod load_files;
pub mod load_held;
pub mod load_kinds;
pub mod load_largest;
pub mod load_parts;
pub mod load_rooms;
#[cfg(original)]
pub mod load_tables;
pub mod load_texts;
pub mod loading;
pub mod lookup_tables;
#[cfg(original)]
pub mod mapped;
#[cfg(not(original))]
#[path = "left_out.rs"]
pub mod mapped;
pub mod members;
pub mod names;
pub mod numbers;
#[cfg(original)]
pub mod original;
pub mod part_texts;
#[cfg(original)]
pub mod parts;
pub mod plain;
pub mod proved;
pub mod random;
pub mod ranges;
pub mod reading;
pub mod repeats;
pub mod report;
pub mod shared_marks;
#[cfg(original)]
pub mod smali_trees;
#[cfg(feature = "stand_in")]
mod stand_in;
pub mod synthetic;
#[cfg(original)]
pub mod tables;
pub mod texts;
pub mod timing;
pub mod tree_damage;
pub mod tree_files;
pub mod trees;
pub mod trims;
pub mod utf8;
pub mod white;
