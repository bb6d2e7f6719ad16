//! A reader of R8 and ProGuard mapping files whose answers are proved: safe Rust over the C functions of `include/clumarief.h`.
//!
//! ```
//! let text = b"a.Main -> x:\n    1:3:void run(a.Main):10:12 -> c\n";
//! let mapping = clumarief::Mapping::parse(text)?;
//! assert_eq!(mapping.fates().lines, 2);
//! assert_eq!(mapping.display_class_name("Lx;"), Some("La/Main;"));
//! let method = mapping.display_method_name("Lx;", "c", "(Lx;)V").expect("it is there");
//! assert_eq!(method.name, "run");
//! assert_eq!(mapping.display_line("Lx;", "c", "(Lx;)V", 2).map(|shown| shown.line), Some(11));
//! # Ok::<(), clumarief::Refusal>(())
//! ```
//!
//! What each call answers is proved, for every input; `docs/PROOFS.md` of the repository leads to it. Nothing but the calls themselves is
//! `unsafe` here. A thread that applies a mapping needs some 257 KiB of stack for it, one that loads 88 KiB.

mod ffi;
mod mapping;
mod refusal;
mod rows;
pub mod tree;

pub use mapping::{Fates, Mapping, NamedMember, ShownLine};
pub use refusal::Refusal;
pub use rows::{Class, ClassRow, Member, MemberKind, MemberRow, Range};

/// The longest mapping text.
pub const MOST_TEXT: usize = 1_048_576;
/// The most class rows of a mapping.
pub const MOST_CLASSES: usize = 4_096;
/// The most member rows of a mapping.
pub const MOST_MEMBERS: usize = 32_768;
/// The most bytes of names of a mapping.
pub const MOST_POOL: usize = 4_194_304;
/// The longest tree file, before and after a mapping is applied to it.
pub const MOST_TREE: usize = 4_194_304;
