//! In place of `mapped` and `descriptors` where no source of the original is at hand.

use crate::report::{Held, Report, Settings};

pub fn run(_: &Settings, _: &mut Report) -> Held {
    println!("left out, as the original's source is not at hand (see run --source):");
    println!("line parts, descriptors, and the plain program for loading beside the original");
    Ok(())
}
