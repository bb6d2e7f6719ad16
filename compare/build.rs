//! Says where the proved libraries stand, which `tools/native-lib` writes, or makes the stand-in for them; and hands on the
//! original's source if a folder of it is named.

#[path = "faults/plant.rs"]
mod plant;

use std::error::Error;
use std::path::Path;
use std::{env, fs};

/// A library a line, but for the lines of comment.
const LIBRARIES: &str = include_str!("libraries.txt");

/// The folder is named by this variable of the environment, which `run --source` sets.
const SOURCE: &str = "CLUMARIEF_SOURCE";

/// The original's file for mapping files.
const MAPPING: &str = "src--asm_server--src--mapping.rs.txt";

/// The original's file for trees, and what is taken of it: it uses too much else to be built as a whole.
const SMALI: &str = "src--asm--src--smali.rs.txt";
const TYPES: [&str; 3] = [
    "pub struct MappedName {",
    "pub struct SmaliNode {",
    "pub enum SmaliToken {",
];

fn main() -> Result<(), Box<dyn Error>> {
    println!("cargo:rerun-if-changed=build.rs");
    println!("cargo:rerun-if-changed=libraries.txt");
    if env::var_os("CARGO_FEATURE_STAND_IN").is_some() {
        plant::run()?;
    } else {
        link_proved()?;
    }
    hand_on_original()
}

fn link_proved() -> Result<(), Box<dyn Error>> {
    let package = env::var("CARGO_MANIFEST_DIR")?;
    let folder = format!("{package}/../target/native");
    println!("cargo:rustc-link-search=native={folder}");
    for library in LIBRARIES.lines().filter(|line| !line.starts_with('#')) {
        println!("cargo:rustc-link-lib=static={library}");
        println!("cargo:rerun-if-changed={folder}/lib{library}.a");
    }
    Ok(())
}

/// A type that starts so, from what it derives to the brace that ends it.
fn item<'a>(text: &'a str, head: &str) -> Option<&'a str> {
    let at = text.find(head)?;
    let start = text[..at].rfind("#[derive")?;
    let end = at + text[at..].find("\n}\n")? + 3;
    Some(&text[start..end])
}

/// The three types of a tree, as they stand in the original's file.
fn hand_on_types(source: &Path, target: &Path) -> Result<(), Box<dyn Error>> {
    let path = source.join(SMALI);
    println!("cargo:rerun-if-changed={}", path.display());
    let text = fs::read_to_string(&path).map_err(|error| format!("{}: {error}", path.display()))?;
    let mut types = String::new();
    for head in TYPES {
        types += item(&text, head).ok_or_else(|| format!("{}: no {head}", path.display()))?;
    }
    fs::write(target.join("smali.rs"), types)?;
    Ok(())
}

fn hand_on_original() -> Result<(), Box<dyn Error>> {
    println!("cargo:rustc-check-cfg=cfg(original)");
    println!("cargo:rerun-if-env-changed={SOURCE}");
    if let Some(source) = env::var_os(SOURCE).filter(|source| !source.is_empty()) {
        let (source, target) = (Path::new(&source), env::var("OUT_DIR")?);
        let mapping = source.join(MAPPING);
        println!("cargo:rerun-if-changed={}", mapping.display());
        let copy = Path::new(&target).join("mapping.rs");
        fs::copy(&mapping, copy).map_err(|error| format!("{}: {error}", mapping.display()))?;
        hand_on_types(source, Path::new(&target))?;
        println!("cargo:rustc-cfg=original");
    }
    Ok(())
}
