//! Plants the faults of lists/ into a copy of the plain program and of the C functions over it. Each stands beside what is
//! right, as `if on(N) { wrong } else { right }`, so that one program has them all and a run chooses one.

use std::error::Error;
use std::ops::Range;
use std::path::Path;
use std::{env, fs};

type Done<T> = Result<T, Box<dyn Error>>;

/// A list for each part of the comparison.
const LISTS: &str = "faults/lists";

/// The plain program, and the files that stand below it as modules.
const PLAIN: &str = "src/plain.rs";
const MODULES: [&str; 8] = [
    "applying",
    "characters",
    "descriptors",
    "json",
    "lines",
    "members",
    "names",
    "trees",
];
const DOORS: [&str; 9] = [
    "slices",
    "text_doors",
    "comment_doors",
    "line_doors",
    "load_doors",
    "name_doors",
    "member_doors",
    "tree_doors",
    "apply_doors",
];

struct Fault {
    name: String,
    file: String,
    /// the text from which on `old` is looked for
    from: String,
    old: String,
    new: String,
}

impl Fault {
    /// The value after the word and a colon.
    fn field(record: &str, word: &str) -> Option<String> {
        let start = format!("{word}: ");
        let line = record.lines().find_map(|line| line.strip_prefix(&start));
        line.map(str::to_owned)
    }

    fn read(record: &str) -> Done<Fault> {
        let field = |word| {
            let found = Fault::field(record, word);
            found.ok_or_else(|| format!("no line `{word}:` in\n{record}"))
        };
        field("wrong")?;
        Ok(Fault {
            name: field("name")?,
            file: field("file")?,
            from: field("in")?,
            old: field("old")?,
            new: field("new")?,
        })
    }

    /// Where the right expression stands in the text of the file.
    fn place(&self, text: &str) -> Option<Range<usize>> {
        let from = text.find(&self.from)?;
        let at = from + text[from..].find(&self.old)?;
        Some(at..at + self.old.len())
    }
}

/// The record once for each number that it names, or as it is.
fn each(record: &str) -> Done<Vec<String>> {
    let Some(range) = Fault::field(record, "each") else {
        return Ok(vec![record.to_owned()]);
    };
    let ends = range.split_once("..").ok_or("`each:` without `..`")?;
    let numbers = ends.0.parse::<u32>()?..ends.1.parse()?;
    Ok(numbers
        .map(|number| record.replace("{}", &number.to_string()))
        .collect())
}

/// The faults of all lists, whose records blank lines divide.
fn faults() -> Done<Vec<Fault>> {
    let mut paths = Vec::new();
    for entry in fs::read_dir(LISTS)? {
        paths.push(entry?.path());
    }
    paths.sort();
    let mut faults = Vec::new();
    for path in paths {
        println!("cargo:rerun-if-changed={}", path.display());
        let list = fs::read_to_string(&path)?;
        let records = list.split("\n\n").map(str::trim);
        for record in records.filter(|record| record.starts_with("name: ")) {
            for record in each(record)? {
                let fault = Fault::read(&record);
                faults.push(fault.map_err(|error| format!("{}: {error}", path.display()))?);
            }
        }
    }
    Ok(faults)
}

/// The text with all its faults beside what is right.
fn planted(file: &str, text: &str, faults: &[Fault]) -> Done<String> {
    let mut places: Vec<(Range<usize>, String)> = Vec::new();
    for (number, fault) in faults
        .iter()
        .enumerate()
        .filter(|(_, fault)| fault.file == file)
    {
        let place = fault
            .place(text)
            .ok_or_else(|| format!("{}: {file} has no {}", fault.name, fault.old))?;
        let wrong = format!("if crate::stand_in::on({number}) {{ {} }} else ", fault.new);
        match places.iter_mut().find(|(known, _)| *known == place) {
            Some((_, wrongs)) => *wrongs += &wrong,
            None => places.push((place, wrong)),
        }
    }
    places.sort_by_key(|(place, _)| place.start);
    if let Some([_, second]) = places.windows(2).find(|two| two[1].0.start < two[0].0.end) {
        return Err(format!("{file}: one fault inside another: {}", second.1).into());
    }
    let mut planted = text.to_owned();
    for (place, wrongs) in places.into_iter().rev() {
        let right = &text[place.clone()];
        planted.replace_range(place, &format!("({wrongs}{{ {right} }})"));
    }
    Ok(planted)
}

/// The file with its faults, without the comments at its head, which can't stand inside of a module.
fn module(path: &str, faults: &[Fault]) -> Done<String> {
    println!("cargo:rerun-if-changed={path}");
    let text = fs::read_to_string(path).map_err(|error| format!("{path}: {error}"))?;
    let planted = planted(path, &text, faults)?;
    let lines = planted.lines().filter(|line| !line.starts_with("//!"));
    Ok(lines.map(|line| format!("{line}\n")).collect())
}

/// Writes faulty.rs into the folder where cargo keeps what is made.
pub fn run() -> Done<()> {
    println!("cargo:rerun-if-changed=faults/plant.rs");
    println!("cargo:rerun-if-changed={LISTS}");
    let faults = faults()?;
    let names: Vec<&str> = faults.iter().map(|fault| &fault.name[..]).collect();
    let mut whole = format!("pub const FAULTS: [&str; {}] = {names:?};\n", names.len());
    let files = [PLAIN.to_owned()].into_iter();
    let below = MODULES.map(|name| format!("src/plain/{name}.rs"));
    let doors = DOORS.map(|name| format!("faults/{name}.rs"));
    let all: Vec<String> = files.chain(below).chain(doors).collect();
    let is_unknown = |fault: &&Fault| !all.contains(&fault.file);
    if let Some(fault) = faults.iter().find(is_unknown) {
        return Err(format!("{}: there is no file {}", fault.name, fault.file).into());
    }
    for path in &all {
        let text = module(path, &faults)?;
        if path == PLAIN {
            whole += &text
                .replace("\nmod ", "\n// mod ")
                .replace("\npub mod ", "\n// pub mod ");
            continue;
        }
        let name = Path::new(path).file_stem().and_then(|name| name.to_str());
        let name = name.ok_or("a file without a name")?;
        whole += &format!("pub mod {name} {{\n{text}}}\n");
    }
    fs::write(Path::new(&env::var("OUT_DIR")?).join("faulty.rs"), whole)?;
    Ok(())
}
