//! The tool as a person uses it: every example of README and `--help`, and files that are not as they should be.

mod common;

use std::fs;

use common::{top, Folder, TOOL};

/// Commands and what they print: lines that start with `$ `, and those behind them.
fn examples(text: &str) -> Vec<(String, String)> {
    let mut found: Vec<(String, String)> = Vec::new();
    for line in text.lines() {
        match line.strip_prefix("$ ") {
            Some(command) => found.push((command.into(), String::new())),
            None => {
                if let Some((_, printed)) = found.last_mut() {
                    *printed += &format!("{line}\n");
                }
            }
        }
    }
    found
}

fn hold(folder: &Folder, tool: &str, (command, printed): &(String, String)) {
    let line = command.replace(tool, TOOL);
    let told = folder.shell(&line);
    assert_eq!(told.text + &told.error, *printed, "of: {command}");
}

#[test]
fn every_example_of_the_readme() {
    let readme = fs::read_to_string(top().join("README.md")).expect("it is there");
    let folder = Folder::new();
    let blocks = readme
        .split("```")
        .skip(1)
        .step_by(2)
        .filter(|block| block.contains("$ ./run clumarief"));
    let all: Vec<_> = blocks.flat_map(|block| examples(block)).collect();
    assert!(all.len() >= 4, "README shows the tool");
    for example in &all {
        hold(&folder, "./run clumarief", example);
    }
}

#[test]
fn every_example_of_the_help() {
    let folder = Folder::new();
    let help = folder.run(&["--help"]);
    assert_eq!((help.status, help.error.as_str()), (0, ""));
    let shown: String = help
        .text
        .lines()
        .filter_map(|line| line.strip_prefix("  ").map(|line| format!("{line}\n")))
        .collect();
    let from = shown.find("$ ").expect("there are examples");
    for example in &examples(&shown[from..]) {
        hold(&folder, "clumarief", example);
    }
}

#[test]
fn a_check_says_the_fates() {
    let told = Folder::new().run(&["check", "examples/small.map"]);
    assert_eq!((told.status, told.error.as_str()), (0, ""));
    assert_eq!(
        told.text,
        "lines 5\nblank 1\napplied 1\nidle 0\nclass 1\nfield 1\nmethod 1\nshort 0\nnames 32\n"
    );
}

#[test]
fn lines_that_hide_something_are_listed() {
    let folder = Folder::new();
    let residual = r#"# {"id":"com.android.tools.r8.residualsignature","signature":"J"}"#;
    let text = format!("# no member\na -> b:\n{residual}\n int n -> c\n{residual}\n\n 1:2:void m():3:x -> d\n# {{}}\n");
    folder.file("m", text.as_bytes());
    let told = folder.run(&["check", "--lines", "m"]);
    let listed: Vec<&str> = told
        .text
        .lines()
        .filter(|line| line.starts_with("m:"))
        .collect();
    let expected = [
        "m:1: idle: # no member".to_string(),
        format!("m:3: idle: {residual}"),
        "m:7: short:  1:2:void m():3:x -> d".to_string(),
        "m:8: idle: # {}".to_string(),
    ];
    assert_eq!(
        (told.status, listed),
        (0, expected.iter().map(String::as_str).collect())
    );
}

#[test]
fn refusals_are_said_as_compilers_do() {
    let folder = Folder::new();
    let refused = |bytes: &[u8]| {
        let told = folder.file("m", bytes).run(&["check", "m"]);
        assert_eq!((told.status, told.text.as_str()), (1, ""));
        told.error
    };
    assert_eq!(
        refused(b"a -> b:\n int\tn -  c\r\n"),
        "m:2: refused 5: invalid member mapping\n     int\\tn -  c\n"
    );
    assert_eq!(
        refused("a -> b:\n é\u{E9}".as_bytes()),
        "m:2: refused 5: invalid member mapping\n     éé\n"
    );
    assert_eq!(
        refused(b"a -> b:\n x\xFFy"),
        "m:2:3: refused 2: the text is not UTF-8, 1 bad byte\n     x<FF>\n"
    );
    assert_eq!(
        refused(b"\xE2\x82"),
        "m:1:1: refused 2: the text is not UTF-8, the text ends in a sequence\n    <E2>\n"
    );
    assert_eq!(
        refused(b""),
        "m: refused 8: the mapping contains no classes\n"
    );
    assert_eq!(
        refused(&vec![b'\n'; 1_048_577]),
        "m: refused 1: the text is over 1,048,576 bytes, or the tree file over 4,194,304\n"
    );
    assert_eq!(
        refused("\u{FEFF}\u{FEFF}a -> b".as_bytes()),
        "m:1: refused 3: invalid class mapping\n    a -> b\n"
    );
}

#[test]
fn standard_input_is_a_file() {
    let told = Folder::new().shell(&format!("{TOOL} class - x < examples/small.map"));
    assert_eq!(
        (told.status, told.text.as_str()),
        (0, "class raw Lx; display La/Main;\n")
    );
}

#[test]
fn wrong_use_and_files_that_are_not_there() {
    let folder = Folder::new();
    for words in [
        &[][..],
        &["chek", "m"],
        &["check"],
        &["class", "m"],
        &["line", "m", "x", "c", "two"],
        &["apply", "m"],
    ] {
        let told = folder.run(words);
        assert_eq!((told.status, told.text.as_str()), (2, ""), "{words:?}");
        assert!(told.error.starts_with("clumarief: "), "{}", told.error);
    }
    for words in [
        &["check", "none"][..],
        &["check", "examples"],
        &["tree", "show", "none"],
        &["apply", "none", "x", "none", "-o", "out"],
    ] {
        let told = folder.run(words);
        assert_eq!((told.status, told.text.as_str()), (2, ""), "{words:?}");
    }
    assert_eq!(
        folder
            .run(&["class", "examples/small.map", "unknown"])
            .status,
        1
    );
    assert_eq!(
        folder
            .run(&["line", "examples/small.map", "x", "c", "4"])
            .status,
        1
    );
}
