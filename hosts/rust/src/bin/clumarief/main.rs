//! `clumarief`: reads mapping files and tells what they say.

mod apply;
mod check;
mod look;
mod show;
mod tree_text;
mod words;

use std::io::{self, Write};
use std::process::ExitCode;

use words::{Failure, Outcome};

const USAGE: &str = include_str!("usage.txt");

fn main() -> ExitCode {
    let words: Vec<String> = match std::env::args_os()
        .skip(1)
        .map(|word| word.into_string())
        .collect()
    {
        Ok(words) => words,
        Err(word) => return failed(&Failure::Usage(format!("{word:?} is not UTF-8"))),
    };
    let mut out = Vec::new();
    let done = run(
        &words.iter().map(String::as_str).collect::<Vec<_>>(),
        &mut out,
    );
    // What was found is printed also where something else was refused.
    if let Err(error) = io::stdout()
        .write_all(&out)
        .and_then(|()| io::stdout().flush())
    {
        if error.kind() != io::ErrorKind::BrokenPipe {
            return failed(&Failure::Io("standard output".into(), error));
        }
    }
    match done {
        Ok(()) => ExitCode::SUCCESS,
        Err(failure) => failed(&failure),
    }
}

fn failed(failure: &Failure) -> ExitCode {
    eprint!("{failure}");
    ExitCode::from(failure.status())
}

fn run(words: &[&str], out: &mut Vec<u8>) -> Outcome {
    match words {
        ["--help" | "-h"] => {
            out.extend(USAGE.as_bytes());
            Ok(())
        }
        ["--version" | "-V"] => {
            writeln!(out, "clumarief {}", env!("CARGO_PKG_VERSION"))?;
            Ok(())
        }
        ["check", file] => check::check(file, false, out),
        ["check", "--lines", file] | ["check", file, "--lines"] => check::check(file, true, out),
        ["class", file, name] => look::class(file, name, false, out),
        ["class", "-m", file, name] | ["class", file, "-m", name] | ["class", file, name, "-m"] => {
            look::class(file, name, true, out)
        }
        ["line", file, class, method, line] => look::line(file, class, method, line, out),
        ["tree", "show", tree] => show::show(tree, out),
        ["tree", "make"] => show::make("-", out),
        ["tree", "make", text] => show::make(text, out),
        ["apply", rest @ ..] => apply::apply(rest, out),
        [] => Err(Failure::Usage("a command is needed".into())),
        [command, ..] => Err(Failure::Usage(format!(
            "`{command}` is no command, or its words do not fit"
        ))),
    }
}
