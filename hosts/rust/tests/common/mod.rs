//! What tests of the tool share: a fresh folder, and what a command came to.

use std::fs;
use std::path::{Path, PathBuf};
use std::process::{Command, Output};
use std::sync::atomic::{AtomicUsize, Ordering};

pub const TOOL: &str = env!("CARGO_BIN_EXE_clumarief");

pub fn top() -> PathBuf {
    Path::new(env!("CARGO_MANIFEST_DIR")).join("../..")
}

/// A fresh folder that is gone when it is left, with the examples of the repository in it.
pub struct Folder(pub PathBuf);

impl Folder {
    pub fn new() -> Self {
        static NEXT: AtomicUsize = AtomicUsize::new(0);
        let number = NEXT.fetch_add(1, Ordering::Relaxed);
        let folder =
            std::env::temp_dir().join(format!("clumarief-{}-{number}", std::process::id()));
        fs::create_dir_all(folder.join("examples")).expect("a folder can be made");
        for file in fs::read_dir(top().join("examples")).expect("the examples are there") {
            let file = file.expect("it can be read");
            fs::copy(file.path(), folder.join("examples").join(file.file_name()))
                .expect("it can be copied");
        }
        Folder(folder)
    }

    pub fn file(&self, name: &str, bytes: &[u8]) -> &Self {
        fs::write(self.0.join(name), bytes).expect("it can be written");
        self
    }

    pub fn run(&self, words: &[&str]) -> Told {
        told(
            &Command::new(TOOL)
                .args(words)
                .current_dir(&self.0)
                .output()
                .expect("it runs"),
        )
    }

    pub fn shell(&self, line: &str) -> Told {
        told(
            &Command::new("sh")
                .args(["-c", line])
                .current_dir(&self.0)
                .output()
                .expect("it runs"),
        )
    }
}

impl Drop for Folder {
    fn drop(&mut self) {
        let _ = fs::remove_dir_all(&self.0);
    }
}

pub struct Told {
    pub status: i32,
    // not every file of tests reads it
    #[allow(dead_code)]
    pub out: Vec<u8>,
    pub text: String,
    pub error: String,
}

fn told(output: &Output) -> Told {
    Told {
        status: output.status.code().expect("it ended"),
        out: output.stdout.clone(),
        text: String::from_utf8_lossy(&output.stdout).into_owned(),
        error: String::from_utf8_lossy(&output.stderr).into_owned(),
    }
}
