//! An example as it is run, and what it is run with. Each test uses some.
#![allow(dead_code)]

use std::fs;
use std::path::{Path, PathBuf};
use std::process::Command;

/// The code, what is printed, and what is said of an error.
pub type Ended = (Option<i32>, String, String);

/// Runs an example, which `cargo test` builds beside the tests.
pub fn run(name: &str, args: &[&str]) -> Ended {
    let test = std::env::current_exe().unwrap();
    let program = test.ancestors().nth(2).unwrap().join("examples").join(name);
    let ended = Command::new(&program).args(args).output().unwrap_or_else(|error| {
        panic!("{}: {error}; `cargo build --example {name}` builds it", program.display());
    });
    let text = |bytes| String::from_utf8(bytes).unwrap();
    (ended.status.code(), text(ended.stdout), text(ended.stderr))
}

fn text_of(path: &Path) -> String {
    path.to_str().unwrap().to_string()
}

fn examples() -> PathBuf {
    Path::new(env!("CARGO_MANIFEST_DIR")).join("../../examples")
}

/// The path of a bundled example.
pub fn example(name: &str) -> String {
    text_of(&examples().join(name))
}

/// Each place that the bundled examples have: the path of the input, the column and the shift.
pub fn hits_of_examples() -> Vec<(String, String, String)> {
    let mut hits = Vec::new();
    for entry in fs::read_dir(examples()).unwrap() {
        let path = entry.unwrap().path();
        if path.extension().is_some_and(|end| end == "expected") {
            for hit in fs::read_to_string(&path).unwrap().lines().filter(|line| line.starts_with("hit")) {
                let fields: Vec<&str> = hit.split('\t').collect();
                hits.push((text_of(&path.with_extension("txt")), fields[1].to_string(), fields[2].to_string()));
            }
        }
    }
    assert!(hits.len() > 10, "{hits:?}");
    hits
}

/// The path of a file of this name, which holds this text from now on.
pub fn file_with(name: &str, text: &str) -> String {
    let path = Path::new(env!("CARGO_TARGET_TMPDIR")).join(name);
    fs::write(&path, text).unwrap();
    text_of(&path)
}
