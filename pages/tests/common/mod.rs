//! What the tests share: programs that stand in for the proved ones, and the lessons.
#![allow(dead_code)]

use std::path::PathBuf;

use pages::programs::Programs;

/// The reference in place of the proved programs. Cargo builds the example before the tests.
pub fn stand_ins() -> Programs {
    let test = std::env::current_exe().expect("the test's own path");
    let built = test.ancestors().nth(2).expect("a folder of built programs");
    let stand_in = built.join("examples/stand_in");
    assert!(
        stand_in.exists(),
        "the example stand_in is not built: run `cargo test` without naming a test"
    );
    let command = |name: &str| vec![stand_in.display().to_string(), name.to_string()];
    Programs {
        bench: command("bench"),
        play: command("play"),
        why: command("why"),
        vectors: command("vectors"),
    }
}

pub fn repository() -> PathBuf {
    PathBuf::from(env!("CARGO_MANIFEST_DIR")).join("..")
}

/// A file of the repository.
pub fn read(name: &str) -> Vec<u8> {
    let path = repository().join(name);
    std::fs::read(&path).unwrap_or_else(|error| panic!("{}: {error}", path.display()))
}

pub fn read_text(name: &str) -> String {
    String::from_utf8(read(name)).expect("text")
}

/// The names of all lessons that have a text.
pub fn lessons() -> Vec<String> {
    let folder = std::fs::read_dir(repository().join("lessons")).expect("the lessons");
    let mut names: Vec<String> = folder
        .map(|entry| entry.expect("a file").file_name())
        .filter_map(|name| name.to_str()?.strip_suffix(".txt").map(str::to_string))
        .collect();
    names.sort();
    assert!(names.len() >= 8);
    names
}
