//! What the tests of `docs/CONTRACTS.md` read: the page's tables, the functions of the crates, and files by their folder.

use std::fs;
use std::path::{Path, PathBuf};

pub mod code;
pub mod page;

/// The folder of the project.
pub fn root() -> PathBuf {
    Path::new(env!("CARGO_MANIFEST_DIR")).join("../..")
}

/// The text of a file.
pub fn read(path: &Path) -> String {
    fs::read_to_string(path).unwrap_or_else(|error| panic!("{}: {error}", path.display()))
}

/// The files with this ending in a folder and the folders in it, by name; none where there is no such folder.
pub fn files(folder: &Path, ending: &str) -> Vec<PathBuf> {
    let Ok(entries) = fs::read_dir(folder) else { return Vec::new() };
    let mut found = Vec::new();
    for entry in entries {
        let path = entry.expect("an entry of a folder").path();
        if path.is_dir() {
            found.extend(files(&path, ending));
        } else if path.extension().is_some_and(|end| end == ending) {
            found.push(path);
        }
    }
    found.sort();
    found
}

/// A file's path from the project's folder.
pub fn short(file: &Path) -> String {
    file.strip_prefix(root()).expect("a file of the project").display().to_string()
}

/// Fails with all that is wrong, a line each.
pub fn nothing_in(wrong: impl IntoIterator<Item = String>) {
    let wrong: Vec<String> = wrong.into_iter().collect();
    assert!(wrong.is_empty(), "\n\n{}\n", wrong.join("\n"));
}

/// A crate's folder.
pub fn folder(name: &str) -> PathBuf {
    root().join("crates").join(name)
}

/// The crates of `crates.txt` up to the one with the exports, and the programs behind it. A line is `name: ..`,
/// or `name staticlib: ..` for a crate that is built as an archive.
pub fn crates() -> (Vec<String>, Vec<String>) {
    let list = read(&root().join("crates.txt"));
    let lines = list.lines().filter(|line| !line.starts_with('#'));
    let names = lines.filter_map(|line| line.split_once(':')?.0.split_whitespace().next());
    let mut library: Vec<String> = names.map(str::to_string).collect();
    let exports =
        library.iter().position(|name| name == "plan_archive").expect("the crate of the exports");
    let programs = library.split_off(exports + 1);
    (library, programs)
}
