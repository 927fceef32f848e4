//! No function of the library has an array of more than 128 numbers.

use std::fs;
use std::path::{Path, PathBuf};

const MOST: usize = 128;

/// The crates from the first to the one with the exports.
fn crates(root: &Path) -> Vec<PathBuf> {
    let list = fs::read_to_string(root.join("crates.txt")).expect("the list of crates");
    let lines = list.lines().filter(|line| !line.starts_with('#'));
    let name = |line: &str| line.split_once(':')?.0.split_whitespace().next().map(str::to_string);
    let mut names: Vec<String> = lines.filter_map(name).collect();
    let last =
        names.iter().position(|name| name == "plan_archive").expect("the crate of the exports");
    names.truncate(last + 1);
    names.into_iter().map(|name| root.join("crates").join(name).join("src")).collect()
}

/// The lengths in the types and values of arrays, as they are written: `[u32; 1]`, `[0; N]`.
fn lengths(code: &str) -> Vec<&str> {
    let code = code.split(']').filter_map(|part| Some(part.rsplit_once('[')?.1));
    code.filter_map(|inside| Some(inside.split_once(';')?.1.trim())).collect()
}

#[test]
fn lengths_are_found() {
    assert_eq!(lengths("let a: [u32; 128] = [0; MANY]; a[i] = b[2]; c(&[1, 2])"), ["128", "MANY"]);
}

#[test]
fn no_array_is_long() {
    let root = Path::new(env!("CARGO_MANIFEST_DIR")).join("../..");
    let mut files = 0;
    for folder in crates(&root) {
        for file in fs::read_dir(folder).expect("a crate has a folder src") {
            let path = file.expect("a file").path();
            let text = fs::read_to_string(&path).expect("a file of code");
            let code: Vec<&str> = text.lines().filter_map(|line| line.split("//").next()).collect();
            for length in lengths(&code.join("\n")) {
                let short = length.parse().is_ok_and(|length: usize| length <= MOST);
                assert!(short, "{}: an array of {length}", path.display());
            }
            files += 1;
        }
    }
    assert!(files > 20, "the code of all crates is read");
}
