//! The folders that a reader has to believe: they rest on no proof, and say each limit once.

use promises::code::without_comments;
use promises::{crates, files, folder, nothing_in, read, short};
use std::path::PathBuf;

/// The most rows and the most records, and the first number above the rows.
const LIMITS: [u64; 3] = [65535, 65536, 1024];

/// The files of these crates' folders, with the mark of their comments.
fn of(crates: &[String]) -> Vec<(PathBuf, &'static str)> {
    let mut all = Vec::new();
    for name in crates {
        all.extend(files(&folder(name).join("src"), "rt").into_iter().map(|file| (file, "//")));
        all.extend(files(&folder(name).join("specs"), "antt").into_iter().map(|file| (file, "--")));
    }
    all
}

/// The number that a word begins with, in decimal or in hexadecimal.
fn number(word: &str) -> Option<u64> {
    let word = word.replace('_', "");
    let (digits, base) = word.strip_prefix("0x").map_or((word.as_str(), 10), |hex| (hex, 16));
    let end = digits.find(|c: char| !c.is_digit(base)).unwrap_or(digits.len());
    u64::from_str_radix(&digits[..end], base).ok()
}

/// The lines of a text that have one of the limits.
fn limits(text: &str) -> Vec<&str> {
    let is_limit = |word: &str| number(word).is_some_and(|number| LIMITS.contains(&number));
    let has_limit =
        |line: &&str| line.split(|c: char| !c.is_alphanumeric() && c != '_').any(is_limit);
    text.lines().filter(has_limit).map(str::trim).collect()
}

#[test]
fn limits_are_found_however_they_are_written() {
    let text = "a[65_535]\n0xFFFFu32\nx < 65536\n1024usize\n10240\nb65535\n1,024";
    assert_eq!(limits(text), ["a[65_535]", "0xFFFFu32", "x < 65536", "1024usize"]);
}

#[test]
fn each_limit_is_written_once_in_code_and_once_in_definitions() {
    let mut found = Vec::new();
    for (file, mark) in of(&crates().0) {
        let text = without_comments(&read(&file), mark);
        found.extend(limits(&text).into_iter().map(|line| format!("{}: {line}", short(&file))));
    }
    let expected = [
        "crates/plan/src/lib.rt: pub const MOST: usize = 1024;",
        "crates/plan/src/lib.rt: pub const MOST_ROWS: usize = 65535;",
        "crates/plan/specs/Call.antt: most_records = 1024",
        "crates/plan/specs/Table.antt: most_rows = 65535",
    ];
    nothing_in(found.iter().filter(|line| !expected.contains(&line.as_str())).cloned());
    assert_eq!(found.len(), expected.len(), "each of these once: {expected:#?}");
}

#[test]
fn no_definition_rests_on_a_proof() {
    let mut wrong = Vec::new();
    for (file, mark) in of(&crates().0).into_iter().filter(|(_, mark)| *mark == "--") {
        let text = without_comments(&read(&file), mark);
        let own = |line: &&str| line.contains("use Rattle.") && !line.contains("use Rattle.std.");
        let uses = text.lines().filter(own).filter(|line| line.contains(".proofs."));
        wrong.extend(uses.map(|line| format!("{}: {line}", short(&file))));
    }
    nothing_in(wrong);
}
