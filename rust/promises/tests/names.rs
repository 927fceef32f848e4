//! What the page names exists: theorems, files and edits; and no edit is left out.

use promises::code::{declares, theorems};
use promises::page::{contracts, name, names, published, table};
use promises::{crates, files, folder, nothing_in, read, root, short};
use std::collections::{BTreeMap, BTreeSet};
use std::fs;
use std::path::{Path, PathBuf};

/// The file of proofs that `crate:Module` names.
fn proofs(short: &str) -> PathBuf {
    let (name, module) = short.split_once(':').expect("a crate and a module of its proofs");
    folder(name).join("proofs").join(module).with_extension("antt")
}

/// The edits of a table's row: `crate/edit`.
fn edits(row: &[String]) -> Vec<String> {
    names(&row[1])
}

/// All edits that the page names.
fn named() -> Vec<String> {
    let page = contracts();
    let tables = ["Wrong programs that they rule out", "Useless programs", "Wrong definitions"];
    tables.iter().flat_map(|heading| table(&page, heading)).flat_map(|row| edits(&row)).collect()
}

/// All edits that there are.
fn kept() -> BTreeSet<String> {
    let (library, programs) = crates();
    let mut all = BTreeSet::new();
    for name in library.iter().chain(&programs) {
        for file in files(&folder(name).join("must-fail"), "edit") {
            let edit = file.file_stem().expect("an edit has a name").to_string_lossy().into_owned();
            all.insert(format!("{name}/{edit}"));
        }
    }
    all
}

#[test]
fn every_theorem_named_is_in_the_file_beside_it() {
    let mut wrong = Vec::new();
    for row in table(&contracts(), "Theorems") {
        let file = proofs(&name(&row[3]));
        let text = if file.exists() { read(&file) } else { String::new() };
        let missing = names(&row[2]).into_iter().filter(|theorem| !declares(&text, theorem));
        wrong.extend(missing.map(|theorem| format!("{theorem} is not in {}", row[3])));
    }
    nothing_in(wrong);
}

#[test]
fn every_theorem_of_the_demands_is_named() {
    let rows = table(&contracts(), "Theorems");
    let named: Vec<String> = rows.iter().flat_map(|row| names(&row[2])).collect();
    let demands = theorems(&read(&proofs("plan_c:Demands")));
    assert!(demands.len() >= 15);
    nothing_in(demands.into_iter().filter(|theorem| !named.contains(theorem)));
}

/// Is it a path of the project, and not a pattern for several?
fn is_path(name: &str) -> bool {
    let folders = ["crates/", "docs/", "examples/", "include/", "rust/"];
    folders.iter().any(|folder| name.starts_with(folder))
        && !name.contains('*')
        && !name.contains("CRATE")
}

#[test]
fn every_path_named_on_a_page_exists() {
    let mut wrong = Vec::new();
    let docs = files(&root().join("docs"), "md").into_iter();
    for page in
        docs.filter(|page| !short(page).contains("landings")).chain([root().join("README.md")])
    {
        let paths = names(&read(&page)).into_iter().filter(|name| is_path(name));
        let missing = paths.filter(|path| !root().join(path).exists());
        wrong.extend(missing.map(|path| format!("{}: {path}", short(&page))));
    }
    nothing_in(wrong);
}

#[test]
fn every_edit_named_exists() {
    let kept = kept();
    nothing_in(named().into_iter().filter(|edit| !kept.contains(edit)));
}

#[test]
fn every_edit_is_named() {
    let named = named();
    nothing_in(kept().into_iter().filter(|edit| !named.contains(edit)));
}

/// The first text that an edit replaces and that does not stand once in its file, in a crate.
fn stale(name: &str, edit: &Path) -> Option<String> {
    let mut texts: BTreeMap<String, String> = BTreeMap::new();
    let (mut file, mut old) = (String::new(), String::new());
    for line in read(edit).lines() {
        if let Some(path) = line.strip_prefix("file: ") {
            file = path.to_string();
        } else if let Some(text) = line.strip_prefix("old: ") {
            old = text.to_string();
        } else if let Some(new) = line.strip_prefix("new:") {
            let path = folder(name).join(&file);
            let text = texts
                .entry(file.clone())
                .or_insert_with(|| fs::read_to_string(path).unwrap_or_default());
            if text.matches(&old).count() != 1 {
                return Some(format!("{file}: {old}"));
            }
            *text = text.replace(&old, new.trim_start_matches(' '));
        }
    }
    None
}

#[test]
fn every_edit_finds_its_text_once() {
    let (library, programs) = crates();
    let mut wrong = Vec::new();
    for name in library.iter().chain(&programs) {
        for edit in files(&folder(name).join("must-fail"), "edit") {
            wrong.extend(stale(name, &edit).map(|text| format!("{}: {text}", short(&edit))));
        }
    }
    nothing_in(wrong);
}

#[test]
fn every_published_call_has_two_edits() {
    let page = contracts();
    let rows = table(&page, "Wrong programs that they rule out");
    let mut wrong = Vec::new();
    for call in published(&page) {
        let row = rows.iter().find(|row| name(&row[0]) == call);
        let edits: BTreeSet<String> =
            row.map(|row| edits(row)).unwrap_or_default().into_iter().collect();
        if edits.len() < 2 {
            wrong.push(format!("{call} has {} edits", edits.len()));
        }
    }
    nothing_in(wrong);
}

#[test]
fn no_line_is_over_120_characters() {
    let page = contracts();
    let long = page.lines().enumerate().filter(|(_, line)| line.chars().count() > 120);
    nothing_in(
        long.map(|(place, line)| {
            format!("line {}: {} characters", place + 1, line.chars().count())
        }),
    );
}
