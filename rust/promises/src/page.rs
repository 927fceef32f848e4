//! `docs/CONTRACTS.md`: its tables, and the names that it has between backticks.

use crate::{read, root};

/// The whole page.
pub fn contracts() -> String {
    read(&root().join("docs/CONTRACTS.md"))
}

/// The rows of the table under a heading, cell by cell, without the table's own head.
pub fn table(page: &str, heading: &str) -> Vec<Vec<String>> {
    let below =
        page.lines().skip_while(|line| line.trim_start_matches('#').trim() != heading).skip(1);
    let lines =
        below.take_while(|line| !line.starts_with('#')).filter(|line| line.starts_with('|'));
    let rows: Vec<_> =
        lines.skip(2).map(|line| line.trim_matches('|').split(" | ").map(tidy).collect()).collect();
    assert!(!rows.is_empty(), "no table under `{heading}`");
    rows
}

fn tidy(cell: &str) -> String {
    cell.trim().to_string()
}

/// What stands between backticks.
pub fn names(text: &str) -> Vec<String> {
    text.split('`').skip(1).step_by(2).map(str::to_string).collect()
}

/// The one name of a cell.
pub fn name(cell: &str) -> String {
    let names = names(cell);
    assert!(names.len() == 1, "one name is expected: {cell}");
    names[0].clone()
}

/// The functions of a table whose rows have a module and the names of functions in it.
pub fn functions(page: &str, heading: &str) -> Vec<String> {
    let mut all = Vec::new();
    for row in table(page, heading) {
        let module = name(&row[0]);
        all.extend(names(&row[1]).iter().map(|function| format!("{module}::{function}")));
    }
    all
}

/// The functions that the page lists as published.
pub fn published(page: &str) -> Vec<String> {
    table(page, "Published calls").iter().map(|row| name(&row[0])).collect()
}
