//! One case: every call made of both, answers and columns compared.

use std::fmt::{self, Debug};

use crate::case::{pattern, Case, Columns};
use crate::library::{Answer, Library};
use crate::lists::outcome;
use crate::tally::Tally;

/// Where the two differ.
#[derive(Debug)]
pub struct Difference {
    /// The call.
    pub call: String,
    /// What the independent implementation says, or what has to hold.
    pub right: String,
    /// What the library says.
    pub ours: String,
}

impl fmt::Display for Difference {
    fn fmt(&self, f: &mut fmt::Formatter<'_>) -> fmt::Result {
        let Difference { call, right, ours } = self;
        write!(f, "{call}\n  expected: {right}\n  library:  {ours}")
    }
}

type Checked = Result<(), Difference>;

/// Makes every call of both; the first difference ends it.
pub fn check(case: &Case, right: &impl Library, ours: &impl Library, tally: &mut Tally) -> Checked {
    *tally.cases.entry(case.about).or_default() += 1;
    let before = case.clone();
    axes(case, right, ours, tally)?;
    lists(case, right, ours, tally)?;
    mappings(case, right, ours, tally)?;
    whole_mappings(case, right, ours, tally)?;
    alike(|| "is what is only read unchanged?".into(), &true, &(before == *case))
}

fn alike<T: PartialEq + Debug>(call: impl FnOnce() -> String, right: &T, ours: &T) -> Checked {
    if right == ours {
        return Ok(());
    }
    Err(Difference { call: call(), right: short(right), ours: short(ours) })
}

/// A value as it is printed, cut where it is long.
fn short(value: &impl Debug) -> String {
    const MOST: usize = 400;
    let mut printed = format!("{value:?}");
    if printed.len() > MOST {
        printed.truncate(MOST);
        printed.push_str(" ..");
    }
    printed
}

/// Two answers are the same.
fn same<T: PartialEq + Debug>(
    tally: &mut Tally,
    call: impl FnOnce() -> String,
    right: &Answer<T>,
    ours: &Answer<T>,
) -> Checked {
    tally.saw(right);
    alike(call, right, ours)
}

fn axes(case: &Case, right: &impl Library, ours: &impl Library, tally: &mut Tally) -> Checked {
    let table = case.table.table();
    let call = || "soundness".into();
    same(tally, call, &right.soundness(table), &ours.soundness(table))?;
    for &row in &case.rows {
        let call = || format!("parent of {row}");
        same(tally, call, &right.parent(table, row), &ours.parent(table, row))?;
        let call = || format!("first child of {row}");
        same(tally, call, &right.first_child(table, row), &ours.first_child(table, row))?;
        let call = || format!("next sibling of {row}");
        same(tally, call, &right.next_sibling(table, row), &ours.next_sibling(table, row))?;
        let call = || format!("children of {row}");
        same(tally, call, &right.children(table, row), &ours.children(table, row))?;
        let call = || format!("subtree of {row}");
        let (expected, given) = (right.subtree(table, row), ours.subtree(table, row));
        same(tally, call, &expected, &given)?;
        if let (Ok((_, expected)), Ok((_, given))) = (expected, given) {
            let part = || format!("subtree of {row}: the part of the column itself");
            alike(part, &expected.as_ptr_range(), &given.as_ptr_range())?;
        }
    }
    Ok(())
}

fn lists(case: &Case, right: &impl Library, ours: &impl Library, tally: &mut Tally) -> Checked {
    let refresh = case.refresh();
    let (mut expected, mut given) = (Columns::patterned(case.room), Columns::patterned(case.room));
    let answer = right.bulk(refresh, expected.lend());
    let call = || "bulk".into();
    same(tally, call, &answer, &ours.bulk(refresh, given.lend()))?;
    written("bulk", case, &answer, &expected, &given)?;
    if answer.is_ok() {
        let (vain, _) = outcome(refresh.table, refresh.records, refresh.insertions);
        tally.lists += 1;
        tally.records += case.records.len() as u64;
        tally.vain += vain as u64;
    }
    let (table, insertions) = (refresh.table, refresh.insertions);
    for &record in &case.singles {
        let mut expected = Columns::patterned(case.room);
        let mut given = Columns::patterned(case.room);
        let answer = right.single(table, record, insertions, expected.lend());
        let call = || "single".into();
        same(tally, call, &answer, &ours.single(table, record, insertions, given.lend()))?;
        written("single", case, &answer, &expected, &given)?;
    }
    Ok(())
}

/// The three lent columns hold the same, and behind the new rows what they held before.
fn written(
    call: &str,
    case: &Case,
    answer: &Answer<u64>,
    expected: &Columns,
    given: &Columns,
) -> Checked {
    let [dist, size, value] = case.room;
    column(call, "dist", answer, &expected.dist, &given.dist, &pattern(dist, 1))?;
    column(call, "size", answer, &expected.size, &given.size, &pattern(size, 2))?;
    column(call, "value", answer, &expected.value, &given.value, &pattern(value, 3))
}

fn column(
    call: &str,
    name: &str,
    answer: &Answer<u64>,
    expected: &[u32],
    given: &[u32],
    before: &[u32],
) -> Checked {
    let rows = answer.map_or(0, |rows| rows as usize);
    for row in 0..given.len() {
        let place = || format!("{call}, column {name}, row {row}");
        alike(place, &expected[row], &given[row])?;
        if row >= rows {
            let behind = || format!("{call}, column {name}, row {row}, which is to be kept");
            alike(behind, &before[row], &given[row])?;
        }
    }
    Ok(())
}

fn mappings(case: &Case, right: &impl Library, ours: &impl Library, tally: &mut Tally) -> Checked {
    let refresh = case.refresh();
    for &row in &case.mapped {
        let call = || format!("old to new of {row}");
        same(tally, call, &right.old_to_new(refresh, row), &ours.old_to_new(refresh, row))?;
        let call = || format!("new to old of {row}");
        same(tally, call, &right.new_to_old(refresh, row), &ours.new_to_old(refresh, row))?;
    }
    Ok(())
}

fn whole_mappings(
    case: &Case,
    right: &impl Library,
    ours: &impl Library,
    tally: &mut Tally,
) -> Checked {
    let refresh = case.refresh();
    let before = pattern(case.room_old, 1);
    let (mut expected, mut given) = (before.clone(), before.clone());
    let answer = right.map_old(refresh, &mut expected);
    let call = || "all old to new".into();
    same(tally, call, &answer, &ours.map_old(refresh, &mut given))?;
    column("all old to new", "of new rows", &answer, &expected, &given, &before)?;

    let [records, rows] = case.room_new;
    let before = (pattern(records, 1), pattern(rows, 2));
    let (mut expected, mut given) = (before.clone(), before.clone());
    let answer = right.map_new(refresh, &mut expected.0, &mut expected.1);
    let call = || "all new to old".into();
    same(tally, call, &answer, &ours.map_new(refresh, &mut given.0, &mut given.1))?;
    column("all new to old", "of records", &answer, &expected.0, &given.0, &before.0)?;
    column("all new to old", "of rows", &answer, &expected.1, &given.1, &before.1)
}
