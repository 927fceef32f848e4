//! The published tests, in their order.

use crate::change::apply;
use crate::table::{Origin, Record, Refresh, Refused, Table, DELETE, INSERT, RENAME, REPLACE};
use crate::tree::Tree;

const MOST_ROWS: usize = 65_535;
const MOST_RECORDS: usize = 1_024;

/// The tree of a sound table: one that a tree of 1 to 65,535 nodes, walked in preorder, gives.
pub fn sound(table: Table, origin: impl Fn(u32) -> Origin) -> Option<Tree> {
    if table.rows() > MOST_ROWS {
        return None;
    }
    let tree = Tree::read(table, origin)?;
    let columns = tree.columns();
    (columns.dist == table.dist && columns.size == table.size).then_some(tree)
}

/// Tests 1 to 9. `even` says whether the lent columns are equally long, where there are some.
/// Accepted, it gives the tree that the list leads to.
pub fn judge(even: bool, refresh: Refresh) -> Result<Tree, Refused> {
    let Refresh { table, records, insertions } = refresh;
    if !even || !table.even() || !insertions.even() {
        return Err(Refused::plain(1));
    }
    let Some(mut tree) = sound(table, Origin::Old) else {
        return Err(Refused::plain(2));
    };
    if records.len() > MOST_RECORDS {
        return Err(Refused::plain(3));
    }
    for (index, record) in records.iter().enumerate() {
        let previous = index.checked_sub(1).map(|before| &records[before]);
        if let Some(number) = failing(table, insertions, previous, record) {
            return Err(Refused::at(number, index as u64));
        }
    }
    for (index, record) in records.iter().enumerate().rev() {
        apply(&mut tree, index, record, insertions);
    }
    let needed = tree.count();
    if needed > MOST_ROWS {
        return Err(Refused::needs(9, needed));
    }
    Ok(tree)
}

/// The first of tests 4 to 8 that a record fails.
fn failing(
    table: Table,
    insertions: Table,
    previous: Option<&Record>,
    record: &Record,
) -> Option<u32> {
    if !matches!(record.kind, DELETE | INSERT | RENAME | REPLACE) {
        return Some(4);
    }
    if !located(table, record) {
        return Some(5);
    }
    if matches!(record.kind, INSERT | REPLACE) && !has_run(insertions, record) {
        return Some(6);
    }
    let previous = previous?;
    if !in_order(previous, record) {
        return Some(7);
    }
    let inserts = previous.kind == INSERT || record.kind == INSERT;
    (previous.location == record.location && !inserts).then_some(8)
}

/// Test 5, on a sound table.
fn located(table: Table, record: &Record) -> bool {
    let rows = table.rows() as u32;
    match record.kind {
        INSERT => record.parent < rows && open_place(table, record.location, record.parent),
        RENAME => record.location < rows,
        _ => record.location != 0 && record.location < rows,
    }
}

/// Is p an open place of q: q + 1, or c + size of c for a child c of q?
fn open_place(table: Table, p: u32, q: u32) -> bool {
    let end = q + table.size[q as usize];
    let mut place = q + 1;
    while place != p && place != end {
        place += table.size[place as usize];
    }
    place == p
}

/// Test 6: the run starts and ends within the insertions and by itself is a sound table.
fn has_run(insertions: Table, record: &Record) -> bool {
    let start = record.from as usize;
    if start >= insertions.rows() {
        return false;
    }
    let end = start + insertions.size[start] as usize;
    end <= insertions.rows() && sound(insertions.part(start, end), Origin::Old).is_some()
}

/// Test 7: the location has not fallen; at one location an insert follows an insert, and its
/// parent has not risen.
fn in_order(previous: &Record, record: &Record) -> bool {
    if record.location != previous.location {
        return record.location > previous.location;
    }
    match (previous.kind, record.kind) {
        (INSERT, INSERT) => record.parent <= previous.parent,
        (_, INSERT) => false,
        _ => true,
    }
}
