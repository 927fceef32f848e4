//! One record, applied to the tree as it then is.

use crate::table::{Origin, Record, Table, DELETE, INSERT, RENAME, REPLACE};
use crate::tree::Tree;

/// Applies a record that has passed the tests, the `index`-th of its list. All later records have
/// been applied before, and they leave the rows before their locations where they are: up to its
/// own location the record's row numbers are still those of the old table.
pub fn apply(tree: &mut Tree, index: usize, record: &Record, insertions: Table) {
    let location = record.location as usize;
    match record.kind {
        DELETE => {
            tree.cut(tree.find(location));
        }
        INSERT => {
            let parent = tree.find(record.parent as usize);
            let place = tree.place(parent, location - record.parent as usize - 1);
            tree.put(parent, place, run(index, record, insertions));
        }
        RENAME => tree.rename(tree.find(location), record.value),
        REPLACE => {
            let (parent, place) = tree.cut(tree.find(location));
            tree.put(parent, place, run(index, record, insertions));
        }
        _ => unreachable!("test 4 has passed"),
    }
}

/// The tree of a record's run, its nodes painted with the record.
fn run(index: usize, record: &Record, insertions: Table) -> Tree {
    let start = record.from as usize;
    let end = start + insertions.size[start] as usize;
    let record = index as u32;
    Tree::read(insertions.part(start, end), |row| Origin::Run { record, row })
        .expect("test 6 has passed")
}
