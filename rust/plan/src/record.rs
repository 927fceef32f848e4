//! One record of a list.

use crate::{OldRow, Table};

/// What a record does.
#[derive(Clone, Copy, Debug, PartialEq, Eq, Hash)]
#[repr(u32)]
pub enum Kind {
    /// The row and its subtree go.
    Delete = 1,
    /// A run becomes a child of the parent, at the location.
    Insert = 2,
    /// The row's value is replaced.
    Rename = 3,
    /// The subtree goes and a run takes its place under the same parent.
    Replace = 4,
}

impl Kind {
    /// The kind of this number, if it is 1 to 4.
    pub fn of(number: u32) -> Option<Kind> {
        match number {
            1 => Some(Kind::Delete),
            2 => Some(Kind::Insert),
            3 => Some(Kind::Rename),
            4 => Some(Kind::Replace),
            _ => None,
        }
    }
}

/// One record of a list. All rows that it names are rows of the old table.
///
/// The four functions below make right ones. The fields are open for lists that come from
/// elsewhere: what a kind does not use is not read, and what is wrong the library refuses.
#[derive(Clone, Copy, Debug, PartialEq, Eq)]
#[repr(C)]
pub struct Record {
    /// The number of its [`Kind`].
    pub kind: u32,
    /// The row that it changes; for an insert, where the run goes.
    pub location: OldRow,
    /// Insert: the row that the run becomes a child of.
    pub parent: OldRow,
    /// Insert and replace: the first row of the run, in the insertions. Its length is the size
    /// written there.
    pub from: u32,
    /// Rename: the new value.
    pub value: u32,
}

impl Record {
    /// The row and its subtree go.
    pub const fn delete(location: OldRow) -> Record {
        Record { kind: Kind::Delete as u32, location, parent: OldRow(0), from: 0, value: 0 }
    }

    /// The run that starts at `from` becomes a child of `parent`, at `location`: that is
    /// `parent` + 1, or the end of a child of `parent`.
    pub const fn insert(location: OldRow, parent: OldRow, from: u32) -> Record {
        Record { kind: Kind::Insert as u32, location, parent, from, value: 0 }
    }

    /// The row gets another value.
    pub const fn rename(location: OldRow, value: u32) -> Record {
        Record { kind: Kind::Rename as u32, location, parent: OldRow(0), from: 0, value }
    }

    /// The subtree goes and the run that starts at `from` takes its place.
    pub const fn replace(location: OldRow, from: u32) -> Record {
        Record { kind: Kind::Replace as u32, location, parent: OldRow(0), from, value: 0 }
    }

    /// How many rows it brings at most: the length of its run, if it has one.
    pub(crate) fn brings(&self, insertions: &Table<'_>) -> usize {
        match Kind::of(self.kind) {
            Some(Kind::Insert | Kind::Replace) => {
                insertions.size().get(self.from as usize).map_or(0, |&size| size as usize)
            }
            _ => 0,
        }
    }
}
