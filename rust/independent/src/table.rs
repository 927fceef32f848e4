//! Columns, records and what a call hands back.

/// Three columns. They belong together, but nothing says yet that they are equally long.
#[derive(Clone, Copy, Debug)]
pub struct Table<'a> {
    /// Each row's number less its parent's.
    pub dist: &'a [u32],
    /// The nodes of each row's subtree, itself included.
    pub size: &'a [u32],
    /// Each row's value.
    pub value: &'a [u32],
}

impl<'a> Table<'a> {
    /// Are the three columns equally long?
    pub(crate) fn even(&self) -> bool {
        self.dist.len() == self.size.len() && self.size.len() == self.value.len()
    }

    /// The number of rows, where the columns are equally long.
    pub(crate) fn rows(&self) -> usize {
        self.size.len()
    }

    /// The rows from `start` up to `end`.
    pub(crate) fn part(&self, start: usize, end: usize) -> Table<'a> {
        Table {
            dist: &self.dist[start..end],
            size: &self.size[start..end],
            value: &self.value[start..end],
        }
    }
}

/// Three lent columns for the new table.
#[derive(Debug)]
pub struct Lent<'a> {
    /// The new distances.
    pub dist: &'a mut [u32],
    /// The new sizes.
    pub size: &'a mut [u32],
    /// The new values.
    pub value: &'a mut [u32],
}

/// One record of a list. Numbers that its kind doesn't use are not read.
#[derive(Clone, Copy, Debug)]
pub struct Record {
    /// 1 delete, 2 insert, 3 rename, 4 replace.
    pub kind: u32,
    /// An old row number, or for an insert where the run goes.
    pub location: u32,
    /// Insert: the old row that the run becomes a child of.
    pub parent: u32,
    /// Insert and replace: the first row of the run.
    pub from: u32,
    /// Rename: the new value.
    pub value: u32,
}

pub(crate) const DELETE: u32 = 1;
pub(crate) const INSERT: u32 = 2;
pub(crate) const RENAME: u32 = 3;
pub(crate) const REPLACE: u32 = 4;

/// What a list is applied to, the list, and where its runs are.
#[derive(Clone, Copy, Debug)]
pub struct Refresh<'a> {
    /// The old table.
    pub table: Table<'a>,
    /// The list.
    pub records: &'a [Record],
    /// The insertion columns.
    pub insertions: Table<'a>,
}

/// Where a row of the new table comes from.
#[derive(Clone, Copy, Debug, PartialEq, Eq)]
pub enum Origin {
    /// It was this row of the old table.
    Old(u32),
    /// It is a row of the run of a record.
    Run {
        /// The record's place in its list.
        record: u32,
        /// The row within the run.
        row: u32,
    },
}

/// In the column of new rows: the old row is gone.
pub const GONE: u32 = u32::MAX;

/// In the column of records: the new row was a row of the old table.
pub const OLD: u32 = u32::MAX;

/// A refusal: the number of the test that failed, the place at fault, and a count.
#[derive(Clone, Copy, Debug, PartialEq, Eq)]
pub struct Refused {
    /// 1 to 12.
    pub number: u32,
    /// The record or row at fault, or 0.
    pub place: u64,
    /// The rows needed, or 0.
    pub count: u64,
}

impl Refused {
    /// A refusal that names nothing.
    pub(crate) fn plain(number: u32) -> Refused {
        Refused::at(number, 0)
    }

    /// A refusal that names a record or a row.
    pub(crate) fn at(number: u32, place: u64) -> Refused {
        Refused { number, place, count: 0 }
    }

    /// A refusal that says how many rows are needed.
    pub(crate) fn needs(number: u32, rows: usize) -> Refused {
        Refused { number, place: 0, count: rows as u64 }
    }
}
