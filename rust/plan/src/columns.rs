//! Columns that a call writes: lent by the caller, or owned.

use crate::Table;

/// Three lent columns for a new table. They may be longer than the result: rows behind it keep what
/// they held. Columns that differ in length the library refuses.
#[derive(Debug)]
pub struct Lent<'a> {
    /// The new distances.
    pub dist: &'a mut [u32],
    /// The new sizes.
    pub size: &'a mut [u32],
    /// The new values.
    pub value: &'a mut [u32],
}

/// A new table with columns of its own.
#[derive(Clone, Debug, Default, PartialEq, Eq)]
pub struct Columns {
    /// The distances.
    pub dist: Vec<u32>,
    /// The sizes.
    pub size: Vec<u32>,
    /// The values.
    pub value: Vec<u32>,
}

impl Columns {
    /// Columns of so many rows, all 0.
    pub fn of(rows: usize) -> Columns {
        Columns { dist: vec![0; rows], size: vec![0; rows], value: vec![0; rows] }
    }

    /// The columns as a table: a list can be applied to it, its axes can be asked.
    pub fn table(&self) -> Table<'_> {
        Table::new(&self.dist, &self.size, &self.value)
    }

    /// The columns, lent to a call.
    pub fn lend(&mut self) -> Lent<'_> {
        Lent { dist: &mut self.dist, size: &mut self.size, value: &mut self.value }
    }

    /// Only the first rows.
    pub(crate) fn first(mut self, rows: usize) -> Columns {
        self.dist.truncate(rows);
        self.size.truncate(rows);
        self.value.truncate(rows);
        self
    }
}
