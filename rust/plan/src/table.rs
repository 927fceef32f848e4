//! A table over borrowed columns, and its axes.

use std::iter::{FusedIterator, Zip};
use std::ops::Range;
use std::slice;

use crate::{ffi, Refusal};

/// A table: three borrowed columns, of which each call gets the pointer and the true length.
///
/// Any three columns make a `Table`; whether it is sound, [`Table::soundness`] says, and every call
/// that needs it tests it. The axes read the columns as they are and answer for unsound tables too;
/// on a sound table they are the tree's own relations. Row numbers are plain here: an axis sees one
/// table only, be it the old or the new. A row that is answered is a `usize`: columns may have more
/// than 2³² rows.
#[derive(Clone, Copy, Debug, PartialEq, Eq)]
pub struct Table<'a> {
    dist: &'a [u32],
    size: &'a [u32],
    value: &'a [u32],
}

impl<'a> Table<'a> {
    /// The table of these columns. If they differ in length, every call refuses it with
    /// [`Refusal::Lengths`].
    pub const fn new(dist: &'a [u32], size: &'a [u32], value: &'a [u32]) -> Table<'a> {
        Table { dist, size, value }
    }

    /// No rows: for lists that insert nothing.
    pub const fn empty() -> Table<'a> {
        Table::new(&[], &[], &[])
    }

    /// The column of distances: each row's number less its parent's.
    pub const fn dist(&self) -> &'a [u32] {
        self.dist
    }

    /// The column of sizes: the nodes of each row's subtree, itself included.
    pub const fn size(&self) -> &'a [u32] {
        self.size
    }

    /// The column of values.
    pub const fn value(&self) -> &'a [u32] {
        self.value
    }

    /// Is it the walk of one tree of 1 to 65,535 rows? Then, how many rows it has.
    ///
    /// ```
    /// use plan::{Refusal, Table};
    /// assert_eq!(Table::new(&[1, 1, 2], &[3, 1, 1], &[7, 8, 9]).soundness(), Ok(3));
    /// assert_eq!(Table::new(&[1, 1, 1], &[3, 1, 1], &[7, 8, 9]).soundness(), Err(Refusal::Unsound));
    /// ```
    pub fn soundness(&self) -> Result<usize, Refusal> {
        let answer = ffi::soundness(self);
        Refusal::told(answer.number, answer.place.into(), answer.count, &[])?;
        Ok(answer.count as usize)
    }

    /// The parent of a row; none for row 0.
    ///
    /// ```
    /// let table = plan::Table::new(&[1, 1, 2], &[3, 1, 1], &[7, 8, 9]);
    /// assert_eq!(table.parent(2)?, Some(0));
    /// assert_eq!(table.parent(0)?, None);
    /// # Ok::<(), plan::Refusal>(())
    /// ```
    pub fn parent(&self, row: u32) -> Result<Option<usize>, Refusal> {
        found(ffi::parent(self, row))
    }

    /// The first child of a row, or none.
    ///
    /// ```
    /// let table = plan::Table::new(&[1, 1, 2], &[3, 1, 1], &[7, 8, 9]);
    /// assert_eq!(table.first_child(0)?, Some(1));
    /// assert_eq!(table.first_child(1)?, None);
    /// # Ok::<(), plan::Refusal>(())
    /// ```
    pub fn first_child(&self, row: u32) -> Result<Option<usize>, Refusal> {
        found(ffi::first_child(self, row))
    }

    /// The next sibling of a row, or none.
    ///
    /// ```
    /// let table = plan::Table::new(&[1, 1, 2], &[3, 1, 1], &[7, 8, 9]);
    /// assert_eq!(table.next_sibling(1)?, Some(2));
    /// assert_eq!(table.next_sibling(2)?, None);
    /// # Ok::<(), plan::Refusal>(())
    /// ```
    pub fn next_sibling(&self, row: u32) -> Result<Option<usize>, Refusal> {
        found(ffi::next_sibling(self, row))
    }

    /// The rows of one subtree, the row itself first.
    ///
    /// ```
    /// let table = plan::Table::new(&[1, 1, 1, 3], &[4, 2, 1, 1], &[7, 8, 9, 10]);
    /// let subtree = table.subtree(1)?;
    /// assert_eq!(subtree.values(), [8, 9]);
    /// for (row, value) in subtree {
    ///     assert_eq!(table.value()[row], value);
    /// }
    /// # Ok::<(), plan::Refusal>(())
    /// ```
    pub fn subtree(&self, row: u32) -> Result<Subtree<'a>, Refusal> {
        let part = ffi::subtree(self, row);
        Refusal::told(part.number, part.place.into(), 0, &[])?;
        let start = part.start as usize;
        let rows = start..start + part.length as usize;
        let values = &self.value[rows.clone()];
        Ok(Subtree { rows, values })
    }

    /// A walk over the children of a row.
    ///
    /// ```
    /// let table = plan::Table::new(&[1, 1, 1, 3], &[4, 2, 1, 1], &[7, 8, 9, 10]);
    /// let children: Result<Vec<usize>, _> = table.children(0)?.collect();
    /// assert_eq!(children?, [1, 3]);
    /// # Ok::<(), plan::Refusal>(())
    /// ```
    pub fn children(&self, row: u32) -> Result<Children<'a>, Refusal> {
        let walk = ffi::children(self, row);
        Refusal::told(walk.number, walk.place.into(), 0, &[])?;
        Ok(Children { size: self.size, next: walk.next, end: walk.end, refused: false })
    }
}

fn found(answer: ffi::Row) -> Result<Option<usize>, Refusal> {
    Refusal::told(answer.number, answer.place.into(), 0, &[])?;
    Ok((answer.some == 1).then_some(answer.row as usize))
}

/// The rows of one subtree: consecutive row numbers, and that part of the value column itself.
#[derive(Clone, Debug, PartialEq, Eq)]
pub struct Subtree<'a> {
    rows: Range<usize>,
    values: &'a [u32],
}

impl<'a> Subtree<'a> {
    /// The row numbers.
    pub fn rows(&self) -> Range<usize> {
        self.rows.clone()
    }

    /// The values: a part of the table's own column.
    pub fn values(&self) -> &'a [u32] {
        self.values
    }
}

impl<'a> IntoIterator for Subtree<'a> {
    type Item = (usize, u32);
    type IntoIter = Zip<Range<usize>, std::iter::Copied<slice::Iter<'a, u32>>>;

    /// Each row number with its value.
    fn into_iter(self) -> Self::IntoIter {
        self.rows.zip(self.values.iter().copied())
    }
}

/// A walk over the children of one row, on one table from its start to its end.
///
/// As an iterator it gives each child; on an unsound table it may end with a refusal, after which
/// it gives nothing more.
#[derive(Clone, Debug)]
pub struct Children<'a> {
    size: &'a [u32],
    next: u64,
    end: u64,
    refused: bool,
}

impl Children<'_> {
    /// One step: the next child, or none. A step that is refused stays where it is, so the next
    /// step is refused as well.
    pub fn step(&mut self) -> Result<Option<usize>, Refusal> {
        let step = ffi::child(self.size, self.next, self.end);
        self.next = step.next;
        Refusal::told(step.number, step.place, 0, &[])?;
        Ok((step.some == 1).then_some(step.row as usize))
    }
}

impl Iterator for Children<'_> {
    type Item = Result<usize, Refusal>;

    fn next(&mut self) -> Option<Self::Item> {
        if self.refused {
            return None;
        }
        let step = self.step();
        self.refused = step.is_err();
        step.transpose()
    }
}

impl FusedIterator for Children<'_> {}
