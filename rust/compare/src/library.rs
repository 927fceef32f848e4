//! What is compared: every public call, as a trait that both implementations have.

/// Three columns, equally long or not.
#[derive(Clone, Copy, Debug, PartialEq, Eq)]
pub struct Table<'a> {
    /// Each row's number less its parent's.
    pub dist: &'a [u32],
    /// The nodes of each row's subtree.
    pub size: &'a [u32],
    /// Each row's value.
    pub value: &'a [u32],
}

/// Three lent columns.
#[derive(Debug)]
pub struct Lent<'a> {
    /// The new distances.
    pub dist: &'a mut [u32],
    /// The new sizes.
    pub size: &'a mut [u32],
    /// The new values.
    pub value: &'a mut [u32],
}

/// One record, right or wrong.
#[derive(Clone, Copy, Debug, PartialEq, Eq)]
pub struct Record {
    /// 1 delete, 2 insert, 3 rename, 4 replace.
    pub kind: u32,
    /// An old row number.
    pub location: u32,
    /// An old row number.
    pub parent: u32,
    /// The first row of a run.
    pub from: u32,
    /// A value.
    pub value: u32,
}

/// A table, a list and where its runs are.
#[derive(Clone, Copy, Debug)]
pub struct Refresh<'a> {
    /// The old table.
    pub table: Table<'a>,
    /// The list.
    pub records: &'a [Record],
    /// The insertions.
    pub insertions: Table<'a>,
}

/// Where a new row comes from.
#[derive(Clone, Copy, Debug, PartialEq, Eq)]
pub enum Origin {
    /// An old row.
    Old(u32),
    /// A row of the run of a record.
    Run {
        /// The record's place in the list.
        record: u32,
        /// The row within its run.
        row: u32,
    },
}

/// A refusal.
#[derive(Clone, Copy, Debug, PartialEq, Eq)]
pub struct Refused {
    /// 1 to 12.
    pub number: u32,
    /// The record or row at fault, or 0.
    pub place: u64,
    /// The rows needed, or 0.
    pub count: u64,
}

/// What a call answers.
pub type Answer<T> = Result<T, Refused>;

/// What the steps of a child walk answer, one after another.
pub type Steps = Vec<Answer<Option<u64>>>;

/// Every public call.
pub trait Library {
    /// The number of rows of a sound table.
    fn soundness(&self, table: Table) -> Answer<u64>;
    /// The parent of a row.
    fn parent(&self, table: Table, row: u32) -> Answer<Option<u64>>;
    /// The first child of a row.
    fn first_child(&self, table: Table, row: u32) -> Answer<Option<u64>>;
    /// The next sibling of a row.
    fn next_sibling(&self, table: Table, row: u32) -> Answer<Option<u64>>;
    /// The first row of a subtree, and its part of the value column itself.
    fn subtree<'a>(&self, table: Table<'a>, row: u32) -> Answer<(u64, &'a [u32])>;
    /// Every step of a walk over the children of a row up to the first that gives no child, and one
    /// step more.
    fn children(&self, table: Table, row: u32) -> Answer<Steps>;
    /// Applies a list; the number of new rows.
    fn bulk(&self, refresh: Refresh, new: Lent) -> Answer<u64>;
    /// Applies one record; the number of new rows.
    fn single(&self, table: Table, record: Record, insertions: Table, new: Lent) -> Answer<u64>;
    /// The new number of an old row; none if it is gone.
    fn old_to_new(&self, refresh: Refresh, row: u32) -> Answer<Option<u32>>;
    /// Where a new row comes from.
    fn new_to_old(&self, refresh: Refresh, row: u32) -> Answer<Origin>;
    /// The new numbers of all old rows, or 4,294,967,295; the number of old rows.
    fn map_old(&self, refresh: Refresh, new_rows: &mut [u32]) -> Answer<u64>;
    /// The records, or 4,294,967,295, and the rows of all new rows; the number of new rows.
    fn map_new(&self, refresh: Refresh, records: &mut [u32], rows: &mut [u32]) -> Answer<u64>;
}

/// More steps than a walk over a table of so many rows can have: a fault may make one endless.
pub(crate) fn enough(table: Table) -> usize {
    table.size.len() + 2
}

/// The steps of a walk up to the first that gives no child, and one step more.
pub(crate) fn steps(table: Table, mut step: impl FnMut() -> Answer<Option<u64>>) -> Steps {
    let mut given = vec![step()];
    while matches!(given.last(), Some(Ok(Some(_)))) && given.len() < enough(table) {
        given.push(step());
    }
    given.push(step());
    given
}
