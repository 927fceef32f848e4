//! Row numbers of the old and of the new table.

use std::fmt;

/// A row number of the table as it was before a list.
///
/// It never stands in for one of the new table:
///
/// ```compile_fail,E0308
/// # let table = plan::Table::new(&[1], &[1], &[0]);
/// # let none = plan::Table::new(&[], &[], &[]);
/// let old = plan::OldRow(0);
/// plan::new_to_old(&table, &[], &none, old); // a new row is asked for
/// ```
#[derive(Clone, Copy, Debug, PartialEq, Eq, PartialOrd, Ord, Hash)]
#[repr(transparent)]
pub struct OldRow(pub u32);

/// A row number of the table as it is after a list.
#[derive(Clone, Copy, Debug, PartialEq, Eq, PartialOrd, Ord, Hash)]
#[repr(transparent)]
pub struct NewRow(pub u32);

impl fmt::Display for OldRow {
    fn fmt(&self, f: &mut fmt::Formatter<'_>) -> fmt::Result {
        self.0.fmt(f)
    }
}

impl fmt::Display for NewRow {
    fn fmt(&self, f: &mut fmt::Formatter<'_>) -> fmt::Result {
        self.0.fmt(f)
    }
}
