//! Why a call is refused.

use std::error::Error;
use std::fmt;

use crate::{Kind, Record};

/// Why a call is refused. A record is named by its place in the list, from 0.
///
/// The tests run in the order of the numbers, and the first that fails decides; of those that name
/// a record, the first record that fails any of them.
#[derive(Clone, Copy, Debug, PartialEq, Eq, Hash)]
pub enum Refusal {
    /// 1: columns that belong together differ in length.
    Lengths,
    /// 2: the table is not the walk of one tree of 1 to 65,535 rows.
    Unsound,
    /// 3: the list has more than 1,024 records.
    TooManyRecords,
    /// 4: the kind is not 1 to 4.
    Kind {
        /// The record at fault.
        record: usize,
    },
    /// 5: an insert's location is not an open place of its parent; a delete's or a replace's is
    /// row 0 or no row; a rename's is no row.
    Location {
        /// The record at fault.
        record: usize,
        /// Its kind.
        kind: Kind,
    },
    /// 6: the run does not lie within the insertions, or by itself is not a sound table.
    Run {
        /// The record at fault.
        record: usize,
    },
    /// 7: the location is below that of the record before; or at the same location an insert
    /// follows another kind, or an insert with a smaller parent.
    Order {
        /// The record at fault.
        record: usize,
    },
    /// 8: the record before has the same location, and neither of the two is an insert.
    Twice {
        /// The record at fault.
        record: usize,
    },
    /// 9: the result has more than 65,535 rows.
    TooManyRows {
        /// The rows that it has.
        rows: u64,
    },
    /// 10: the result has more rows than the lent columns.
    NoRoom {
        /// The rows needed.
        rows: u64,
    },
    /// 11: the row number is not in the table.
    NoSuchRow {
        /// The row asked about.
        row: usize,
    },
    /// 12: the numbers at the row do not fit the table, which is then not sound.
    BadRow {
        /// The row asked about; in a child walk, the candidate.
        row: usize,
    },
}

impl Refusal {
    /// The number that `plan.h` gives it, 1 to 12.
    pub fn number(&self) -> u32 {
        match self {
            Refusal::Lengths => 1,
            Refusal::Unsound => 2,
            Refusal::TooManyRecords => 3,
            Refusal::Kind { .. } => 4,
            Refusal::Location { .. } => 5,
            Refusal::Run { .. } => 6,
            Refusal::Order { .. } => 7,
            Refusal::Twice { .. } => 8,
            Refusal::TooManyRows { .. } => 9,
            Refusal::NoRoom { .. } => 10,
            Refusal::NoSuchRow { .. } => 11,
            Refusal::BadRow { .. } => 12,
        }
    }

    /// The record at fault, where one is.
    pub fn record(&self) -> Option<usize> {
        match *self {
            Refusal::Kind { record }
            | Refusal::Location { record, .. }
            | Refusal::Run { record }
            | Refusal::Order { record }
            | Refusal::Twice { record } => Some(record),
            _ => None,
        }
    }

    /// The row at fault, where one is.
    pub fn row(&self) -> Option<usize> {
        match *self {
            Refusal::NoSuchRow { row } | Refusal::BadRow { row } => Some(row),
            _ => None,
        }
    }

    /// The rows that the result has, where they are too many.
    pub fn rows_needed(&self) -> Option<u64> {
        match *self {
            Refusal::TooManyRows { rows } | Refusal::NoRoom { rows } => Some(rows),
            _ => None,
        }
    }

    /// Nothing for number 0; else the refusal that the library's three numbers mean.
    pub(crate) fn told(
        number: u32,
        place: u64,
        count: u64,
        records: &[Record],
    ) -> Result<(), Refusal> {
        let at = place as usize;
        Err(match (number, place, count) {
            (0, 0, _) => return Ok(()),
            (1, 0, 0) => Refusal::Lengths,
            (2, 0, 0) => Refusal::Unsound,
            (3, 0, 0) => Refusal::TooManyRecords,
            (4, _, 0) => Refusal::Kind { record: at },
            (5, _, 0) => Refusal::Location { record: at, kind: kind(records, at) },
            (6, _, 0) => Refusal::Run { record: at },
            (7, _, 0) => Refusal::Order { record: at },
            (8, _, 0) => Refusal::Twice { record: at },
            (9, 0, rows) => Refusal::TooManyRows { rows },
            (10, 0, rows) => Refusal::NoRoom { rows },
            (11, _, 0) => Refusal::NoSuchRow { row: at },
            (12, _, 0) => Refusal::BadRow { row: at },
            other => panic!("the library answers {other:?}, which plan.h does not list"),
        })
    }
}

/// The kind of the record at fault, which has passed test 4.
fn kind(records: &[Record], record: usize) -> Kind {
    Kind::of(records[record].kind).expect("test 4 comes before test 5")
}

impl fmt::Display for Refusal {
    fn fmt(&self, f: &mut fmt::Formatter<'_>) -> fmt::Result {
        match *self {
            Refusal::Lengths => write!(f, "columns that belong together differ in length"),
            Refusal::Unsound => {
                write!(f, "the table is not the walk of one tree of 1 to 65535 rows")
            }
            Refusal::TooManyRecords => write!(f, "the list has more than 1024 records"),
            Refusal::Kind { record } => {
                write!(f, "record {record}: the kind is none of delete, insert, rename, replace")
            }
            Refusal::Location { record, kind } => {
                write!(f, "record {record}: the location is not {}", wanted(kind))
            }
            Refusal::Run { record } => {
                write!(f, "record {record}: the run is not a sound table within the insertions")
            }
            Refusal::Order { record } => {
                write!(f, "record {record}: it has to stand before the record in front of it")
            }
            Refusal::Twice { record } => {
                write!(f, "record {record}: the record before already changes the same row")
            }
            Refusal::TooManyRows { rows } => {
                write!(f, "the result has {rows} rows, more than 65535")
            }
            Refusal::NoRoom { rows } => {
                write!(f, "the result has {rows} rows, more than the lent columns")
            }
            Refusal::NoSuchRow { row } => write!(f, "row {row} is not in the table"),
            Refusal::BadRow { row } => write!(f, "row {row}: its numbers do not fit the table"),
        }
    }
}

/// What the location of a record of this kind has to be.
fn wanted(kind: Kind) -> &'static str {
    match kind {
        Kind::Insert => "an open place of its parent",
        Kind::Rename => "a row of the table",
        Kind::Delete | Kind::Replace => "a row of the table below the root",
    }
}

impl Error for Refusal {}
