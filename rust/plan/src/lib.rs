//! The plan library for Rust: a plan is an ordered tree, kept as a table of three columns, and a
//! list of records changes it in one pass. The work is done by the proved library behind
//! `include/plan.h`; this crate gives it Rust's types and hands every column over with its length.
//!
//! # A refresh
//!
//! The plan below has seven rows. Row 0 is the root; rows 1, 4 and 6 are its children; rows 2 and 3
//! are children of row 1, and row 5 of row 4. The insertions hold a run of two rows, which starts
//! at row 0, and one of a single row, at row 2.
//!
//! ```
//! use plan::{refresh, OldRow, Record, Table};
//!
//! let table = Table::new(
//!     &[1, 1, 1, 2, 4, 1, 6],        // dist: the row number less the parent's
//!     &[7, 3, 1, 1, 2, 1, 1],        // size: the nodes of the subtree
//!     &[10, 20, 30, 31, 21, 32, 40], // value: a code that is copied and never read
//! );
//! let insertions = Table::new(&[1, 1, 1], &[2, 1, 1], &[50, 51, 60]);
//! let records = [
//!     Record::insert(OldRow(2), OldRow(1), 2), // run 2 becomes a child of row 1, at row 2
//!     Record::delete(OldRow(4)),               // row 4 goes, and row 5 with it
//!     Record::insert(OldRow(6), OldRow(0), 0), // run 0 becomes a child of row 0, at row 6
//! ];
//!
//! let new = refresh(&table, &records, &insertions)?;
//! assert_eq!(new.dist, [1, 1, 1, 2, 3, 5, 1, 7]);
//! assert_eq!(new.size, [8, 4, 1, 1, 1, 2, 1, 1]);
//! assert_eq!(new.value, [10, 20, 60, 30, 31, 50, 51, 40]);
//! # Ok::<(), plan::Refusal>(())
//! ```
//!
//! # A refusal
//!
//! Every call tests what it is handed, so nothing has to be tested before. What it refuses, it says
//! in plain words, and it has then written nothing.
//!
//! ```
//! # use plan::{refresh, OldRow, Record, Refusal, Table};
//! # let table = Table::new(
//! #     &[1, 1, 1, 2, 4, 1, 6], &[7, 3, 1, 1, 2, 1, 1], &[10, 20, 30, 31, 21, 32, 40]);
//! # let insertions = Table::new(&[1, 1, 1], &[2, 1, 1], &[50, 51, 60]);
//! let records = [Record::insert(OldRow(5), OldRow(0), 2)];
//! let refusal = refresh(&table, &records, &insertions).unwrap_err();
//! assert_eq!(refusal.number(), 5);
//! assert_eq!(refusal.to_string(), "record 0: the location is not an open place of its parent");
//! ```
//!
//! # Where each row went
//!
//! Row numbers of the old table and of the new one are two types, and only the mappings turn one
//! into the other.
//!
//! ```
//! # use plan::{OldRow, Record, Table};
//! # let table = Table::new(
//! #     &[1, 1, 1, 2, 4, 1, 6], &[7, 3, 1, 1, 2, 1, 1], &[10, 20, 30, 31, 21, 32, 40]);
//! # let insertions = Table::new(&[1, 1, 1], &[2, 1, 1], &[50, 51, 60]);
//! # let records = [
//! #     Record::insert(OldRow(2), OldRow(1), 2),
//! #     Record::delete(OldRow(4)),
//! #     Record::insert(OldRow(6), OldRow(0), 0),
//! # ];
//! use plan::{new_to_old, old_to_new, NewRow, Origin};
//!
//! assert_eq!(old_to_new(&table, &records, &insertions, OldRow(6))?, Some(NewRow(7)));
//! assert_eq!(old_to_new(&table, &records, &insertions, OldRow(4))?, None); // gone
//! assert_eq!(
//!     new_to_old(&table, &records, &insertions, NewRow(6))?,
//!     Origin::Run { record: 2, row: 1 },
//! );
//! # Ok::<(), plan::Refusal>(())
//! ```

mod columns;
#[allow(unsafe_code)]
#[rustfmt::skip]
mod ffi;
mod mapping;
mod record;
mod refresh;
mod refusal;
mod row;
mod table;

pub use columns::{Columns, Lent};
pub use mapping::{map_new, map_new_into, map_old, map_old_into, new_to_old, old_to_new};
pub use mapping::{Origin, GONE, OLD};
pub use record::{Kind, Record};
pub use refresh::{refresh, refresh_into, single, single_into};
pub use refusal::Refusal;
pub use row::{NewRow, OldRow};
pub use table::{Children, Subtree, Table};

/// How many rows a table, a run or a result may have.
pub const MOST_ROWS: usize = 65_535;

/// How many records a list may have.
pub const MOST_RECORDS: usize = 1_024;
