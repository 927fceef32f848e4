//! The rules of the plan library a second time, written from the paper on the rules alone and as
//! plainly as can be, to hold the library against. It shares nothing with it.
//!
//! A table is read into a real tree of nodes; the records change that tree one by one, the last
//! first; a walk over what is left writes the new columns. Every node carries where it came from,
//! and that is both mappings. Nothing is meant to be fast.
//!
//! - `table`: columns, records and what a call hands back
//! - `tree`: nodes with their children, read from columns and written to columns
//! - `change`: one record, applied to a tree
//! - `judge`: the published tests in their order
//! - `calls`: soundness, bulk, single, the mappings
//! - `axes`: parent, first child, next sibling, subtree, child walk, on raw columns

mod axes;
mod calls;
mod change;
mod judge;
mod table;
mod tree;

pub use axes::{child, children, first_child, next_sibling, parent, subtree};
pub use calls::{bulk, map_new, map_old, new_to_old, old_to_new, single, soundness};
pub use table::{Lent, Origin, Record, Refresh, Refused, Table, GONE, OLD};
