//! The four ways that are measured.

use plan::{refresh_into, Columns, Lent, Record, Table};

use crate::mix::{insertions, Mix};
use crate::recompute::recompute;
use crate::shape::Shape;
use crate::singly::singly;

/// What is measured.
#[derive(Clone, Copy, Debug, PartialEq, Eq)]
pub enum Way {
    /// A plain copy of the three columns: the limit.
    Copy,
    /// The library's bulk call.
    Bulk,
    /// All distances recomputed from the sizes.
    Recompute,
    /// Version one's way: each record singly, distances put right after each.
    Singly,
}

impl Way {
    /// All of them.
    pub const ALL: [Way; 4] = [Way::Copy, Way::Bulk, Way::Recompute, Way::Singly];

    /// Its name in tables and pictures.
    pub fn name(self) -> &'static str {
        match self {
            Way::Copy => "copy",
            Way::Bulk => "bulk call",
            Way::Recompute => "recompute",
            Way::Singly => "singly",
        }
    }
}

/// How many lists take turns over one table.
pub const LISTS: usize = 8;

/// A table, lists and their insertions, and columns to write to.
#[derive(Debug)]
pub struct Job {
    /// The old table.
    pub table: Columns,
    /// The lists, [`LISTS`] of them.
    pub lists: Vec<Vec<Record>>,
    /// The insertions of all lists.
    pub insertions: Columns,
    /// The new table.
    pub new: Columns,
    scratch: Vec<u32>,
}

impl Job {
    /// The job of a shape and a mix, from fixed seeds. New columns get room for all rows in between.
    pub fn new(shape: Shape, mix: Mix, rows: usize, records: usize) -> Job {
        let table = shape.table(rows, 1);
        let (insertions, runs) = insertions(64, 2);
        let seeds = 3..3 + LISTS as u64;
        let lists = seeds.map(|seed| mix.list(&table, &runs, records, seed)).collect();
        let longest = insertions.size.iter().max().copied().unwrap_or(0) as usize;
        let new = Columns::of(rows + records * longest);
        Job { table, lists, insertions, new, scratch: vec![0; rows] }
    }

    /// Applies one list in one way; gives the rows of the result, or none if the list is refused.
    pub fn run(&mut self, way: Way, list: usize) -> Option<usize> {
        let (table, insertions) = (&self.table.table(), &self.insertions.table());
        let (records, new) = (&self.lists[list], self.new.lend());
        match way {
            Way::Copy => Some(copy(table, new)),
            Way::Bulk => refresh_into(table, records, insertions, new).ok(),
            Way::Recompute => recompute(table, records, insertions, new, &mut self.scratch),
            Way::Singly => singly(table, records, insertions, new),
        }
    }

    /// The new table that one way gives.
    pub fn result(&mut self, way: Way, list: usize) -> Option<Columns> {
        let rows = self.run(way, list)?;
        let Columns { dist, size, value } = &self.new;
        let first = |column: &[u32]| column[..rows].to_vec();
        Some(Columns { dist: first(dist), size: first(size), value: first(value) })
    }

    /// All ways but the copy give the same table, on every list.
    pub fn agree(&mut self) {
        for list in 0..LISTS {
            let bulk = self.result(Way::Bulk, list).expect("the list is accepted");
            for way in [Way::Recompute, Way::Singly] {
                let result = self.result(way, list).expect("the list is accepted");
                assert!(result == bulk, "{} gives another table than the bulk call", way.name());
            }
        }
    }
}

/// Copies the columns; gives their rows.
pub fn copy(table: &Table, new: Lent) -> usize {
    let rows = table.size().len();
    new.dist[..rows].copy_from_slice(table.dist());
    new.size[..rows].copy_from_slice(table.size());
    new.value[..rows].copy_from_slice(table.value());
    rows
}
