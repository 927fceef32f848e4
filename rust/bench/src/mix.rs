//! The lists: records of four mixes over a table.

use std::collections::BTreeSet;

use plan::{Columns, Kind, OldRow, Record};

use crate::random::Random;
use crate::shape::from_parents;

/// Which kinds a list has.
#[derive(Clone, Copy, Debug, PartialEq, Eq)]
pub enum Mix {
    /// All four kinds, each as often.
    Mixed,
    /// Deletes only.
    Deletes,
    /// Inserts only.
    Inserts,
    /// Renames only.
    Renames,
}

impl Mix {
    /// All of them.
    pub const ALL: [Mix; 4] = [Mix::Mixed, Mix::Deletes, Mix::Inserts, Mix::Renames];

    /// Its name in tables and pictures.
    pub fn name(self) -> &'static str {
        match self {
            Mix::Mixed => "mixed",
            Mix::Deletes => "deletes",
            Mix::Inserts => "inserts",
            Mix::Renames => "renames",
        }
    }

    fn kinds(self) -> &'static [Kind] {
        match self {
            Mix::Mixed => &[Kind::Delete, Kind::Insert, Kind::Rename, Kind::Replace],
            Mix::Deletes => &[Kind::Delete],
            Mix::Inserts => &[Kind::Insert],
            Mix::Renames => &[Kind::Rename],
        }
    }

    /// A list of so many records at different rows of the table, for runs that start at `runs`.
    pub fn list(self, table: &Columns, runs: &[u32], records: usize, seed: u64) -> Vec<Record> {
        let random = &mut Random(seed);
        let rows = table.size.len();
        let small = small_rows(table, 4 * records);
        let mut taken = BTreeSet::new();
        let mut list = Vec::new();
        while list.len() < records {
            let kinds = self.kinds();
            let kind = kinds[random.below(kinds.len())];
            let row = match kind {
                Kind::Delete | Kind::Replace => small[random.below(small.len())],
                Kind::Insert | Kind::Rename => 1 + random.below(rows - 1),
            };
            if taken.insert(row) {
                list.push(record(random, table, runs, kind, row));
            }
        }
        list.sort_by_key(|record| record.location);
        list
    }
}

/// Subtrees of up to so many rows are removed, so that one delete does not take half the table.
const SMALL: u32 = 64;

/// The rows with small subtrees; if there are fewer than `least`, so many of those with the smallest.
fn small_rows(table: &Columns, least: usize) -> Vec<usize> {
    let mut sizes: Vec<u32> = table.size[1..].to_vec();
    sizes.sort_unstable();
    let most = sizes[least.min(sizes.len()) - 1].max(SMALL);
    (1..table.size.len()).filter(|&row| table.size[row] <= most).collect()
}

/// One record at a row.
fn record(random: &mut Random, table: &Columns, runs: &[u32], kind: Kind, row: usize) -> Record {
    let location = OldRow(row as u32);
    let from = runs[random.below(runs.len())];
    match kind {
        Kind::Delete => Record::delete(location),
        Kind::Rename => Record::rename(location, random.next() as u32),
        Kind::Replace => Record::replace(location, from),
        Kind::Insert => {
            // beside the row, or as the first child of the row before
            let parents = [row as u32 - table.dist[row], row as u32 - 1];
            Record::insert(location, OldRow(parents[random.below(2)]), from)
        }
    }
}

/// Insertions of so many runs of 1 to 8 rows, and where each starts.
pub fn insertions(runs: usize, seed: u64) -> (Columns, Vec<u32>) {
    let random = &mut Random(seed);
    let mut all = Columns::default();
    let mut starts = Vec::new();
    for _ in 0..runs {
        starts.push(all.size.len() as u32);
        let rows = 1 + random.below(8);
        // every row is a child of one of the two rows before, on the line of the last
        let mut parents = vec![0; rows];
        for row in 1..rows {
            let last = row - 1;
            parents[row] = if random.below(2) == 0 { last } else { parents[last] };
        }
        let run = from_parents(&parents);
        all.dist.extend(run.dist);
        all.size.extend(run.size);
        all.value.extend(run.value);
    }
    (all, starts)
}
