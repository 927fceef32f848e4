//! Random lists that are accepted, and what a list removes and brings.

use crate::library::{Record, Table};
use crate::random::Random;

pub const DELETE: u32 = 1;
pub const INSERT: u32 = 2;
pub const RENAME: u32 = 3;
pub const REPLACE: u32 = 4;

/// What a list is after.
#[derive(Clone, Copy, Debug)]
pub enum Style {
    /// Some records anywhere.
    Mixed,
    /// Many inserts at few locations.
    Ties,
    /// Inserts where several levels end.
    Ends,
    /// Records made vain by a delete or replace before them.
    Vain,
}

/// A list for a sound table, of records at up to `stops` locations, or a few more. `runs` are the rows
/// of the insertions at which a run starts.
pub fn list(
    random: &mut Random,
    table: Table,
    runs: &[u32],
    style: Style,
    stops: usize,
) -> Vec<Record> {
    let rows = table.size.len();
    let removed = if matches!(style, Style::Vain) { large_row(random, table) } else { 0 };
    let mut locations: Vec<usize> = Vec::new();
    for _ in 0..random.between(usize::from(removed > 0), stops) {
        locations.push(match style {
            Style::Mixed | Style::Ties => random.between(0, rows),
            Style::Ends => end(table, random.below(rows)),
            Style::Vain if removed > 0 && random.percent(70) => {
                random.between(removed, end(table, removed))
            }
            Style::Vain => random.between(0, rows),
        });
    }
    if removed > 0 {
        locations.push(removed);
    }
    locations.sort_unstable();
    locations.dedup();

    let mut records = Vec::new();
    for location in locations {
        inserts(random, table, runs, style, location, &mut records);
        let forced = removed > 0 && location == removed;
        if location < rows && (forced || random.percent(60)) {
            records.push(act(random, runs, location, forced));
        }
    }
    records
}

/// The row number after the last row of a subtree.
fn end(table: Table, row: usize) -> usize {
    row + table.size[row] as usize
}

/// A row other than the root, rather with a large subtree; 0 if there is none.
fn large_row(random: &mut Random, table: Table) -> usize {
    let rows = table.size.len();
    let tries = (0..3).map(|_| if rows > 1 { random.between(1, rows - 1) } else { 0 });
    tries.max_by_key(|&row| table.size[row]).unwrap_or(0)
}

/// The rows of which a location is an open place, the deepest first.
pub fn open_places(table: Table, location: usize) -> Vec<u32> {
    let Some(mut row) = location.checked_sub(1) else {
        return Vec::new();
    };
    let mut open = vec![row as u32];
    while row > 0 && end(table, row) == location {
        row -= table.dist[row] as usize;
        open.push(row as u32);
    }
    open
}

/// Inserts at a location, the deeper parents first.
fn inserts(
    random: &mut Random,
    table: Table,
    runs: &[u32],
    style: Style,
    location: usize,
    records: &mut Vec<Record>,
) {
    let open = open_places(table, location);
    if open.is_empty() || runs.is_empty() {
        return;
    }
    let many = match style {
        Style::Mixed => random.below(2),
        Style::Ties => random.between(1, 6),
        Style::Ends => random.between(0, open.len().min(4) + 1),
        Style::Vain => random.below(3),
    };
    let mut levels: Vec<usize> = (0..many).map(|_| random.below(open.len())).collect();
    levels.sort_unstable();
    for level in levels {
        let from = random.pick(runs);
        records.push(Record { parent: open[level], from, ..unused(random, INSERT, location) });
    }
}

/// A delete, rename or replace; a forced one takes rows away.
fn act(random: &mut Random, runs: &[u32], location: usize, forced: bool) -> Record {
    let mut kinds = vec![RENAME];
    if location > 0 {
        kinds.push(DELETE);
        if !runs.is_empty() {
            kinds.push(REPLACE);
        }
    }
    let kind = if forced { random.pick(&kinds[1..]) } else { random.pick(&kinds) };
    let mut record = unused(random, kind, location);
    if kind == REPLACE {
        record.from = random.pick(runs);
    }
    record
}

/// A record with any numbers in what its kind doesn't use.
pub fn unused(random: &mut Random, kind: u32, location: usize) -> Record {
    let mut any = || random.next() as u32;
    Record { kind, location: location as u32, parent: any(), from: any(), value: any() }
}

/// The rows of the insertions at which a run may start: those at distance 1 that end in time.
pub fn runs(insertions: Table) -> Vec<u32> {
    let rows = insertions.size.len();
    let starts = |&row: &usize| insertions.dist[row] == 1 && end(insertions, row) <= rows;
    (0..rows).filter(starts).map(|row| row as u32).collect()
}

/// How many records of a list are vain, and how many rows its result has. Of a list or table with
/// faults it is only some number.
pub fn outcome(table: Table, records: &[Record], insertions: Table) -> (usize, usize) {
    let at = |column: &[u32], row: u32| column.get(row as usize).map_or(0, |&size| size as usize);
    let (mut low, mut high) = (0, 0);
    let (mut vain, mut come, mut gone) = (0, 0, 0);
    for record in records {
        let (location, parent) = (record.location as usize, record.parent as usize);
        let lost = match record.kind {
            INSERT => low <= parent && parent < high,
            _ => low < location && location < high,
        };
        if lost {
            vain += 1;
            continue;
        }
        if matches!(record.kind, DELETE | REPLACE) {
            (low, high) = (location, location + at(table.size, record.location));
            gone += high - low;
        }
        if matches!(record.kind, INSERT | REPLACE) {
            come += at(insertions.size, record.from);
        }
    }
    (vain, (table.size.len() + come).saturating_sub(gone))
}
