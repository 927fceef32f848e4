//! Cases of full size: tens of thousands of rows, and the limits hit exactly.

use crate::case::{Case, Columns};
use crate::damage::damage;
use crate::library::Record;
use crate::lists::{list, open_places, outcome, runs, unused, Style};
use crate::lists::{DELETE, INSERT, RENAME, REPLACE};
use crate::random::Random;
use crate::small::rooms;
use crate::trees::{add_tree, shape, tree, Shape};

/// How many rows a table may have, and how many records a list.
const MOST_ROWS: usize = 65_535;
const MOST_RECORDS: usize = 1_024;

/// The case of full size of this number in the run of this seed.
pub fn full(seed: u64, number: u64) -> Case {
    let random = &mut Random::new(!seed, number);
    let mut case = match number % 16 {
        0 | 1 => large(random, "large table", Style::Mixed),
        2 => large(random, "large table, ties", Style::Ties),
        3 => large(random, "large table, ends", Style::Ends),
        4 => large(random, "large table, vain records", Style::Vain),
        5 | 6 => damaged(random),
        7 | 8 => at_the_row_limit(random),
        9 | 10 => outgrown(random),
        11 => far_too_many(random),
        12 => table_at_the_limit(random),
        13 => run_at_the_limit(random),
        14 => faults_in_a_long_list(random),
        _ if number % 128 == 15 => many_records(random),
        _ => records_at_the_limit(random),
    };
    rooms(random, &mut case);
    asked(random, &mut case);
    case
}

/// A table of so many rows, of some shape.
fn table(random: &mut Random, rows: usize) -> Columns {
    let shape = shape(random);
    tree(random, rows, shape)
}

/// A few trees of up to so many rows, one behind another.
fn insertions(random: &mut Random, most: usize) -> Columns {
    let mut columns = Columns::default();
    for _ in 0..random.between(1, 4) {
        let (rows, shape) = (random.between(1, most), shape(random));
        add_tree(random, &mut columns, rows, shape);
    }
    columns
}

/// Tops of the trees of some insertions.
fn tops(insertions: &Columns) -> Vec<u32> {
    let mut tops = Vec::new();
    let mut row = 0;
    while row < insertions.size.len() {
        tops.push(row as u32);
        row += insertions.size[row] as usize;
    }
    tops
}

fn large(random: &mut Random, about: &'static str, style: Style) -> Case {
    let rows = random.between(20_000, 65_000);
    let table = table(random, rows);
    let insertions = insertions(random, 100);
    let runs = runs(insertions.table());
    let records = list(random, table.table(), &runs, style, 8);
    Case::of(about, table, records, insertions)
}

fn damaged(random: &mut Random) -> Case {
    let mut case = large(random, "large table, damaged", Style::Mixed);
    damage(random, &mut case);
    case
}

/// An insert at any location, under any row that it is an open place of.
fn insert(random: &mut Random, table: &Columns, from: u32) -> Record {
    let location = random.between(1, table.size.len());
    let parent = random.pick(&open_places(table.table(), location));
    Record { parent, from, ..unused(random, INSERT, location) }
}

/// One run that brings the table to the most rows, or one row past it.
fn at_the_row_limit(random: &mut Random) -> Case {
    let rows = random.between(30_000, 65_500);
    let table = table(random, rows);
    let missing = MOST_ROWS - rows + random.below(2);
    let shape = shape(random);
    let insertions = tree(random, missing, shape);
    let records = vec![insert(random, &table, 0)];
    Case::of("the result at the row limit", table, records, insertions)
}

/// More rows in between than a table may have, but not in the end: what is inserted under a row goes
/// with it.
fn outgrown(random: &mut Random) -> Case {
    let rows = random.between(50_000, 65_000);
    let shape = Shape::Climb(random.pick(&[20, 50, 60]));
    let table = tree(random, rows, shape);
    let insertions = insertions(random, 20_000);
    let tops = tops(&insertions);
    let tries: Vec<usize> = (0..20).map(|_| random.between(1, rows - 1)).collect();
    let removed = tries.into_iter().max_by_key(|&row| table.size[row]).unwrap_or(1);
    let end = removed + table.size[removed] as usize;
    let kind = random.pick(&[DELETE, REPLACE]);
    let mut records = vec![Record { from: 0, ..unused(random, kind, removed) }];
    let mut locations: Vec<usize> = (0..6).map(|_| random.between(removed + 1, end)).collect();
    locations.sort_unstable();
    for location in locations {
        // every location is an open place of the row before it, and that row goes
        let (parent, from) = (location as u32 - 1, random.pick(&tops));
        records.push(Record { parent, from, ..unused(random, INSERT, location) });
    }
    Case::of("more rows in between", table, records, insertions)
}

/// A small table and large runs, many times over.
fn far_too_many(random: &mut Random) -> Case {
    let rows = random.between(1, 20);
    let table = table(random, rows);
    let insertions = insertions(random, 40_000);
    let tops = tops(&insertions);
    let mut records: Vec<Record> = (0..random.between(1, 12))
        .map(|_| {
            let from = random.pick(&tops);
            insert(random, &table, from)
        })
        .collect();
    records.sort_by_key(|record| (record.location, u32::MAX - record.parent));
    Case::of("large runs in a small table", table, records, insertions)
}

/// A table of just the most rows, or one more, with nothing or a rename or a small insert.
fn table_at_the_limit(random: &mut Random) -> Case {
    let rows = MOST_ROWS + random.below(2);
    let table = table(random, rows);
    let insertions = tree(random, 1, Shape::Path);
    let location = random.below(MOST_ROWS);
    let records = match random.below(3) {
        0 => Vec::new(),
        1 => vec![unused(random, RENAME, location)],
        _ => vec![insert(random, &table, 0)],
    };
    Case::of("the table at the row limit", table, records, insertions)
}

/// A run of just the most rows, or one more or less, that takes the place of the table's only leaf.
fn run_at_the_limit(random: &mut Random) -> Case {
    let table = tree(random, 2, Shape::Path);
    let rows = MOST_ROWS + 1 - random.below(3);
    let insertions = self::table(random, rows);
    let record = Record { from: 0, ..unused(random, REPLACE, 1) };
    Case::of("a run at the row limit", table, vec![record], insertions)
}

/// A list of just the most records, or one more.
fn records_at_the_limit(random: &mut Random) -> Case {
    let rows = random.between(2, 3_000);
    let table = table(random, rows);
    let insertions = insertions(random, 3);
    let many = MOST_RECORDS + random.below(2);
    let records = exactly(random, &table, &insertions, many);
    Case::of("a list at the record limit", table, records, insertions)
}

/// A list at the record limit with other faults, so that the order of the tests shows.
fn faults_in_a_long_list(random: &mut Random) -> Case {
    let mut case = records_at_the_limit(random);
    case.about = "a list at the record limit, damaged";
    for _ in 0..random.between(1, 6) {
        damage(random, &mut case);
    }
    case
}

/// A list of the most records over a table of some 60,000 rows.
fn many_records(random: &mut Random) -> Case {
    let rows = random.between(58_000, 60_000);
    let table = table(random, rows);
    let insertions = insertions(random, 4);
    let records = exactly(random, &table, &insertions, MOST_RECORDS);
    Case::of("a full list over a large table", table, records, insertions)
}

/// An accepted list of so many records, if it is not longer than a list may be.
fn exactly(random: &mut Random, table: &Columns, insertions: &Columns, many: usize) -> Vec<Record> {
    let style = random.pick(&[Style::Mixed, Style::Ties, Style::Vain]);
    let runs = runs(insertions.table());
    let mut records = list(random, table.table(), &runs, style, 2 * many);
    records.truncate(many);
    // the last location takes any number of inserts under the root, behind all others
    let kept = |record: &Record| (record.location as usize) < table.size.len();
    records.retain(kept);
    while records.len() < many {
        let from = random.pick(&runs);
        let record = unused(random, INSERT, table.size.len());
        records.push(Record { parent: 0, from, ..record });
    }
    records
}

/// Some rows for the axes; now and then one for the mappings, and a record singly.
fn asked(random: &mut Random, case: &mut Case) {
    let rows = case.table.size.len().max(1);
    let (_, new_rows) = outcome(case.table.table(), &case.records, case.insertions.table());
    case.rows = vec![0, 1, rows as u32 - 1, rows as u32, u32::MAX];
    case.rows.extend((0..6).map(|_| random.below(rows) as u32));
    if random.percent(25) {
        case.mapped.push(random.below(rows.min(new_rows) + 1) as u32);
    }
    if let (true, Some(&record)) = (random.percent(25), case.records.first()) {
        case.singles.push(record);
    }
}
