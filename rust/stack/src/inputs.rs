//! The largest inputs: tables and results of 65,535 rows, lists of 1,024 records.

use bench::mix::{insertions, Mix};
use bench::shape::Shape;
use plan::{refresh, Columns, OldRow, Record, MOST_RECORDS, MOST_ROWS};

/// The shapes of the tables, and of the runs that fill them.
pub const SHAPES: [Shape; 3] = [Shape::Flat, Shape::Path, Shape::Comb];

/// A table, a list and what it inserts.
#[derive(Debug)]
pub struct Input {
    /// What a tree looks like here.
    pub shape: Shape,
    /// The table.
    pub table: Columns,
    /// The list.
    pub records: Vec<Record>,
    /// What the list inserts.
    pub insertions: Columns,
    /// The number that every call on the list answers.
    pub number: u32,
    /// Records that are applied singly, and accepted.
    pub singles: Vec<Record>,
    /// Rows that are asked about: in the old table and in the new one.
    pub rows: [u32; 4],
}

/// All of them.
pub fn inputs() -> Vec<Input> {
    let mut all = Vec::new();
    for shape in SHAPES {
        // tables that leave room for runs, and tables that leave none
        all.push(input(shape, Mix::Mixed, 50_000));
        all.push(input(shape, Mix::Inserts, 50_000));
        all.push(input(shape, Mix::Deletes, MOST_ROWS));
        all.push(input(shape, Mix::Renames, MOST_ROWS));
        all.push(refused(input(shape, Mix::Mixed, 50_000)));
    }
    all
}

/// A list of the most records. Where it leaves room, its last one inserts a run that fills the new
/// table up to the most rows.
fn input(shape: Shape, mix: Mix, rows: usize) -> Input {
    let table = shape.table(rows, 0);
    let (mut insertions, runs) = insertions(MOST_RECORDS, 1);
    let mut records = mix.list(&table, &runs, MOST_RECORDS, 2);
    let mut singles = records[..8].to_vec();
    let fill = |insertions: &mut Columns, rows: usize| {
        let from = insertions.size.len() as u32;
        let run = shape.table(rows, 0);
        insertions.dist.extend(run.dist);
        insertions.size.extend(run.size);
        insertions.value.extend(run.value);
        Record::insert(OldRow(table.size.len() as u32), OldRow(0), from)
    };
    if rows < MOST_ROWS {
        singles.push(fill(&mut insertions, MOST_ROWS - rows));
    }
    let last = records.pop();
    let new = refresh(&table.table(), &records, &insertions.table()).expect("the list is accepted");
    match MOST_ROWS - new.size.len() {
        0 => records.extend(last),
        room => records.push(fill(&mut insertions, room)),
    }
    let end = rows as u32 - 1;
    Input { shape, table, records, insertions, number: 0, singles, rows: [0, 1, end / 2, end] }
}

/// The same with a list that is refused (4) at its last record.
fn refused(mut input: Input) -> Input {
    input.records[MOST_RECORDS - 1].kind = 5;
    input.number = 4;
    input
}
