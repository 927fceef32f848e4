//! One case: what is handed to every call.

use std::fmt;

use crate::library::{Lent, Record, Refresh, Table};

/// Three columns of their own.
#[derive(Clone, Debug, Default, PartialEq, Eq)]
pub struct Columns {
    /// The distances.
    pub dist: Vec<u32>,
    /// The sizes.
    pub size: Vec<u32>,
    /// The values.
    pub value: Vec<u32>,
}

impl Columns {
    /// Lent columns of these lengths, with a pattern in them.
    pub fn patterned(lengths: [usize; 3]) -> Columns {
        let [dist, size, value] = lengths;
        Columns { dist: pattern(dist, 1), size: pattern(size, 2), value: pattern(value, 3) }
    }

    /// As a table.
    pub fn table(&self) -> Table<'_> {
        Table { dist: &self.dist, size: &self.size, value: &self.value }
    }

    /// As lent columns.
    pub fn lend(&mut self) -> Lent<'_> {
        Lent { dist: &mut self.dist, size: &mut self.size, value: &mut self.value }
    }

    /// The longest column's length.
    pub fn longest(&self) -> usize {
        self.dist.len().max(self.size.len()).max(self.value.len())
    }
}

/// What a lent column holds before a call: in every row another number, which no table has.
pub fn pattern(length: usize, column: u32) -> Vec<u32> {
    (0..length as u32).map(|row| 0x8000_0000 + 4 * row + column).collect()
}

/// One case.
#[derive(Clone, Debug, PartialEq, Eq)]
pub struct Case {
    /// What it is after.
    pub about: &'static str,
    /// The table.
    pub table: Columns,
    /// The list.
    pub records: Vec<Record>,
    /// The insertions.
    pub insertions: Columns,
    /// The lengths of the lent new columns.
    pub room: [usize; 3],
    /// The length of the column lent for the new numbers of the old rows.
    pub room_old: usize,
    /// The lengths of the columns lent for the origins of the new rows.
    pub room_new: [usize; 2],
    /// The rows that the axes are asked about.
    pub rows: Vec<u32>,
    /// The rows that the mappings are asked about.
    pub mapped: Vec<u32>,
    /// The records that are also tried singly.
    pub singles: Vec<Record>,
}

impl Case {
    /// A case of these, which asks nothing yet.
    pub fn of(
        about: &'static str,
        table: Columns,
        records: Vec<Record>,
        insertions: Columns,
    ) -> Case {
        Case {
            about,
            table,
            records,
            insertions,
            room: [0; 3],
            room_old: 0,
            room_new: [0; 2],
            rows: Vec::new(),
            mapped: Vec::new(),
            singles: Vec::new(),
        }
    }

    /// The table, the list and the insertions.
    pub fn refresh(&self) -> Refresh<'_> {
        Refresh {
            table: self.table.table(),
            records: &self.records,
            insertions: self.insertions.table(),
        }
    }
}

/// So many rows or records are printed of a case.
const PRINTED: usize = 40;

impl fmt::Display for Case {
    fn fmt(&self, f: &mut fmt::Formatter<'_>) -> fmt::Result {
        writeln!(f, "about: {}", self.about)?;
        columns(f, "table", &self.table)?;
        columns(f, "insertions", &self.insertions)?;
        writeln!(f, "list of {} records", self.records.len())?;
        for (index, record) in self.records.iter().enumerate().take(PRINTED) {
            writeln!(f, "  {index}: {}", words(record))?;
        }
        more(f, self.records.len())?;
        for record in &self.singles {
            writeln!(f, "singly: {}", words(record))?;
        }
        writeln!(f, "new columns of {:?} rows", self.room)?;
        writeln!(f, "columns for the mappings of {} and {:?} rows", self.room_old, self.room_new)?;
        writeln!(f, "axes asked about rows {:?}", self.rows)?;
        writeln!(f, "mappings asked about rows {:?}", self.mapped)
    }
}

fn columns(f: &mut fmt::Formatter<'_>, name: &str, columns: &Columns) -> fmt::Result {
    let Columns { dist, size, value } = columns;
    writeln!(
        f,
        "{name} of {}, {}, {} rows: dist, size, value",
        dist.len(),
        size.len(),
        value.len()
    )?;
    let number = |column: &[u32], row: usize| column.get(row).map_or("-".into(), u32::to_string);
    for row in 0..columns.longest().min(PRINTED) {
        let numbers = [number(dist, row), number(size, row), number(value, row)];
        writeln!(f, "  {row}: {}", numbers.join(", "))?;
    }
    more(f, columns.longest())
}

fn more(f: &mut fmt::Formatter<'_>, all: usize) -> fmt::Result {
    if all > PRINTED {
        writeln!(f, "  and {} more", all - PRINTED)?;
    }
    Ok(())
}

/// A record in words.
fn words(record: &Record) -> String {
    let Record { kind, location, parent, from, value } = record;
    match kind {
        1 => format!("delete {location}"),
        2 => format!("insert {location} parent {parent} from {from}"),
        3 => format!("rename {location} to {value}"),
        4 => format!("replace {location} from {from}"),
        _ => format!("kind {kind}, location {location}, parent {parent}, from {from}"),
    }
}
