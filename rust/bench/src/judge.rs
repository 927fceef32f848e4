//! The published tests 1 to 10 in safe Rust, in the fastest form known, for the ways other than the
//! library's: it makes the same tests itself.

use plan::{Kind, Record, Table, MOST_RECORDS, MOST_ROWS};

/// A list that has passed: its records without the vain ones, and the rows of the result.
#[derive(Debug)]
pub struct Judged {
    pub kept: Vec<Record>,
    pub rows: usize,
}

/// Tests 1 to 10; none where one fails.
pub fn judge(table: &Table, records: &[Record], insertions: &Table, room: usize) -> Option<Judged> {
    if !even(table) || !even(insertions) || !sound(table.dist(), table.size()) {
        return None;
    }
    if records.len() > MOST_RECORDS {
        return None;
    }
    let mut before = None;
    for record in records {
        if !passes(table, insertions, before, record) {
            return None;
        }
        before = Some(record);
    }
    let judged = kept(table, records, insertions);
    (judged.rows <= MOST_ROWS && judged.rows <= room).then_some(judged)
}

fn even(table: &Table) -> bool {
    table.dist().len() == table.size().len() && table.size().len() == table.value().len()
}

/// The sum test: every row has a parent before it within whose rows it ends, and the sum of dist times
/// size is n (n + 1) / 2. These hold together exactly for sound tables.
fn sound(dist: &[u32], size: &[u32]) -> bool {
    let rows = size.len();
    if rows == 0 || rows > MOST_ROWS || dist[0] != 1 || size[0] as usize != rows {
        return false;
    }
    let dist = &dist[..rows];
    let mut sum = rows as u64;
    // a 32-bit counter, and the rare fault last: measured to be the fastest form
    for row in 1..rows as u32 {
        let (far, own) = (dist[row as usize], size[row as usize]);
        let parent = row.wrapping_sub(far);
        if parent >= row {
            return false;
        }
        let room = u64::from(size[parent as usize]);
        if u64::from(far) + u64::from(own) > room || own == 0 {
            return false;
        }
        sum += u64::from(far) * u64::from(own);
    }
    sum == (rows * (rows + 1) / 2) as u64
}

/// Tests 4 to 8 of one record.
fn passes(table: &Table, insertions: &Table, before: Option<&Record>, record: &Record) -> bool {
    let Some(kind) = Kind::of(record.kind) else {
        return false;
    };
    let rows = table.size().len();
    let (location, parent) = (record.location.0 as usize, record.parent.0 as usize);
    let placed = match kind {
        Kind::Insert => parent < rows && open_place(table, location, parent),
        Kind::Rename => location < rows,
        Kind::Delete | Kind::Replace => location > 0 && location < rows,
    };
    let runs = match kind {
        Kind::Insert | Kind::Replace => has_run(insertions, record.from as usize),
        Kind::Delete | Kind::Rename => true,
    };
    placed && runs && before.is_none_or(|before| follows(before, record))
}

/// In constant time: q ends at p, or row p is a child of q.
fn open_place(table: &Table, p: usize, q: usize) -> bool {
    p == q + table.size()[q] as usize
        || (p > 0 && p < table.size().len() && p - table.dist()[p] as usize == q)
}

fn has_run(insertions: &Table, from: usize) -> bool {
    let Some(&size) = insertions.size().get(from) else {
        return false;
    };
    let run = from..from + size as usize;
    run.end <= insertions.size().len()
        && sound(&insertions.dist()[run.clone()], &insertions.size()[run])
}

/// Tests 7 and 8.
fn follows(before: &Record, record: &Record) -> bool {
    let insert = Kind::Insert as u32;
    record.location > before.location
        || record.location == before.location
            && before.kind == insert
            && (record.kind != insert || record.parent <= before.parent)
}

/// The records that no delete or replace before them makes vain, and the rows of the result.
fn kept(table: &Table, records: &[Record], insertions: &Table) -> Judged {
    let (mut low, mut high) = (0, 0);
    let mut kept = Vec::with_capacity(records.len());
    let mut rows = table.size().len();
    for record in records {
        let insert = record.kind == Kind::Insert as u32;
        let location = record.location.0;
        let vain = if insert {
            low <= record.parent.0 && record.parent.0 < high
        } else {
            low < location && location < high
        };
        if vain {
            continue;
        }
        let removes = record.kind == Kind::Delete as u32 || record.kind == Kind::Replace as u32;
        if removes {
            let gone = table.size()[location as usize];
            (low, high) = (location, location + gone);
            rows -= gone as usize;
        }
        if insert || record.kind == Kind::Replace as u32 {
            rows += insertions.size()[record.from as usize] as usize;
        }
        kept.push(*record);
    }
    Judged { kept, rows }
}
