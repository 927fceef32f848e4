//! Version one's way: each record singly on the columns, the last first, and after each the distances
//! of all later siblings and the sizes of all ancestors put right.

use plan::{Kind, Lent, Record, Table};

use crate::judge::judge;

/// Applies a list; gives the rows of the result. The lent columns have room for the rows in between.
pub fn singly(table: &Table, records: &[Record], insertions: &Table, new: Lent) -> Option<usize> {
    judge(table, records, insertions, new.size.len())?;
    let rows = table.size().len();
    new.dist[..rows].copy_from_slice(table.dist());
    new.size[..rows].copy_from_slice(table.size());
    new.value[..rows].copy_from_slice(table.value());
    let mut work = Work { new, rows };
    for record in records.iter().rev() {
        let location = record.location.0 as usize;
        match Kind::of(record.kind)? {
            Kind::Delete => {
                work.exchange(location, work.parent(location), work.end(location), None)
            }
            Kind::Insert => {
                let run = run(insertions, record);
                work.exchange(location, record.parent.0 as usize, location, Some(run));
            }
            Kind::Rename => work.new.value[location] = record.value,
            Kind::Replace => {
                let run = run(insertions, record);
                work.exchange(location, work.parent(location), work.end(location), Some(run));
            }
        }
    }
    Some(work.rows)
}

/// The rows of a record's run.
fn run<'a>(insertions: &Table<'a>, record: &Record) -> Table<'a> {
    let start = record.from as usize;
    let run = start..start + insertions.size()[start] as usize;
    Table::new(
        &insertions.dist()[run.clone()],
        &insertions.size()[run.clone()],
        &insertions.value()[run],
    )
}

/// The columns as they are between two records.
struct Work<'a> {
    new: Lent<'a>,
    rows: usize,
}

impl Work<'_> {
    fn parent(&self, row: usize) -> usize {
        row - self.new.dist[row] as usize
    }

    fn end(&self, row: usize) -> usize {
        row + self.new.size[row] as usize
    }

    /// The rows from `start` up to `end`, under `parent`, go, and a run takes their place.
    fn exchange(&mut self, start: usize, parent: usize, end: usize, run: Option<Table>) {
        let come = run.map_or(0, |run| run.size().len());
        let shift = (come as u32).wrapping_sub((end - start) as u32);
        self.mend(parent, end, shift);
        for column in [&mut *self.new.dist, &mut *self.new.size, &mut *self.new.value] {
            column.copy_within(end..self.rows, start + come);
        }
        self.rows = self.rows - (end - start) + come;
        if let Some(run) = run {
            self.new.dist[start..start + come].copy_from_slice(run.dist());
            self.new.size[start..start + come].copy_from_slice(run.size());
            self.new.value[start..start + come].copy_from_slice(run.value());
            self.new.dist[start] = (start - parent) as u32;
        }
    }

    /// What follows `next`, a child of `row` or its end, will move by `shift`: the distances of later
    /// siblings of it and of its ancestors, and the ancestors' sizes, are put right.
    fn mend(&mut self, mut row: usize, mut next: usize, shift: u32) {
        let Lent { dist, size, .. } = &mut self.new;
        loop {
            let end = row + size[row] as usize;
            while next < end {
                dist[next] = dist[next].wrapping_add(shift);
                next += size[next] as usize;
            }
            size[row] = size[row].wrapping_add(shift);
            if row == 0 {
                return;
            }
            row -= dist[row] as usize;
        }
    }
}
