//! The library's other calls, and the bulk call where it refuses.

use plan::{map_new_into, map_old_into, new_to_old, old_to_new, refresh_into};
use plan::{Lent, NewRow, OldRow, Origin, Record, Refusal, GONE};

use crate::way::{copy, Job, Way, LISTS};

/// What is measured.
#[derive(Clone, Copy, Debug, PartialEq, Eq)]
pub enum Call {
    /// No call, but a plain copy of the three columns.
    Copy,
    /// The soundness call.
    Soundness,
    /// The bulk call, refused at the first record: its kind is none.
    FirstRecord,
    /// The bulk call, refused by test 10: tests 1 to 9 are made, nothing is written.
    WholeList,
    /// One old row asked about.
    OldToNew,
    /// One new row asked about.
    NewToOld,
    /// All old rows.
    MapOld,
    /// All new rows.
    MapNew,
}

impl Call {
    /// All of them.
    pub const ALL: [Call; 8] = [
        Call::Copy,
        Call::Soundness,
        Call::FirstRecord,
        Call::WholeList,
        Call::OldToNew,
        Call::NewToOld,
        Call::MapOld,
        Call::MapNew,
    ];

    /// Its name in the table.
    pub fn name(self) -> &'static str {
        match self {
            Call::Copy => "copy",
            Call::Soundness => "soundness",
            Call::FirstRecord => "bulk call, refused at its first record",
            Call::WholeList => "bulk call, refused behind all tests",
            Call::OldToNew => "old to new, one row",
            Call::NewToOld => "new to old, one row",
            Call::MapOld => "old to new, all rows",
            Call::MapNew => "new to old, all rows",
        }
    }
}

/// What each list of a job needs for the calls.
#[derive(Debug)]
struct Asked {
    /// The list with a first record of no kind.
    broken: Vec<Record>,
    /// The rows of the result.
    rows: usize,
    /// The row that is asked about, of both tables.
    row: u32,
}

/// A job, and what its lists need for the calls.
#[derive(Debug)]
pub struct Calls {
    job: Job,
    asked: Vec<Asked>,
}

impl Calls {
    /// The rows that are asked about lie evenly over the table, one to a list.
    pub fn new(mut job: Job) -> Calls {
        let asked = (0..LISTS).map(|list| {
            let mut broken = job.lists[list].clone();
            broken[0].kind = 0;
            let rows = job.run(Way::Bulk, list).expect("the list is accepted");
            let row = (list + 1) * rows.min(job.table.size.len()) / (LISTS + 1);
            Asked { broken, rows, row: row as u32 }
        });
        let asked = asked.collect();
        Calls { job, asked }
    }

    /// Makes one call for one list: the rows that it counts, or the row that it names.
    pub fn ask(&mut self, call: Call, list: usize) -> Result<usize, Refusal> {
        let Job { table, lists, insertions, new, .. } = &mut self.job;
        let (table, records, insertions) = (&table.table(), &lists[list], &insertions.table());
        let Asked { broken, rows, row } = &self.asked[list];
        match call {
            Call::Copy => Ok(copy(table, new.lend())),
            Call::Soundness => table.soundness(),
            Call::FirstRecord => refresh_into(table, broken, insertions, new.lend()),
            Call::WholeList => {
                let Lent { dist, size, value } = new.lend();
                let room = rows - 1;
                let (dist, size, value) =
                    (&mut dist[..room], &mut size[..room], &mut value[..room]);
                refresh_into(table, records, insertions, Lent { dist, size, value })
            }
            Call::OldToNew => {
                let became = old_to_new(table, records, insertions, OldRow(*row))?;
                Ok(became.map_or(GONE, |NewRow(row)| row) as usize)
            }
            Call::NewToOld => match new_to_old(table, records, insertions, NewRow(*row))? {
                Origin::Old(OldRow(row)) | Origin::Run { row, .. } => Ok(row as usize),
            },
            Call::MapOld => map_old_into(table, records, insertions, &mut new.dist),
            Call::MapNew => map_new_into(table, records, insertions, &mut new.dist, &mut new.size),
        }
    }

    /// Every call answers as it should; for one row and for all rows the mappings agree.
    pub fn agree(&mut self) {
        let old = self.job.table.size.len();
        for list in 0..LISTS {
            let Asked { rows, row, .. } = self.asked[list];
            assert_eq!(self.ask(Call::Soundness, list), Ok(old));
            assert_eq!(self.ask(Call::FirstRecord, list), Err(Refusal::Kind { record: 0 }));
            let refusal = Refusal::NoRoom { rows: rows as u64 };
            assert_eq!(self.ask(Call::WholeList, list), Err(refusal));
            assert_eq!(self.ask(Call::MapOld, list), Ok(old));
            let became = self.job.new.dist[row as usize] as usize;
            assert_eq!(self.ask(Call::OldToNew, list), Ok(became));
            assert_eq!(self.ask(Call::MapNew, list), Ok(rows));
            let was = self.job.new.size[row as usize] as usize;
            assert_eq!(self.ask(Call::NewToOld, list), Ok(was));
        }
    }
}
