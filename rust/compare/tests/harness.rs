//! The harness itself, without the library: it finds nothing where there is nothing, it meets every
//! refusal, and it finds faults that are put into the answers of an implementation.

use compare::check::check;
use compare::full::full;
use compare::library::{Answer, Lent, Library, Origin, Record, Refresh, Refused, Steps, Table};
use compare::run::run;
use compare::second::Second;
use compare::small::small;
use compare::tally::Tally;

#[test]
fn it_meets_every_refusal_and_vain_records() {
    let mut tally = Tally::default();
    for number in 0..2_000 {
        check(&small(3, number), &Second, &Second, &mut tally).unwrap();
    }
    for number in 0..48 {
        check(&full(3, number), &Second, &Second, &mut tally).unwrap();
    }
    assert!(tally.refused[1..].iter().all(|&refused| refused > 0), "{tally}");
    assert!(tally.accepted > 0 && tally.lists > 0 && tally.vain > 0, "{tally}");
}

#[test]
fn a_run_is_the_same_every_time() {
    assert_eq!(small(5, 9), small(5, 9));
    assert_ne!(small(5, 9), small(6, 9));
    assert_eq!(full(5, 11), full(5, 11));
}

/// What is wrong with the answers of an implementation.
#[derive(Clone, Copy, Debug)]
enum Fault {
    CountOffByOne,
    PlaceOffByOne,
    SevenForEight,
    RowsBehindCleared,
    RefusalWrites,
    OnlyTheFirstRecord,
    GoneRowNumbered,
    RecordIndexOffByOne,
    MappingWithoutItsLastRow,
    ParentOffByOne,
    SubtreeCopied,
    WalkMovesOn,
    Panics,
}

/// The independent implementation with a fault in it.
struct Faulty(Fault);

impl Faulty {
    /// The refusal, with the fault.
    fn spoiled<T>(&self, answer: Answer<T>) -> Answer<T> {
        answer.map_err(|refused| match (self.0, refused.number) {
            (Fault::PlaceOffByOne, 4..=8) => Refused { place: refused.place + 1, ..refused },
            (Fault::SevenForEight, 8) => Refused { number: 7, ..refused },
            _ => refused,
        })
    }
}

impl Library for Faulty {
    fn soundness(&self, table: Table) -> Answer<u64> {
        Second.soundness(table)
    }

    fn parent(&self, table: Table, row: u32) -> Answer<Option<u64>> {
        let parent = Second.parent(table, row)?;
        Ok(match self.0 {
            Fault::ParentOffByOne => parent.map(|parent| parent.saturating_sub(1)),
            _ => parent,
        })
    }

    fn first_child(&self, table: Table, row: u32) -> Answer<Option<u64>> {
        Second.first_child(table, row)
    }

    fn next_sibling(&self, table: Table, row: u32) -> Answer<Option<u64>> {
        Second.next_sibling(table, row)
    }

    fn subtree<'a>(&self, table: Table<'a>, row: u32) -> Answer<(u64, &'a [u32])> {
        let (start, values) = Second.subtree(table, row)?;
        Ok(match self.0 {
            Fault::SubtreeCopied => (start, values.to_vec().leak()),
            _ => (start, values),
        })
    }

    fn children(&self, table: Table, row: u32) -> Answer<Steps> {
        let mut steps = Second.children(table, row)?;
        if let (Fault::WalkMovesOn, Some(Err(refused))) = (self.0, steps.last_mut()) {
            refused.place += 1;
        }
        Ok(steps)
    }

    fn bulk(&self, refresh: Refresh, new: Lent) -> Answer<u64> {
        let Lent { dist, size, value } = new;
        let lent = Lent { dist: &mut *dist, size: &mut *size, value: &mut *value };
        let answer = self.spoiled(Second.bulk(refresh, lent));
        match (self.0, answer) {
            (Fault::CountOffByOne, Ok(rows)) => return Ok(rows + 1),
            (Fault::RowsBehindCleared, Ok(rows)) => value[rows as usize..].fill(0),
            (Fault::RefusalWrites, Err(_)) if !size.is_empty() => size[0] = 0,
            (Fault::OnlyTheFirstRecord, Ok(_)) if refresh.records.len() > 1 => {
                let records = &refresh.records[..1];
                return Second.bulk(Refresh { records, ..refresh }, Lent { dist, size, value });
            }
            (Fault::Panics, Ok(_)) => panic!("a fault"),
            _ => (),
        }
        answer
    }

    fn single(&self, table: Table, record: Record, insertions: Table, new: Lent) -> Answer<u64> {
        self.spoiled(Second.single(table, record, insertions, new))
    }

    fn old_to_new(&self, refresh: Refresh, row: u32) -> Answer<Option<u32>> {
        let became = self.spoiled(Second.old_to_new(refresh, row))?;
        Ok(match self.0 {
            Fault::GoneRowNumbered => Some(became.unwrap_or(0)),
            _ => became,
        })
    }

    fn new_to_old(&self, refresh: Refresh, row: u32) -> Answer<Origin> {
        Ok(match (self.0, self.spoiled(Second.new_to_old(refresh, row))?) {
            (Fault::RecordIndexOffByOne, Origin::Run { record, row }) => {
                Origin::Run { record: record + 1, row }
            }
            (_, origin) => origin,
        })
    }

    fn map_old(&self, refresh: Refresh, new_rows: &mut [u32]) -> Answer<u64> {
        let rows = self.spoiled(Second.map_old(refresh, new_rows))?;
        if let Fault::MappingWithoutItsLastRow = self.0 {
            new_rows[rows as usize - 1] = 0;
        }
        Ok(rows)
    }

    fn map_new(&self, refresh: Refresh, records: &mut [u32], rows: &mut [u32]) -> Answer<u64> {
        self.spoiled(Second.map_new(refresh, records, rows))
    }
}

/// The fault is found, and the case made small.
fn is_found(fault: Fault) {
    let found = run(&Second, &Faulty(fault), 500, 1).expect_err("the fault is found");
    let rows = found.case.table.size.len();
    assert!(rows < 10, "{fault:?} shows in a case of {rows} rows only:\n{}", found.case);
}

#[test]
fn it_finds_faults() {
    use Fault::*;
    for fault in [CountOffByOne, PlaceOffByOne, SevenForEight, RowsBehindCleared, RefusalWrites] {
        is_found(fault);
    }
    for fault in [OnlyTheFirstRecord, GoneRowNumbered, RecordIndexOffByOne] {
        is_found(fault);
    }
    for fault in [MappingWithoutItsLastRow, ParentOffByOne, SubtreeCopied, WalkMovesOn, Panics] {
        is_found(fault);
    }
}
