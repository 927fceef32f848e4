//! The plan library, through its Rust wrapper, as one of the two that are compared. Where the wrapper
//! has a call in two forms, lent and owned, both are made and have to agree.

use plan::{Columns, Kind, NewRow, OldRow, Refusal};

use crate::library::{
    enough, steps, Answer, Lent, Library, Origin, Record, Refresh, Refused, Steps, Table,
};

/// The plan library.
#[derive(Debug)]
pub struct Ours;

fn table(table: Table<'_>) -> plan::Table<'_> {
    plan::Table::new(table.dist, table.size, table.value)
}

fn record(record: Record) -> plan::Record {
    plan::Record {
        kind: record.kind,
        location: OldRow(record.location),
        parent: OldRow(record.parent),
        from: record.from,
        value: record.value,
    }
}

fn records(list: &[Record]) -> Vec<plan::Record> {
    list.iter().copied().map(record).collect()
}

/// The three numbers of a refusal.
fn refused(refusal: Refusal) -> Refused {
    let place = refusal.record().or(refusal.row()).unwrap_or(0);
    Refused {
        number: refusal.number(),
        place: place as u64,
        count: refusal.rows_needed().unwrap_or(0),
    }
}

fn origin(origin: plan::Origin) -> Origin {
    match origin {
        plan::Origin::Old(row) => Origin::Old(row.0),
        plan::Origin::Run { record, row } => Origin::Run { record: record as u32, row },
    }
}

/// The kind that a refusal with 5 names is the record's.
fn names_the_kind<T>(answer: &Result<T, Refusal>, records: &[plan::Record]) {
    if let Err(Refusal::Location { record, kind }) = answer {
        assert_eq!(Kind::of(records[*record].kind), Some(*kind), "the kind that a refusal names");
    }
}

/// What an owned call gives, held against the lent one: the same refusal, or the same rows; where
/// only the lent columns were too short, as many rows as they need.
fn agree(answer: &Result<usize, Refusal>, owned: Result<usize, Refusal>, call: &str) {
    match answer {
        Err(Refusal::NoRoom { rows }) => assert_eq!(owned, Ok(*rows as usize), "{call}, owned"),
        _ => assert_eq!(owned, *answer, "{call}, owned"),
    }
}

fn lent_evenly(new: &Lent) -> bool {
    new.dist.len() == new.size.len() && new.size.len() == new.value.len()
}

/// The lent columns hold the owned ones where the lent call was accepted.
fn holds(new: &Lent, rows: usize, owned: &Columns) {
    assert_eq!(new.dist[..rows], owned.dist, "dist, owned");
    assert_eq!(new.size[..rows], owned.size, "size, owned");
    assert_eq!(new.value[..rows], owned.value, "value, owned");
}

/// Makes the lent call and the owned call, which have to agree; gives the lent call's answer.
fn both(
    new: Lent,
    lent: impl FnOnce(plan::Lent) -> Result<usize, Refusal>,
    owned: impl FnOnce() -> Result<Columns, Refusal>,
    call: &str,
) -> Result<usize, Refusal> {
    let answer = lent(plan::Lent { dist: new.dist, size: new.size, value: new.value });
    if lent_evenly(&new) {
        let owned = owned();
        agree(&answer, owned.as_ref().map(|new| new.size.len()).map_err(|&refusal| refusal), call);
        if let (Ok(rows), Ok(owned)) = (answer, owned) {
            holds(&new, rows, &owned);
        }
    }
    answer
}

fn found(answer: Result<Option<usize>, Refusal>) -> Answer<Option<u64>> {
    answer.map(|row| row.map(|row| row as u64)).map_err(refused)
}

fn counted(answer: Result<usize, Refusal>) -> Answer<u64> {
    answer.map(|rows| rows as u64).map_err(refused)
}

impl Library for Ours {
    fn soundness(&self, of: Table) -> Answer<u64> {
        counted(table(of).soundness())
    }

    fn parent(&self, of: Table, row: u32) -> Answer<Option<u64>> {
        found(table(of).parent(row))
    }

    fn first_child(&self, of: Table, row: u32) -> Answer<Option<u64>> {
        found(table(of).first_child(row))
    }

    fn next_sibling(&self, of: Table, row: u32) -> Answer<Option<u64>> {
        found(table(of).next_sibling(row))
    }

    fn subtree<'a>(&self, of: Table<'a>, row: u32) -> Answer<(u64, &'a [u32])> {
        let subtree = table(of).subtree(row).map_err(refused)?;
        let (rows, values) = (subtree.rows(), subtree.values());
        assert_eq!(rows.len(), values.len(), "the rows of a subtree");
        assert!(
            subtree.into_iter().eq(rows.clone().zip(values.iter().copied())),
            "subtree, iterated"
        );
        Ok((rows.start as u64, values))
    }

    fn children(&self, of: Table, row: u32) -> Answer<Steps> {
        let mut walk = table(of).children(row).map_err(refused)?;
        let iterated = walk.clone().take(enough(of)).map(|child| found(child.map(Some)));
        let iterated: Steps = iterated.collect();
        let given = steps(of, || found(walk.step()));
        // the last step is one more than it takes to see the end, which is none or a refusal
        let mut until_the_end = given[..given.len() - 1].to_vec();
        until_the_end.retain(|step| *step != Ok(None));
        assert_eq!(iterated, until_the_end, "children, as an iterator");
        Ok(given)
    }

    fn bulk(&self, refresh: Refresh, new: Lent) -> Answer<u64> {
        let (of, insertions) = (&table(refresh.table), &table(refresh.insertions));
        let records = &records(refresh.records);
        let answer = both(
            new,
            |new| plan::refresh_into(of, records, insertions, new),
            || plan::refresh(of, records, insertions),
            "refresh",
        );
        names_the_kind(&answer, records);
        counted(answer)
    }

    fn single(&self, of: Table, one: Record, insertions: Table, new: Lent) -> Answer<u64> {
        let (of, insertions, record) = (&table(of), &table(insertions), record(one));
        let answer = both(
            new,
            |new| plan::single_into(of, record, insertions, new),
            || plan::single(of, record, insertions),
            "single",
        );
        names_the_kind(&answer, &[record]);
        counted(answer)
    }

    fn old_to_new(&self, refresh: Refresh, row: u32) -> Answer<Option<u32>> {
        let (of, insertions) = (&table(refresh.table), &table(refresh.insertions));
        let became = plan::old_to_new(of, &records(refresh.records), insertions, OldRow(row));
        became.map(|row| row.map(|row| row.0)).map_err(refused)
    }

    fn new_to_old(&self, refresh: Refresh, row: u32) -> Answer<Origin> {
        let (of, insertions) = (&table(refresh.table), &table(refresh.insertions));
        let was = plan::new_to_old(of, &records(refresh.records), insertions, NewRow(row));
        was.map(origin).map_err(refused)
    }

    fn map_old(&self, refresh: Refresh, new_rows: &mut [u32]) -> Answer<u64> {
        let (of, insertions) = (&table(refresh.table), &table(refresh.insertions));
        let records = &records(refresh.records);
        let answer = plan::map_old_into(of, records, insertions, new_rows);
        let owned = plan::map_old(of, records, insertions);
        agree(&answer, owned.as_ref().map(Vec::len).map_err(|&refusal| refusal), "map_old");
        if let (Ok(rows), Ok(owned)) = (answer, owned) {
            let plain = owned.iter().map(|row| row.map_or(plan::GONE, |row| row.0));
            assert!(plain.eq(new_rows[..rows].iter().copied()), "map_old, owned");
        }
        counted(answer)
    }

    fn map_new(&self, refresh: Refresh, lent: &mut [u32], rows: &mut [u32]) -> Answer<u64> {
        let (of, insertions) = (&table(refresh.table), &table(refresh.insertions));
        let records = &records(refresh.records);
        let answer = plan::map_new_into(of, records, insertions, lent, rows);
        if lent.len() == rows.len() {
            let owned = plan::map_new(of, records, insertions);
            agree(&answer, owned.as_ref().map(Vec::len).map_err(|&refusal| refusal), "map_new");
            if let (Ok(_), Ok(owned)) = (answer, owned) {
                let pairs = owned.iter().map(|&was| match was {
                    plan::Origin::Old(row) => (plan::OLD, row.0),
                    plan::Origin::Run { record, row } => (record as u32, row),
                });
                let given = lent.iter().copied().zip(rows.iter().copied()).take(owned.len());
                assert!(pairs.eq(given), "map_new, owned");
            }
        }
        counted(answer)
    }
}
