//! The independent implementation, as one of the two that are compared.

use independent as second;

use crate::library::{
    steps, Answer, Lent, Library, Origin, Record, Refresh, Refused, Steps, Table,
};

/// The independent implementation.
#[derive(Debug)]
pub struct Second;

fn table(table: Table<'_>) -> second::Table<'_> {
    second::Table { dist: table.dist, size: table.size, value: table.value }
}

fn lent(lent: Lent<'_>) -> second::Lent<'_> {
    second::Lent { dist: lent.dist, size: lent.size, value: lent.value }
}

fn record(record: Record) -> second::Record {
    let Record { kind, location, parent, from, value } = record;
    second::Record { kind, location, parent, from, value }
}

fn refused(refused: second::Refused) -> Refused {
    Refused { number: refused.number, place: refused.place, count: refused.count }
}

fn origin(origin: second::Origin) -> Origin {
    match origin {
        second::Origin::Old(row) => Origin::Old(row),
        second::Origin::Run { record, row } => Origin::Run { record, row },
    }
}

/// Calls it with a list of its own records.
fn with<T>(
    refresh: Refresh,
    call: impl FnOnce(second::Refresh) -> Result<T, second::Refused>,
) -> Answer<T> {
    let records: Vec<_> = refresh.records.iter().copied().map(record).collect();
    let (table, insertions) = (table(refresh.table), table(refresh.insertions));
    call(second::Refresh { table, records: &records, insertions }).map_err(refused)
}

impl Library for Second {
    fn soundness(&self, of: Table) -> Answer<u64> {
        second::soundness(table(of)).map_err(refused)
    }

    fn parent(&self, of: Table, row: u32) -> Answer<Option<u64>> {
        second::parent(table(of), row).map_err(refused)
    }

    fn first_child(&self, of: Table, row: u32) -> Answer<Option<u64>> {
        second::first_child(table(of), row).map_err(refused)
    }

    fn next_sibling(&self, of: Table, row: u32) -> Answer<Option<u64>> {
        second::next_sibling(table(of), row).map_err(refused)
    }

    fn subtree<'a>(&self, of: Table<'a>, row: u32) -> Answer<(u64, &'a [u32])> {
        second::subtree(table(of), row).map(|values| (row.into(), values)).map_err(refused)
    }

    fn children(&self, of: Table, row: u32) -> Answer<Steps> {
        let (mut next, end) = second::children(table(of), row).map_err(refused)?;
        Ok(steps(of, || {
            let step = second::child(of.size, next, end).map_err(refused)?;
            Ok(step.map(|(row, after)| {
                next = after;
                row
            }))
        }))
    }

    fn bulk(&self, refresh: Refresh, new: Lent) -> Answer<u64> {
        with(refresh, |refresh| second::bulk(refresh, lent(new)))
    }

    fn single(&self, of: Table, one: Record, insertions: Table, new: Lent) -> Answer<u64> {
        second::single(table(of), record(one), table(insertions), lent(new)).map_err(refused)
    }

    fn old_to_new(&self, refresh: Refresh, row: u32) -> Answer<Option<u32>> {
        with(refresh, |refresh| second::old_to_new(refresh, row))
    }

    fn new_to_old(&self, refresh: Refresh, row: u32) -> Answer<Origin> {
        with(refresh, |refresh| second::new_to_old(refresh, row)).map(origin)
    }

    fn map_old(&self, refresh: Refresh, new_rows: &mut [u32]) -> Answer<u64> {
        with(refresh, |refresh| second::map_old(refresh, new_rows))
    }

    fn map_new(&self, refresh: Refresh, records: &mut [u32], rows: &mut [u32]) -> Answer<u64> {
        with(refresh, |refresh| second::map_new(refresh, records, rows))
    }
}
