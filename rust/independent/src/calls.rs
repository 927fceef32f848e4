//! The calls that judge a whole table or list.

use crate::judge::{judge, sound};
use crate::table::{Lent, Origin, Record, Refresh, Refused, Table, GONE, OLD};

/// Tests 1 and 2; accepted, the number of rows.
pub fn soundness(table: Table) -> Result<u64, Refused> {
    if !table.even() {
        return Err(Refused::plain(1));
    }
    if sound(table, Origin::Old).is_none() {
        return Err(Refused::plain(2));
    }
    Ok(table.rows() as u64)
}

/// Applies a list: tests 1 to 10; accepted, the number of new rows, which are then written.
pub fn bulk(refresh: Refresh, new: Lent) -> Result<u64, Refused> {
    let room = new.size.len();
    let even = new.dist.len() == room && new.value.len() == room;
    let columns = judge(even, refresh)?.columns();
    let needed = columns.size.len();
    if needed > room {
        return Err(Refused::needs(10, needed));
    }
    new.dist[..needed].copy_from_slice(&columns.dist);
    new.size[..needed].copy_from_slice(&columns.size);
    new.value[..needed].copy_from_slice(&columns.value);
    Ok(needed as u64)
}

/// Applies one record, judged as a list of one.
pub fn single(table: Table, record: Record, insertions: Table, new: Lent) -> Result<u64, Refused> {
    let records = &[record];
    let refresh = Refresh { table, records, insertions };
    bulk(refresh, new)
}

/// The new number of an old row; none if it is gone.
pub fn old_to_new(refresh: Refresh, row: u32) -> Result<Option<u32>, Refused> {
    let origins = judge(true, refresh)?.origins();
    if row as usize >= refresh.table.rows() {
        return Err(Refused::at(11, row.into()));
    }
    Ok(new_number(&origins, row))
}

/// Where a new row comes from.
pub fn new_to_old(refresh: Refresh, row: u32) -> Result<Origin, Refused> {
    let origins = judge(true, refresh)?.origins();
    match origins.get(row as usize) {
        Some(&origin) => Ok(origin),
        None => Err(Refused::at(11, row.into())),
    }
}

/// Writes for each old row its new number or [`GONE`]; accepted, the number of old rows.
pub fn map_old(refresh: Refresh, new_rows: &mut [u32]) -> Result<u64, Refused> {
    let origins = judge(true, refresh)?.origins();
    let needed = refresh.table.rows();
    if needed > new_rows.len() {
        return Err(Refused::needs(10, needed));
    }
    new_rows[..needed].fill(GONE);
    for (row, origin) in origins.iter().enumerate() {
        if let Origin::Old(old) = origin {
            new_rows[*old as usize] = row as u32;
        }
    }
    Ok(needed as u64)
}

/// Writes for each new row the record and the row within its run, or [`OLD`] and the old row;
/// accepted, the number of new rows.
pub fn map_new(
    refresh: Refresh,
    from_records: &mut [u32],
    from_rows: &mut [u32],
) -> Result<u64, Refused> {
    let even = from_records.len() == from_rows.len();
    let origins = judge(even, refresh)?.origins();
    if origins.len() > from_rows.len() {
        return Err(Refused::needs(10, origins.len()));
    }
    for (new, origin) in origins.iter().enumerate() {
        (from_records[new], from_rows[new]) = match *origin {
            Origin::Old(row) => (OLD, row),
            Origin::Run { record, row } => (record, row),
        };
    }
    Ok(origins.len() as u64)
}

/// The new row that an old row became.
fn new_number(origins: &[Origin], row: u32) -> Option<u32> {
    let place = origins.iter().position(|&origin| origin == Origin::Old(row));
    place.map(|new| new as u32)
}
