//! Where each row went: the two mappings of row numbers, for one row and for whole columns.

use crate::refresh::room;
use crate::{ffi, NewRow, OldRow, Record, Refusal, Table};

/// Where a row of the new table comes from.
#[derive(Clone, Copy, Debug, PartialEq, Eq, Hash)]
pub enum Origin {
    /// It was this row of the old table.
    Old(OldRow),
    /// It is a row of the run of a record.
    Run {
        /// The record's place in its list.
        record: usize,
        /// The row within its run.
        row: u32,
    },
}

/// In a column written by [`map_old_into`]: the old row is gone.
pub const GONE: u32 = u32::MAX;

/// In the column of records written by [`map_new_into`]: the new row was a row of the old table.
pub const OLD: u32 = u32::MAX;

/// What a list makes of an old row: its new number, or none where it is gone. A renamed row
/// survives; a replaced one is gone.
///
/// ```
/// use plan::{old_to_new, NewRow, OldRow, Record, Table};
/// let table = Table::new(&[1, 1, 2], &[3, 1, 1], &[7, 8, 9]);
/// let records = [Record::delete(OldRow(1))];
/// assert_eq!(old_to_new(&table, &records, &Table::empty(), OldRow(1))?, None);
/// assert_eq!(old_to_new(&table, &records, &Table::empty(), OldRow(2))?, Some(NewRow(1)));
/// # Ok::<(), plan::Refusal>(())
/// ```
pub fn old_to_new(
    table: &Table<'_>,
    records: &[Record],
    insertions: &Table<'_>,
    row: OldRow,
) -> Result<Option<NewRow>, Refusal> {
    let became = ffi::old_to_new(table, records, insertions, row.0);
    Refusal::told(became.number, became.place.into(), became.count, records)?;
    Ok((became.gone == 0).then_some(NewRow(became.row)))
}

/// Which row a new row was: an old row, or a row of the run of a record.
///
/// ```
/// use plan::{new_to_old, NewRow, OldRow, Origin, Record, Table};
/// let table = Table::new(&[1, 1, 2], &[3, 1, 1], &[7, 8, 9]);
/// let run = Table::new(&[1], &[1], &[50]);
/// let records = [Record::insert(OldRow(1), OldRow(0), 0)];
/// let origin = Origin::Run { record: 0, row: 0 };
/// assert_eq!(new_to_old(&table, &records, &run, NewRow(1))?, origin);
/// assert_eq!(new_to_old(&table, &records, &run, NewRow(2))?, Origin::Old(OldRow(1)));
/// # Ok::<(), plan::Refusal>(())
/// ```
pub fn new_to_old(
    table: &Table<'_>,
    records: &[Record],
    insertions: &Table<'_>,
    row: NewRow,
) -> Result<Origin, Refusal> {
    let was = ffi::new_to_old(table, records, insertions, row.0);
    Refusal::told(was.number, was.place.into(), was.count, records)?;
    Ok(match was.inserted {
        0 => Origin::Old(OldRow(was.row)),
        _ => Origin::Run { record: was.record as usize, row: was.row },
    })
}

/// What a list makes of every old row, in the order of the old rows.
///
/// ```
/// use plan::{map_old, NewRow, OldRow, Record, Table};
/// let table = Table::new(&[1, 1, 2], &[3, 1, 1], &[7, 8, 9]);
/// let became = map_old(&table, &[Record::delete(OldRow(1))], &Table::empty())?;
/// assert_eq!(became, [Some(NewRow(0)), None, Some(NewRow(1))]);
/// # Ok::<(), plan::Refusal>(())
/// ```
pub fn map_old(
    table: &Table<'_>,
    records: &[Record],
    insertions: &Table<'_>,
) -> Result<Vec<Option<NewRow>>, Refusal> {
    let mut new_rows = vec![0; table.size().len()];
    let rows = map_old_into(table, records, insertions, &mut new_rows)?;
    Ok(new_rows[..rows].iter().map(|&row| (row != GONE).then_some(NewRow(row))).collect())
}

/// Writes to a lent column what a list makes of every old row: its new number, or [`GONE`]. Gives
/// the number of old rows. Rows behind them keep what they held, and a refused call writes nothing.
pub fn map_old_into(
    table: &Table<'_>,
    records: &[Record],
    insertions: &Table<'_>,
    new_rows: &mut [u32],
) -> Result<usize, Refusal> {
    let answer = ffi::map_old(table, records, insertions, new_rows);
    Refusal::told(answer.number, answer.place.into(), answer.count, records)?;
    Ok(answer.count as usize)
}

/// Which row every new row was, in the order of the new rows.
///
/// ```
/// use plan::{map_new, OldRow, Origin, Record, Table};
/// let table = Table::new(&[1, 1], &[2, 1], &[7, 8]);
/// let run = Table::new(&[1], &[1], &[50]);
/// let was = map_new(&table, &[Record::replace(OldRow(1), 0)], &run)?;
/// assert_eq!(was, [Origin::Old(OldRow(0)), Origin::Run { record: 0, row: 0 }]);
/// # Ok::<(), plan::Refusal>(())
/// ```
pub fn map_new(
    table: &Table<'_>,
    records: &[Record],
    insertions: &Table<'_>,
) -> Result<Vec<Origin>, Refusal> {
    let room = room(table, records, insertions);
    let (mut from_records, mut from_rows) = (vec![0; room], vec![0; room]);
    let rows = map_new_into(table, records, insertions, &mut from_records, &mut from_rows)?;
    let pairs = from_records.iter().zip(&from_rows).take(rows);
    Ok(pairs.map(|(&record, &row)| origin(record, row)).collect())
}

fn origin(record: u32, row: u32) -> Origin {
    if record == OLD {
        Origin::Old(OldRow(row))
    } else {
        Origin::Run { record: record as usize, row }
    }
}

/// Writes to two lent columns which row every new row was: the record and the row within its run,
/// or [`OLD`] and the old row. Gives the number of new rows. Rows behind them keep what they held,
/// and a refused call writes nothing.
pub fn map_new_into(
    table: &Table<'_>,
    records: &[Record],
    insertions: &Table<'_>,
    from_records: &mut [u32],
    from_rows: &mut [u32],
) -> Result<usize, Refusal> {
    let answer = ffi::map_new(table, records, insertions, from_records, from_rows);
    Refusal::told(answer.number, answer.place.into(), answer.count, records)?;
    Ok(answer.count as usize)
}
