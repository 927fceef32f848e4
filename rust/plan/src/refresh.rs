//! Applying a list, or one record.

use crate::{ffi, Columns, Lent, Record, Refusal, Table, MOST_ROWS};

/// Applies a list to a table; gives the new table in columns of its own.
///
/// The records are in the order of a list: locations never fall; at one location inserts come
/// first, those of the deeper parent before, then at most one delete, rename or replace. They mean
/// what applying them singly means, the last first. All rows that they name are rows of `table`.
///
/// ```
/// use plan::{refresh, OldRow, Record, Table};
/// let table = Table::new(&[1, 1, 2], &[3, 1, 1], &[7, 8, 9]);
/// let records = [Record::rename(OldRow(0), 70), Record::delete(OldRow(1))];
/// let new = refresh(&table, &records, &Table::empty())?;
/// assert_eq!((new.dist, new.size, new.value), (vec![1, 1], vec![2, 1], vec![70, 9]));
/// # Ok::<(), plan::Refusal>(())
/// ```
pub fn refresh(
    table: &Table<'_>,
    records: &[Record],
    insertions: &Table<'_>,
) -> Result<Columns, Refusal> {
    let mut new = Columns::of(room(table, records, insertions));
    let rows = refresh_into(table, records, insertions, new.lend())?;
    Ok(new.first(rows))
}

/// Applies a list to a table; writes the new table to lent columns and gives its number of rows.
/// Rows behind them keep what they held, and a refused call writes nothing.
///
/// ```
/// use plan::{refresh_into, Columns, OldRow, Record, Refusal, Table};
/// let table = Table::new(&[1, 1, 2], &[3, 1, 1], &[7, 8, 9]);
/// let mut new = Columns::of(4);
/// let rows = refresh_into(&table, &[Record::delete(OldRow(1))], &Table::empty(), new.lend())?;
/// assert_eq!(rows, 2);
/// assert_eq!(new.size, [2, 1, 0, 0]);
///
/// let mut short = Columns::of(1);
/// let refused = refresh_into(&table, &[], &Table::empty(), short.lend());
/// assert_eq!(refused, Err(Refusal::NoRoom { rows: 3 }));
/// # Ok::<(), Refusal>(())
/// ```
pub fn refresh_into(
    table: &Table<'_>,
    records: &[Record],
    insertions: &Table<'_>,
    new: Lent<'_>,
) -> Result<usize, Refusal> {
    let answer = ffi::bulk(table, records, insertions, new);
    Refusal::told(answer.number, answer.place.into(), answer.count, records)?;
    Ok(answer.count as usize)
}

/// Applies one record, judged as a list of one; gives the new table in columns of its own.
///
/// ```
/// use plan::{single, OldRow, Record, Table};
/// let table = Table::new(&[1, 1, 2], &[3, 1, 1], &[7, 8, 9]);
/// let run = Table::new(&[1, 1], &[2, 1], &[50, 51]);
/// let new = single(&table, Record::replace(OldRow(1), 0), &run)?;
/// assert_eq!(new.value, [7, 50, 51, 9]);
/// # Ok::<(), plan::Refusal>(())
/// ```
pub fn single(
    table: &Table<'_>,
    record: Record,
    insertions: &Table<'_>,
) -> Result<Columns, Refusal> {
    let mut new = Columns::of(room(table, &[record], insertions));
    let rows = single_into(table, record, insertions, new.lend())?;
    Ok(new.first(rows))
}

/// Applies one record, judged as a list of one; writes the new table to lent columns and gives its
/// number of rows. Rows behind them keep what they held, and a refused call writes nothing.
pub fn single_into(
    table: &Table<'_>,
    record: Record,
    insertions: &Table<'_>,
    new: Lent<'_>,
) -> Result<usize, Refusal> {
    let answer = ffi::single(table, record, insertions, new);
    Refusal::told(answer.number, answer.place.into(), answer.count, &[record])?;
    Ok(answer.count as usize)
}

/// Rows that are enough for every accepted list: those of the table and of every run, but never
/// more than a table can have.
pub(crate) fn room(table: &Table<'_>, records: &[Record], insertions: &Table<'_>) -> usize {
    let rows = table.size().len();
    let most = records.iter().fold(rows, |sum, one| sum.saturating_add(one.brings(insertions)));
    most.min(MOST_ROWS)
}
