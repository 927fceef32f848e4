//! The axes, on raw columns, in the words of the paper. Rows and sums are of 64 bits: a column may
//! have more rows than 32 bits count.

use crate::table::{Refused, Table};

/// Tests 1 and 11 of every axis; gives the row asked about and the number of rows.
fn asked(table: Table, row: u32) -> Result<(u64, u64), Refused> {
    if !table.even() {
        return Err(Refused::plain(1));
    }
    let (row, rows) = (u64::from(row), table.rows() as u64);
    if row >= rows {
        return Err(Refused::at(11, row));
    }
    Ok((row, rows))
}

/// Test 12: a condition stated for the axis holds at the row.
fn holds(condition: bool, row: u64) -> Result<(), Refused> {
    if condition {
        Ok(())
    } else {
        Err(Refused::at(12, row))
    }
}

fn size(table: Table, row: u64) -> u64 {
    u64::from(table.size[row as usize])
}

/// The row number after the last row of a subtree.
fn end(table: Table, row: u64) -> u64 {
    row + size(table, row)
}

/// A row whose subtree lies in the table: size ≥ 1 and row + size ≤ n.
fn whole(table: Table, row: u32) -> Result<u64, Refused> {
    let (row, rows) = asked(table, row)?;
    holds(size(table, row) >= 1 && end(table, row) <= rows, row)?;
    Ok(row)
}

/// None for row 0; else row − dist, where 1 ≤ dist ≤ row.
pub fn parent(table: Table, row: u32) -> Result<Option<u64>, Refused> {
    let (row, _) = asked(table, row)?;
    if row == 0 {
        return Ok(None);
    }
    let dist = u64::from(table.dist[row as usize]);
    holds(1 <= dist && dist <= row, row)?;
    Ok(Some(row - dist))
}

/// With size ≥ 1 and row + size ≤ n: row + 1 where size ≥ 2, else none.
pub fn first_child(table: Table, row: u32) -> Result<Option<u64>, Refused> {
    let row = whole(table, row)?;
    Ok((size(table, row) >= 2).then_some(row + 1))
}

/// None for row 0. Else, with a parent q, size ≥ 1, q + size of q ≤ n and row + size ≤ q + size of
/// q: row + size if less than q + size of q, none if equal.
pub fn next_sibling(table: Table, row: u32) -> Result<Option<u64>, Refused> {
    let Some(parent) = parent(table, row)? else {
        return Ok(None);
    };
    let (row, rows) = asked(table, row)?;
    let (own_end, parent_end) = (end(table, row), end(table, parent));
    holds(size(table, row) >= 1, row)?;
    holds(parent_end <= rows && own_end <= parent_end, row)?;
    Ok((own_end < parent_end).then_some(own_end))
}

/// The values of one subtree, as that part of the column itself, where size ≥ 1 and
/// row + size ≤ n.
pub fn subtree<'a>(table: Table<'a>, row: u32) -> Result<&'a [u32], Refused> {
    let row = whole(table, row)?;
    Ok(&table.value[row as usize..end(table, row) as usize])
}

/// Begins a walk over the children: the first candidate and the end. It needs size ≥ 1 and
/// row + size ≤ n.
pub fn children(table: Table, row: u32) -> Result<(u64, u64), Refused> {
    let row = whole(table, row)?;
    Ok((row + 1, end(table, row)))
}

/// One step of a walk: none at the end, or the candidate and the next one. The walk stays at a
/// candidate whose size is 0 or passes the end.
pub fn child(sizes: &[u32], next: u64, end: u64) -> Result<Option<(u64, u64)>, Refused> {
    if next == end {
        return Ok(None);
    }
    let size = u64::from(sizes[next as usize]);
    holds(size != 0 && next + size <= end, next)?;
    Ok(Some((next, next + size)))
}
