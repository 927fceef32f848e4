//! All distances recomputed from the sizes: sizes and values are put together in one go, stretch by
//! stretch, and then every distance is worked out anew. Tuned: the sizes of all ancestors are put
//! right in one climb, which meets each of them once.

use plan::{Kind, Lent, Record, Table};

use crate::judge::judge;

/// Applies a list; gives the rows of the result. `scratch` is as long as the table.
pub fn recompute(
    table: &Table,
    records: &[Record],
    insertions: &Table,
    new: Lent,
    scratch: &mut [u32],
) -> Option<usize> {
    let judged = judge(table, records, insertions, new.size.len())?;
    scratch.copy_from_slice(table.size());
    ancestors(table, &judged.kept, insertions, scratch)?;
    stretches(table, &judged.kept, insertions, scratch, new.size, new.value)?;
    distances(&new.size[..judged.rows], &mut new.dist[..judged.rows]);
    Some(judged.rows)
}

/// Puts right the sizes of all old rows under which rows come or go. From the last record on, `line`
/// holds rows on one line of ancestors, each with what is still to be added to it and all above it.
fn ancestors(table: &Table, kept: &[Record], insertions: &Table, sizes: &mut [u32]) -> Option<()> {
    let dist = table.dist();
    let mut line: Vec<(usize, u32)> = Vec::with_capacity(kept.len());
    for record in kept.iter().rev() {
        let location = record.location.0 as usize;
        let under = |location: usize| location - dist[location] as usize;
        let come = || insertions.size()[record.from as usize];
        let (row, shift) = match Kind::of(record.kind)? {
            Kind::Rename => continue,
            Kind::Insert => (record.parent.0 as usize, come()),
            Kind::Delete => (under(location), 0u32.wrapping_sub(table.size()[location])),
            Kind::Replace => (under(location), come().wrapping_sub(table.size()[location])),
        };
        climb(dist, sizes, &mut line, row);
        match line.last_mut() {
            Some((last, more)) if *last == row => *more = more.wrapping_add(shift),
            _ => line.push((row, shift)),
        }
    }
    climb(dist, sizes, &mut line, 0);
    if let Some((_, shift)) = line.first() {
        sizes[0] = sizes[0].wrapping_add(*shift);
    }
    Some(())
}

/// Climbs until the last row of the line is not behind `row`.
fn climb(dist: &[u32], sizes: &mut [u32], line: &mut Vec<(usize, u32)>, row: usize) {
    while let Some((mut last, shift)) = line.pop() {
        let stop = line.last().map_or(row, |&(below, _)| below.max(row));
        while last > stop {
            sizes[last] = sizes[last].wrapping_add(shift);
            last -= dist[last] as usize;
        }
        match line.last_mut() {
            Some((below, more)) if *below == last => *more = more.wrapping_add(shift),
            _ => {
                line.push((last, shift));
                return;
            }
        }
    }
}

/// Copies sizes and values: the stretches of old rows between the records, and the runs.
fn stretches(
    table: &Table,
    kept: &[Record],
    insertions: &Table,
    sizes: &[u32],
    new_size: &mut [u32],
    new_value: &mut [u32],
) -> Option<()> {
    let (mut old, mut new) = (0, 0);
    let mut copy = |size: &[u32], value: &[u32], start: usize, end: usize, at: usize| {
        new_size[at..at + end - start].copy_from_slice(&size[start..end]);
        new_value[at..at + end - start].copy_from_slice(&value[start..end]);
        at + end - start
    };
    let mut renamed = Vec::new();
    for record in kept {
        let location = record.location.0 as usize;
        new = copy(sizes, table.value(), old, location, new);
        old = location;
        let kind = Kind::of(record.kind)?;
        if matches!(kind, Kind::Insert | Kind::Replace) {
            let (start, length) = (record.from as usize, insertions.size()[record.from as usize]);
            let end = start + length as usize;
            new = copy(insertions.size(), insertions.value(), start, end, new);
        }
        match kind {
            Kind::Delete | Kind::Replace => old += table.size()[location] as usize,
            Kind::Rename => renamed.push((new, record.value)),
            Kind::Insert => (),
        }
    }
    copy(sizes, table.value(), old, sizes.len(), new);
    for (row, value) in renamed {
        new_value[row] = value;
    }
    Some(())
}

/// Every distance, from the sizes. The distances written so far lead from a row that ends to its
/// parent, so that no stack is needed.
fn distances(size: &[u32], dist: &mut [u32]) {
    let rows = size.len();
    let dist = &mut dist[..rows];
    dist[0] = 1;
    let (mut parent, mut end) = (0, rows);
    for row in 1..rows {
        while row == end {
            parent -= dist[parent] as usize;
            end = parent + size[parent] as usize;
        }
        dist[row] = (row - parent) as u32;
        if size[row] > 1 {
            parent = row;
            end = row + size[row] as usize;
        }
    }
}
