//! A case that differs, made small: parts are left out as long as it still differs.

use std::time::{Duration, Instant};

use crate::case::{Case, Columns};
use crate::check::Difference;
use crate::library::Record;

/// So long it looks for a smaller case.
const PATIENCE: Duration = Duration::from_secs(20);

/// The smallest case found, and how it differs.
pub fn shrink(case: Case, differs: impl Fn(&Case) -> Option<Difference>) -> (Case, Difference) {
    let mut difference = differs(&case).expect("the case differs");
    let mut case = case;
    let start = Instant::now();
    loop {
        let next = candidates(&case)
            .take_while(|_| start.elapsed() < PATIENCE)
            .find_map(|smaller| differs(&smaller).map(|how| (smaller, how)));
        match next {
            Some(smaller) => (case, difference) = smaller,
            None => return (case, difference),
        }
    }
}

/// Smaller cases, the boldest first.
fn candidates(case: &Case) -> impl Iterator<Item = Case> + '_ {
    fewer_records(case)
        .chain(fewer_rows(case))
        .chain(fewer_insertions(case))
        .chain(fewer_questions(case))
        .chain(less_room(case))
        .chain(plain_values(case))
        .filter(move |smaller| smaller != case)
}

/// Without a half, a quarter, .. of the records, at last without one.
fn fewer_records(case: &Case) -> impl Iterator<Item = Case> + '_ {
    parts(case.records.len()).map(move |(start, end)| {
        let mut smaller = case.clone();
        smaller.records.drain(start..end);
        smaller
    })
}

/// The halves of a length, then its quarters, and so on.
fn parts(length: usize) -> impl Iterator<Item = (usize, usize)> {
    let widths = std::iter::successors(Some(length.div_ceil(2)), |&width| {
        (width > 1).then(|| width.div_ceil(2))
    });
    widths.filter(|&width| width > 0).flat_map(move |width| {
        (0..length).step_by(width).map(move |start| (start, (start + width).min(length)))
    })
}

/// Without one subtree of the table, large ones first; without one row, its children going to its
/// parent; without the last row.
fn fewer_rows(case: &Case) -> impl Iterator<Item = Case> + '_ {
    let size = &case.table.size;
    let mut rows: Vec<usize> = (1..size.len()).collect();
    rows.sort_by_key(|&row| std::cmp::Reverse(size[row]));
    rows.truncate(200);
    let single_rows = rows.clone().into_iter().filter_map(move |row| without(case, row, 1));
    let subtrees = rows.into_iter().filter_map(move |row| without(case, row, size[row] as usize));
    let last = std::iter::once_with(move || {
        let mut smaller = case.clone();
        let Columns { dist, size, value } = &mut smaller.table;
        for column in [dist, size, value] {
            column.pop();
        }
        smaller
    });
    subtrees.chain(single_rows).chain(last)
}

/// The case without so many rows from a row on, which are all of its subtree or just itself: sizes,
/// distances, records and questions put right as far as they can be.
fn without(case: &Case, row: usize, gone: usize) -> Option<Case> {
    let Columns { dist, size, value } = &case.table;
    let rows = size.len();
    let end = row.checked_add(gone).filter(|&end| gone > 0 && end <= rows)?;
    if dist.len() != rows || value.len() != rows {
        return None;
    }
    let mut smaller = case.clone();
    let table = &mut smaller.table;
    let mut above = row;
    while above > 0 {
        above = above.checked_sub((dist[above] as usize).max(1))?;
        table.size[above] = table.size[above].wrapping_sub(gone as u32);
    }
    for (later, far) in table.dist.iter_mut().enumerate().skip(end) {
        match later.checked_sub(*far as usize)? {
            parent if parent < row => *far -= gone as u32,
            parent if parent == row => *far = far.wrapping_add(dist[row]).wrapping_sub(1),
            _ => (),
        }
    }
    for column in [&mut table.dist, &mut table.size, &mut table.value] {
        column.drain(row..end);
    }
    let moved = |number: u32| match number as usize >= end {
        true => number - gone as u32,
        false => number,
    };
    let within = |number: u32| (row..end).contains(&(number as usize));
    for records in [&mut smaller.records, &mut smaller.singles] {
        records.retain(|record| {
            !(within(record.location) || record.kind == 2 && within(record.parent))
        });
        for Record { location, parent, .. } in records {
            (*location, *parent) = (moved(*location), moved(*parent));
        }
    }
    for asked in smaller.rows.iter_mut().chain(&mut smaller.mapped) {
        *asked = moved(*asked);
    }
    Some(smaller)
}

/// Without the first or the last rows of the insertions.
fn fewer_insertions(case: &Case) -> impl Iterator<Item = Case> + '_ {
    let rows = case.insertions.size.len();
    parts(rows).filter(move |&(start, end)| start == 0 || end == rows).map(move |(start, end)| {
        let mut smaller = case.clone();
        let Columns { dist, size, value } = &mut smaller.insertions;
        for column in [dist, size, value] {
            column.drain(start.min(column.len())..end.min(column.len()));
        }
        if start == 0 {
            for record in smaller.records.iter_mut().chain(&mut smaller.singles) {
                record.from = record.from.wrapping_sub(end as u32);
            }
        }
        smaller
    })
}

/// Fewer rows asked about, fewer records tried singly.
fn fewer_questions(case: &Case) -> impl Iterator<Item = Case> + '_ {
    let rows = parts(case.rows.len()).map(move |(start, end)| {
        let mut smaller = case.clone();
        smaller.rows.drain(start..end);
        smaller
    });
    let mapped = parts(case.mapped.len()).map(move |(start, end)| {
        let mut smaller = case.clone();
        smaller.mapped.drain(start..end);
        smaller
    });
    let singles = std::iter::once_with(move || Case { singles: Vec::new(), ..case.clone() });
    rows.chain(mapped).chain(singles)
}

/// Shorter lent columns.
fn less_room(case: &Case) -> impl Iterator<Item = Case> + '_ {
    let shorter = |room: usize| [0, room / 2, room.saturating_sub(1)];
    let all = move |index: usize| Case {
        room: case.room.map(|room| shorter(room)[index]),
        room_old: shorter(case.room_old)[index],
        room_new: case.room_new.map(|room| shorter(room)[index]),
        ..case.clone()
    };
    (0..3).map(all)
}

/// Values that are easy to read: in the table the row number, in the insertions a hundred more.
fn plain_values(case: &Case) -> impl Iterator<Item = Case> + '_ {
    std::iter::once_with(move || {
        let mut smaller = case.clone();
        for (row, value) in smaller.table.value.iter_mut().enumerate() {
            *value = row as u32;
        }
        for (row, value) in smaller.insertions.value.iter_mut().enumerate() {
            *value = 100 + row as u32;
        }
        smaller
    })
}
