//! The axes on the worked plan, and on columns that are no plan.

use independent::{child, children, first_child, next_sibling, parent, subtree, Refused, Table};

const T: Table = Table {
    dist: &[1, 1, 1, 2, 4, 1, 6],
    size: &[7, 3, 1, 1, 2, 1, 1],
    value: &[10, 20, 30, 31, 21, 32, 40],
};

fn refused<T>(number: u32, place: u64) -> Result<T, Refused> {
    Err(Refused { number, place, count: 0 })
}

/// Every step of the walk over a row's children, up to the first that gives none.
fn walk(table: Table, row: u32) -> Result<Vec<u64>, Refused> {
    let (mut next, end) = children(table, row)?;
    let mut given = Vec::new();
    while let Some((row, after)) = child(table.size, next, end)? {
        given.push(row);
        next = after;
    }
    Ok(given)
}

#[test]
fn on_a_sound_table() {
    let parents: Vec<_> = (0..7).map(|row| parent(T, row).unwrap()).collect();
    assert_eq!(parents, [None, Some(0), Some(1), Some(1), Some(0), Some(4), Some(0)]);
    let firsts: Vec<_> = (0..7).map(|row| first_child(T, row).unwrap()).collect();
    assert_eq!(firsts, [Some(1), Some(2), None, None, Some(5), None, None]);
    let nexts: Vec<_> = (0..7).map(|row| next_sibling(T, row).unwrap()).collect();
    assert_eq!(nexts, [None, Some(4), Some(3), None, Some(6), None, None]);
    assert_eq!(subtree(T, 1), Ok(&[20, 30, 31][..]));
    assert_eq!(walk(T, 0), Ok(vec![1, 4, 6]));
    assert_eq!(walk(T, 6), Ok(vec![]));
}

#[test]
fn refusals_in_their_order() {
    let uneven = Table { dist: &[1], size: &[1, 1], value: &[1] };
    assert_eq!(parent(uneven, 9), refused(1, 0));
    assert_eq!(parent(T, 7), refused(11, 7));
    assert_eq!(walk(T, u32::MAX), refused(11, u32::MAX.into()));
}

#[test]
fn conditions_on_raw_columns() {
    let raw = Table { dist: &[9, 2, 0, 1, 1], size: &[u32::MAX, 0, 4, 2, 1], value: &[0; 5] };
    assert_eq!(parent(raw, 0), Ok(None));
    assert_eq!(parent(raw, 1), refused(12, 1));
    assert_eq!(parent(raw, 2), refused(12, 2));
    assert_eq!(first_child(raw, 0), refused(12, 0));
    assert_eq!(first_child(raw, 1), refused(12, 1));
    assert_eq!(first_child(raw, 2), refused(12, 2));
    assert_eq!(next_sibling(raw, 0), Ok(None));
    assert_eq!(next_sibling(raw, 3), refused(12, 3));
    assert_eq!(next_sibling(raw, 4), Ok(None));
    assert_eq!(subtree(raw, 3), Ok(&[0, 0][..]));
    assert_eq!(subtree(raw, 2), refused(12, 2));
}

#[test]
fn a_walk_stays_where_it_refuses() {
    let raw = Table { dist: &[1; 4], size: &[4, 1, 3, 1], value: &[0; 4] };
    assert_eq!(children(raw, 0), Ok((1, 4)));
    assert_eq!(child(raw.size, 1, 4), Ok(Some((1, 2))));
    assert_eq!(child(raw.size, 2, 4), refused(12, 2));
}
