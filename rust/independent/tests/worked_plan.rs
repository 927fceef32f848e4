//! The worked plan of the paper on the rules: cases A to L, and the others.

use independent::{bulk, map_new, map_old, new_to_old, old_to_new, single, soundness};
use independent::{Lent, Origin, Record, Refresh, Refused, Table, GONE, OLD};

const T: Table = Table {
    dist: &[1, 1, 1, 2, 4, 1, 6],
    size: &[7, 3, 1, 1, 2, 1, 1],
    value: &[10, 20, 30, 31, 21, 32, 40],
};
const INSERTIONS: Table = Table { dist: &[1, 1, 1], size: &[2, 1, 1], value: &[50, 51, 60] };

/// A record; what its kind doesn't use is 77.
const fn record(kind: u32) -> Record {
    Record { kind, location: 77, parent: 77, from: 77, value: 77 }
}

const fn delete(location: u32) -> Record {
    Record { location, ..record(1) }
}

const fn insert(location: u32, parent: u32, from: u32) -> Record {
    Record { location, parent, from, ..record(2) }
}

const fn rename(location: u32, value: u32) -> Record {
    Record { location, value, ..record(3) }
}

const fn replace(location: u32, from: u32) -> Record {
    Record { location, from, ..record(4) }
}

const A: &[Record] = &[insert(2, 1, 2), delete(4), insert(6, 0, 0)];

fn refresh(records: &[Record]) -> Refresh<'_> {
    Refresh { table: T, records, insertions: INSERTIONS }
}

/// Calls bulk with columns of so many rows; gives the answer and what they then hold.
fn with_room(refresh: Refresh, room: usize) -> (Result<u64, Refused>, [Vec<u32>; 3]) {
    let (mut dist, mut size, mut value) = (vec![91; room], vec![92; room], vec![93; room]);
    let answer = bulk(refresh, Lent { dist: &mut dist, size: &mut size, value: &mut value });
    (answer, [dist, size, value])
}

/// The list is accepted and gives these sizes and distances; the row behind is kept.
fn gives(records: &[Record], sizes: &[u32], dists: &[u32]) -> Vec<u32> {
    let rows = sizes.len();
    let (answer, [dist, size, value]) = with_room(refresh(records), rows + 1);
    assert_eq!(answer, Ok(rows as u64));
    assert_eq!((&size[..rows], &dist[..rows]), (sizes, dists));
    assert_eq!((dist[rows], size[rows], value[rows]), (91, 92, 93));
    value[..rows].to_vec()
}

/// The list is refused, and nothing is written.
fn refuses(records: &[Record], room: usize, number: u32, place: u64, count: u64) {
    let (answer, columns) = with_room(refresh(records), room);
    assert_eq!(answer, Err(Refused { number, place, count }));
    assert_eq!(columns, [vec![91; room], vec![92; room], vec![93; room]]);
}

#[test]
fn case_a() {
    let values = gives(A, &[8, 4, 1, 1, 1, 2, 1, 1], &[1, 1, 1, 2, 3, 5, 1, 7]);
    assert_eq!(values, [10, 20, 60, 30, 31, 50, 51, 40]);
}

#[test]
fn case_a_mappings() {
    assert_eq!(old_to_new(refresh(A), 6), Ok(Some(7)));
    assert_eq!(old_to_new(refresh(A), 4), Ok(None));
    assert_eq!(old_to_new(refresh(A), 5), Ok(None));
    assert_eq!(old_to_new(refresh(A), 7), Err(Refused { number: 11, place: 7, count: 0 }));
    assert_eq!(new_to_old(refresh(A), 6), Ok(Origin::Run { record: 2, row: 1 }));
    assert_eq!(new_to_old(refresh(A), 7), Ok(Origin::Old(6)));

    let mut new_rows = [5; 8];
    assert_eq!(map_old(refresh(A), &mut new_rows), Ok(7));
    assert_eq!(new_rows, [0, 1, 3, 4, GONE, GONE, 7, 5]);
    let (mut from_records, mut from_rows) = ([5; 9], [6; 9]);
    assert_eq!(map_new(refresh(A), &mut from_records, &mut from_rows), Ok(8));
    assert_eq!(from_records, [OLD, OLD, 0, OLD, OLD, 2, 2, OLD, 5]);
    assert_eq!(from_rows, [0, 1, 0, 2, 3, 0, 1, 6, 6]);
}

#[test]
fn case_b() {
    let list = [delete(4), insert(6, 4, 2), insert(6, 0, 0)];
    let values = gives(&list, &[7, 3, 1, 1, 2, 1, 1], &[1, 1, 1, 2, 4, 1, 6]);
    assert_eq!(values, [10, 20, 30, 31, 50, 51, 40]);
}

#[test]
fn case_c() {
    refuses(&[insert(6, 0, 0), insert(6, 4, 2)], 9, 7, 1, 0);
}

#[test]
fn case_d() {
    let list = [insert(4, 0, 2), delete(4)];
    gives(&list, &[6, 3, 1, 1, 1, 1], &[1, 1, 1, 2, 4, 5]);
}

#[test]
fn case_e() {
    refuses(&[delete(4), insert(4, 0, 2)], 9, 7, 1, 0);
}

#[test]
fn case_f() {
    refuses(&[rename(4, 9), delete(4)], 9, 8, 1, 0);
}

#[test]
fn case_g() {
    refuses(&[delete(0)], 9, 5, 0, 0);
    let values = gives(&[rename(0, 9)], T.size, T.dist);
    assert_eq!(values, [9, 20, 30, 31, 21, 32, 40]);
}

#[test]
fn case_h() {
    refuses(&[insert(5, 0, 2)], 9, 5, 0, 0);
}

#[test]
fn case_i() {
    let list = [insert(3, 2, 2)];
    gives(&list, &[8, 4, 2, 1, 1, 2, 1, 1], &[1, 1, 1, 1, 3, 5, 1, 7]);
}

#[test]
fn case_j() {
    assert_eq!(gives(&[], T.size, T.dist), T.value);
}

#[test]
fn case_k() {
    gives(&[replace(1, 2)], &[5, 1, 2, 1, 1], &[1, 1, 2, 1, 4]);
}

#[test]
fn case_l() {
    refuses(A, 7, 10, 0, 8);
}

#[test]
fn a_single_call_is_a_list_of_one() {
    let (mut dist, mut size, mut value) = ([0; 5], [0; 5], [0; 5]);
    let new = Lent { dist: &mut dist, size: &mut size, value: &mut value };
    assert_eq!(single(T, replace(1, 2), INSERTIONS, new), Ok(5));
    assert_eq!(size, [5, 1, 2, 1, 1]);
}

fn sound(dist: &[u32], size: &[u32]) -> bool {
    let value = vec![0; size.len()];
    let table = Table { dist, size, value: &value };
    soundness(table).is_ok()
}

#[test]
fn soundness_of_small_tables() {
    assert!(!sound(&[1, 1, 1], &[3, 1, 1]));
    assert!(sound(&[1, 1, 2], &[3, 1, 1]));
    assert!(!sound(&[], &[]));
    assert!(!sound(&[1], &[0]));
    assert!(!sound(&[1, 1], &[2, 0]));
    assert_eq!(soundness(T), Ok(7));
}

/// A root with all other rows as its children.
fn flat(rows: u32) -> [Vec<u32>; 3] {
    let dist = (0..rows).map(|row| row.max(1)).collect();
    let mut size = vec![1; rows as usize];
    size[0] = rows;
    [dist, size, vec![0; rows as usize]]
}

#[test]
fn the_most_rows() {
    let [dist, size, value] = flat(65_535);
    let table = Table { dist: &dist, size: &size, value: &value };
    let try_one = |record: Record| {
        let list = [record];
        with_room(Refresh { table, records: &list, insertions: INSERTIONS }, 65_536).0
    };
    assert_eq!(try_one(rename(65_534, 1)), Ok(65_535));
    let too_many = Refused { number: 9, place: 0, count: 65_536 };
    assert_eq!(try_one(insert(65_535, 0, 2)), Err(too_many));
    let [dist, size, _] = flat(65_536);
    assert!(!sound(&dist, &size));
}

#[test]
fn the_most_records() {
    let refused = |records| with_room(refresh(&vec![insert(2, 1, 2); records]), 2_000).0.err();
    assert_eq!(refused(1_024), None);
    let too_many = Refused { number: 3, place: 0, count: 0 };
    assert_eq!(refused(1_025), Some(too_many));
}
