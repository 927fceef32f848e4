//! The worked plan through the wrapper: cases A to L, with the constructors of records.

use plan::{map_new, map_old, refresh, refresh_into, single};
use plan::{Columns, Kind, NewRow, OldRow, Origin, Record, Refusal, Table};

const T: Table =
    Table::new(&[1, 1, 1, 2, 4, 1, 6], &[7, 3, 1, 1, 2, 1, 1], &[10, 20, 30, 31, 21, 32, 40]);
const INSERTIONS: Table = Table::new(&[1, 1, 1], &[2, 1, 1], &[50, 51, 60]);

const fn delete(location: u32) -> Record {
    Record::delete(OldRow(location))
}

const fn insert(location: u32, parent: u32, from: u32) -> Record {
    Record::insert(OldRow(location), OldRow(parent), from)
}

const fn rename(location: u32, value: u32) -> Record {
    Record::rename(OldRow(location), value)
}

const fn replace(location: u32, from: u32) -> Record {
    Record::replace(OldRow(location), from)
}

const A: [Record; 3] = [insert(2, 1, 2), delete(4), insert(6, 0, 0)];

/// The list is accepted and gives these sizes, distances and values.
fn gives(records: &[Record], size: &[u32], dist: &[u32], value: &[u32]) {
    let columns = Columns { dist: dist.to_vec(), size: size.to_vec(), value: value.to_vec() };
    assert_eq!(refresh(&T, records, &INSERTIONS), Ok(columns));
}

fn refuses(records: &[Record], refusal: Refusal) {
    assert_eq!(refresh(&T, records, &INSERTIONS), Err(refusal));
}

#[test]
fn accepted_cases() {
    let a_values = [10, 20, 60, 30, 31, 50, 51, 40];
    gives(&A, &[8, 4, 1, 1, 1, 2, 1, 1], &[1, 1, 1, 2, 3, 5, 1, 7], &a_values);
    let b = [delete(4), insert(6, 4, 2), insert(6, 0, 0)];
    let b_values = [10, 20, 30, 31, 50, 51, 40];
    gives(&b, &[7, 3, 1, 1, 2, 1, 1], &[1, 1, 1, 2, 4, 1, 6], &b_values);
    let d = [insert(4, 0, 2), delete(4)];
    gives(&d, &[6, 3, 1, 1, 1, 1], &[1, 1, 1, 2, 4, 5], &[10, 20, 30, 31, 60, 40]);
    gives(&[rename(0, 9)], T.size(), T.dist(), &[9, 20, 30, 31, 21, 32, 40]);
    let i_values = [10, 20, 30, 60, 31, 21, 32, 40];
    gives(&[insert(3, 2, 2)], &[8, 4, 2, 1, 1, 2, 1, 1], &[1, 1, 1, 1, 3, 5, 1, 7], &i_values);
    gives(&[], T.size(), T.dist(), T.value());
    gives(&[replace(1, 2)], &[5, 1, 2, 1, 1], &[1, 1, 2, 1, 4], &[10, 60, 21, 32, 40]);
}

#[test]
fn refused_cases() {
    refuses(&[insert(6, 0, 0), insert(6, 4, 2)], Refusal::Order { record: 1 });
    refuses(&[delete(4), insert(4, 0, 2)], Refusal::Order { record: 1 });
    refuses(&[rename(4, 9), delete(4)], Refusal::Twice { record: 1 });
    refuses(&[delete(0)], Refusal::Location { record: 0, kind: Kind::Delete });
    refuses(&[insert(5, 0, 2)], Refusal::Location { record: 0, kind: Kind::Insert });
}

#[test]
fn case_l_writes_nothing() {
    let mut short = Columns { dist: vec![91; 7], size: vec![92; 7], value: vec![93; 7] };
    let before = short.clone();
    let answer = refresh_into(&T, &A, &INSERTIONS, short.lend());
    assert_eq!(answer, Err(Refusal::NoRoom { rows: 8 }));
    assert_eq!(short, before);
}

#[test]
fn a_single_call_is_a_list_of_one() {
    let list = refresh(&T, &[replace(1, 2)], &INSERTIONS);
    assert_eq!(single(&T, replace(1, 2), &INSERTIONS), list);
}

#[test]
fn a_new_table_is_a_table() {
    let new = refresh(&T, &A, &INSERTIONS).unwrap();
    assert_eq!(new.table().soundness(), Ok(8));
    assert_eq!(new.table().parent(7), Ok(Some(0)));
}

#[test]
fn case_a_mappings() {
    let row = |new| Some(NewRow(new));
    let became = map_old(&T, &A, &INSERTIONS).unwrap();
    assert_eq!(became, [row(0), row(1), row(3), row(4), None, None, row(7)]);
    let (old, run) = (|row| Origin::Old(OldRow(row)), |record, row| Origin::Run { record, row });
    let was = map_new(&T, &A, &INSERTIONS).unwrap();
    assert_eq!(was, [old(0), old(1), run(0, 0), old(2), old(3), run(2, 0), run(2, 1), old(6)]);
}
