//! Every refusal from a call that meets it, with its number and its words.

use plan::{old_to_new, refresh, refresh_into, Columns, OldRow, Record, Refusal, Table};

const T: Table = Table::new(&[1, 1, 2], &[3, 1, 1], &[7, 8, 9]);
const RUN: Table = Table::new(&[1], &[1], &[50]);

/// The refusal of a list.
fn list(records: &[Record]) -> Refusal {
    refresh(&T, records, &RUN).unwrap_err()
}

fn says(refusal: Refusal, number: u32, words: &str) {
    assert_eq!((refusal.number(), refusal.to_string().as_str()), (number, words));
}

#[test]
fn of_tables() {
    let uneven = Table::new(&[1], &[1, 1], &[1]);
    says(uneven.soundness().unwrap_err(), 1, "columns that belong together differ in length");
    let unsound = Table::new(&[1, 1, 1], &[3, 1, 1], &[7, 8, 9]);
    let words = "the table is not the walk of one tree of 1 to 65535 rows";
    says(unsound.soundness().unwrap_err(), 2, words);
}

#[test]
fn of_lists() {
    let rename = Record::rename(OldRow(1), 5);
    let delete = |row| Record::delete(OldRow(row));
    let insert = |row, parent, from| Record::insert(OldRow(row), OldRow(parent), from);
    says(list(&vec![rename; 1_025]), 3, "the list has more than 1024 records");
    let words = "record 1: the kind is none of delete, insert, rename, replace";
    says(list(&[rename, Record { kind: 9, ..rename }]), 4, words);
    let words = "record 0: the location is not an open place of its parent";
    says(list(&[insert(3, 1, 0)]), 5, words);
    let words = "record 0: the location is not a row of the table below the root";
    says(list(&[delete(0)]), 5, words);
    let words = "record 0: the location is not a row of the table";
    says(list(&[Record::rename(OldRow(3), 0)]), 5, words);
    let words = "record 0: the run is not a sound table within the insertions";
    says(list(&[insert(3, 0, 1)]), 6, words);
    let words = "record 1: it has to stand before the record in front of it";
    says(list(&[delete(2), rename]), 7, words);
    let words = "record 1: the record before already changes the same row";
    says(list(&[rename, delete(1)]), 8, words);
}

#[test]
fn of_results() {
    let rows = 40_000;
    let dist: Vec<u32> = (0..rows).map(|row: u32| row.max(1)).collect();
    let size: Vec<u32> = (0..rows).map(|row| if row == 0 { rows } else { 1 }).collect();
    let flat = Table::new(&dist, &size, &dist);
    let twice = refresh(&flat, &[Record::insert(OldRow(1), OldRow(0), 0)], &flat);
    says(twice.unwrap_err(), 9, "the result has 80000 rows, more than 65535");
    let mut none = Columns::default();
    let refused = refresh_into(&T, &[], &RUN, none.lend()).unwrap_err();
    says(refused, 10, "the result has 3 rows, more than the lent columns");
    assert_eq!(refused.rows_needed(), Some(3));
}

#[test]
fn of_rows() {
    let outside = old_to_new(&T, &[], &RUN, OldRow(3)).unwrap_err();
    says(outside, 11, "row 3 is not in the table");
    let broken = Table::new(&[1, 2], &[2, 1], &[0, 0]);
    let refused = broken.parent(1).unwrap_err();
    says(refused, 12, "row 1: its numbers do not fit the table");
    assert_eq!((refused.row(), refused.record()), (Some(1), None));
}

#[test]
fn of_a_child_walk() {
    let broken = Table::new(&[1; 4], &[4, 1, 3, 1], &[0; 4]);
    let mut walk = broken.children(0).unwrap();
    assert_eq!(walk.step(), Ok(Some(1)));
    assert_eq!(walk.step(), Err(Refusal::BadRow { row: 2 }));
    assert_eq!(walk.step(), Err(Refusal::BadRow { row: 2 }));
    let given: Vec<_> = broken.children(0).unwrap().collect();
    assert_eq!(given, [Ok(1), Err(Refusal::BadRow { row: 2 })]);
}
