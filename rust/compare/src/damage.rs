//! Faults put into a case.

use crate::case::{Case, Columns};
use crate::library::Record;
use crate::random::Random;

/// Puts one fault into a case, or something that looks like one.
pub fn damage(random: &mut Random, case: &mut Case) {
    match random.below(14) {
        0 | 1 => number(random, &mut case.table),
        2 => length(random, &mut case.table),
        3 | 4 => number(random, &mut case.insertions),
        5 => length(random, &mut case.insertions),
        6 => one(random, case, |random, record| record.kind = odd(random, record.kind)),
        7 | 8 => one(random, case, |random, record| record.location = odd(random, record.location)),
        9 | 10 => one(random, case, |random, record| record.parent = odd(random, record.parent)),
        11 => one(random, case, |random, record| record.from = odd(random, record.from)),
        12 => swap(random, &mut case.records),
        _ => twice(random, &mut case.records),
    }
}

/// Another number: near, far, or at a limit.
pub fn odd(random: &mut Random, number: u32) -> u32 {
    match random.below(10) {
        0..=2 => number.wrapping_add(1),
        3..=5 => number.wrapping_sub(1),
        6 => random.below(8) as u32,
        7 => random.pick(&[0, 65_534, 65_535, 65_536, 1 << 31]),
        8 => u32::MAX - random.below(4) as u32,
        _ => random.next() as u32,
    }
}

/// Changes a distance or a size.
fn number(random: &mut Random, columns: &mut Columns) {
    let column = if random.percent(50) { &mut columns.dist } else { &mut columns.size };
    if !column.is_empty() {
        let row = random.below(column.len());
        column[row] = odd(random, column[row]);
    }
}

/// Makes columns differ in length, or takes a row from each.
fn length(random: &mut Random, columns: &mut Columns) {
    let longer = random.percent(30);
    let which = random.below(4);
    let Columns { dist, size, value } = columns;
    for (index, column) in [dist, size, value].into_iter().enumerate() {
        if which == 3 || which == index {
            if longer {
                column.push(1);
            } else {
                column.pop();
            }
        }
    }
}

/// Changes one record.
fn one(random: &mut Random, case: &mut Case, change: impl Fn(&mut Random, &mut Record)) {
    if !case.records.is_empty() {
        let index = random.below(case.records.len());
        change(random, &mut case.records[index]);
    }
}

/// Swaps a record with the next.
fn swap(random: &mut Random, records: &mut [Record]) {
    if records.len() >= 2 {
        let index = random.below(records.len() - 1);
        records.swap(index, index + 1);
    }
}

/// Puts a record in twice.
fn twice(random: &mut Random, records: &mut Vec<Record>) {
    if !records.is_empty() {
        let index = random.below(records.len());
        records.insert(index, records[index]);
    }
}
