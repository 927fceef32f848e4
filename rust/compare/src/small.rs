//! Small cases: a few rows, a few records, every call asked about every row.

use crate::case::{Case, Columns};
use crate::damage::{damage, odd};
use crate::lists::{list, outcome, runs, unused, Style};
use crate::random::Random;
use crate::trees::{add_tree, shape, tree};

/// The small case of this number in the run of this seed.
pub fn small(seed: u64, number: u64) -> Case {
    let random = &mut Random::new(seed, number);
    let mut case = match random.below(20) {
        0 => raw(random),
        1..=8 => listed(random, "anywhere", Style::Mixed),
        9..=12 => listed(random, "ties at one location", Style::Ties),
        13..=15 => listed(random, "ends of several levels", Style::Ends),
        _ => listed(random, "vain records", Style::Vain),
    };
    if random.percent(40) {
        case.about = "damaged";
        for _ in 0..random.between(1, 3) {
            damage(random, &mut case);
        }
    }
    rooms(random, &mut case);
    asked(random, &mut case);
    case
}

/// A sound table with an accepted list.
fn listed(random: &mut Random, about: &'static str, style: Style) -> Case {
    let rows = match random.below(10) {
        0..=3 => random.between(1, 6),
        4..=8 => random.between(5, 16),
        _ => random.between(15, 40),
    };
    let shape = shape(random);
    let table = tree(random, rows, shape);
    let insertions = insertions(random);
    let stops = random.pick(&[1, 2, 3, 5, 8]);
    let runs = runs(insertions.table());
    let records = list(random, table.table(), &runs, style, stops);
    Case::of(about, table, records, insertions)
}

/// A few trees, one behind another.
fn insertions(random: &mut Random) -> Columns {
    let mut columns = Columns::default();
    for _ in 0..random.below(4) {
        let (rows, shape) = (random.between(1, 5), shape(random));
        add_tree(random, &mut columns, rows, shape);
    }
    columns
}

/// Any numbers in every place.
fn raw(random: &mut Random) -> Case {
    let rows = random.below(6);
    let mut column = |most: usize| -> Vec<u32> {
        let number = |_| match random.below(12) {
            0 => odd(random, 0),
            _ => random.below(most + 2) as u32,
        };
        (0..rows).map(number).collect()
    };
    let table = Columns { dist: column(rows), size: column(rows), value: column(9) };
    let insertions = insertions(random);
    let mut record = || {
        let (kind, location) = (random.below(6) as u32, random.below(rows + 2));
        unused(random, kind, location)
    };
    let records = vec![record(), record()];
    Case::of("any numbers", table, records, insertions)
}

/// Lent columns: rather just enough, or longer, or too short, or of different lengths.
pub fn rooms(random: &mut Random, case: &mut Case) {
    let (_, needed) = outcome(case.table.table(), &case.records, case.insertions.table());
    let most = case.table.longest() + case.records.len() * case.insertions.longest();
    let needed = needed.min(most).min(70_000);
    let mut room = |needed: usize| match random.below(8) {
        0 | 1 => needed,
        2 => needed.saturating_sub(1),
        3 => random.below(needed + 1),
        _ => needed + random.between(1, 5),
    };
    case.room = [room(needed); 3];
    case.room_old = room(case.table.size.len());
    case.room_new = [room(needed); 2];
    if random.percent(3) {
        case.room[random.below(3)] += random.between(1, 2);
    }
    if random.percent(3) {
        case.room_new[random.below(2)] += 1;
    }
}

/// Every row and some that are none for the axes; a few rows for the mappings; a record singly.
fn asked(random: &mut Random, case: &mut Case) {
    let rows = case.table.longest();
    case.rows = (0..=rows as u32).collect();
    case.rows.push(odd(random, rows as u32));
    let (_, new_rows) = outcome(case.table.table(), &case.records, case.insertions.table());
    case.mapped = vec![
        random.below(rows + 1) as u32,
        random.below(new_rows + 1) as u32,
        odd(random, rows.max(new_rows) as u32),
    ];
    if !case.records.is_empty() {
        let index = random.below(case.records.len());
        case.singles.push(case.records[index]);
    }
}
