//! The C functions of `include/plan.h`, and the only place with unsafe code. Each function hands
//! every slice over as its own pointer and its own length, so that no caller can pass a wrong one.
//! The lines are laid out as in `plan.h`, to be read side by side.

use crate::{Lent, Record, Table};

/// `plan_answer`.
#[derive(Clone, Copy, Debug, PartialEq, Eq)]
#[repr(C)]
pub struct Answer { pub number: u32, pub place: u32, pub count: u64 }

/// `plan_row`.
#[derive(Clone, Copy, Debug, PartialEq, Eq)]
#[repr(C)]
pub struct Row { pub number: u32, pub place: u32, pub some: u32, pub row: u64 }

/// `plan_part`.
#[derive(Clone, Copy, Debug, PartialEq, Eq)]
#[repr(C)]
pub struct Part { pub number: u32, pub place: u32, pub start: u64, pub length: u64 }

/// `plan_walk`.
#[derive(Clone, Copy, Debug, PartialEq, Eq)]
#[repr(C)]
pub struct Walk { pub number: u32, pub place: u32, pub next: u64, pub end: u64 }

/// `plan_step`.
#[derive(Clone, Copy, Debug, PartialEq, Eq)]
#[repr(C)]
pub struct Step { pub number: u32, pub place: u64, pub some: u32, pub row: u64, pub next: u64 }

/// `plan_became`.
#[derive(Clone, Copy, Debug, PartialEq, Eq)]
#[repr(C)]
pub struct Became { pub number: u32, pub place: u32, pub count: u64, pub gone: u32, pub row: u32 }

/// `plan_was`.
#[derive(Clone, Copy, Debug, PartialEq, Eq)]
#[repr(C)]
pub struct Was { pub number: u32, pub place: u32, pub count: u64, pub inserted: u32, pub record: u32, pub row: u32 }

extern "C" {
    fn plan_soundness(
        dist: *const u32, dist_length: usize, size: *const u32, size_length: usize,
        value: *const u32, value_length: usize,
    ) -> Answer;
    fn plan_parent(
        dist: *const u32, dist_length: usize, size: *const u32, size_length: usize,
        value: *const u32, value_length: usize,
        row: u32,
    ) -> Row;
    fn plan_first_child(
        dist: *const u32, dist_length: usize, size: *const u32, size_length: usize,
        value: *const u32, value_length: usize,
        row: u32,
    ) -> Row;
    fn plan_next_sibling(
        dist: *const u32, dist_length: usize, size: *const u32, size_length: usize,
        value: *const u32, value_length: usize,
        row: u32,
    ) -> Row;
    fn plan_subtree(
        dist: *const u32, dist_length: usize, size: *const u32, size_length: usize,
        value: *const u32, value_length: usize,
        row: u32,
    ) -> Part;
    fn plan_children(
        dist: *const u32, dist_length: usize, size: *const u32, size_length: usize,
        value: *const u32, value_length: usize,
        row: u32,
    ) -> Walk;
    fn plan_child(size: *const u32, size_length: usize, next: u64, end: u64) -> Step;
    fn plan_bulk(
        records: *const Record, records_length: usize,
        dist: *const u32, dist_length: usize, size: *const u32, size_length: usize,
        value: *const u32, value_length: usize,
        insert_dist: *const u32, insert_dist_length: usize, insert_size: *const u32, insert_size_length: usize,
        insert_value: *const u32, insert_value_length: usize,
        new_dist: *mut u32, new_dist_length: usize, new_size: *mut u32, new_size_length: usize,
        new_value: *mut u32, new_value_length: usize,
    ) -> Answer;
    fn plan_single(
        record: Record,
        dist: *const u32, dist_length: usize, size: *const u32, size_length: usize,
        value: *const u32, value_length: usize,
        insert_dist: *const u32, insert_dist_length: usize, insert_size: *const u32, insert_size_length: usize,
        insert_value: *const u32, insert_value_length: usize,
        new_dist: *mut u32, new_dist_length: usize, new_size: *mut u32, new_size_length: usize,
        new_value: *mut u32, new_value_length: usize,
    ) -> Answer;
    fn plan_old_to_new(
        records: *const Record, records_length: usize,
        dist: *const u32, dist_length: usize, size: *const u32, size_length: usize,
        value: *const u32, value_length: usize,
        insert_dist: *const u32, insert_dist_length: usize, insert_size: *const u32, insert_size_length: usize,
        insert_value: *const u32, insert_value_length: usize,
        row: u32,
    ) -> Became;
    fn plan_new_to_old(
        records: *const Record, records_length: usize,
        dist: *const u32, dist_length: usize, size: *const u32, size_length: usize,
        value: *const u32, value_length: usize,
        insert_dist: *const u32, insert_dist_length: usize, insert_size: *const u32, insert_size_length: usize,
        insert_value: *const u32, insert_value_length: usize,
        row: u32,
    ) -> Was;
    fn plan_map_old(
        records: *const Record, records_length: usize,
        dist: *const u32, dist_length: usize, size: *const u32, size_length: usize,
        value: *const u32, value_length: usize,
        insert_dist: *const u32, insert_dist_length: usize, insert_size: *const u32, insert_size_length: usize,
        insert_value: *const u32, insert_value_length: usize,
        new_rows: *mut u32, new_rows_length: usize,
    ) -> Answer;
    fn plan_map_new(
        records: *const Record, records_length: usize,
        dist: *const u32, dist_length: usize, size: *const u32, size_length: usize,
        value: *const u32, value_length: usize,
        insert_dist: *const u32, insert_dist_length: usize, insert_size: *const u32, insert_size_length: usize,
        insert_value: *const u32, insert_value_length: usize,
        from_records: *mut u32, from_records_length: usize, from_rows: *mut u32, from_rows_length: usize,
    ) -> Answer;
}

// Why each call below is sound: a slice's pointer is never null, is aligned and is good for its
// length; what is lent to be written is borrowed for this call alone; the structs are laid out as
// in C; and the functions read and write nothing but what they are handed.

pub fn soundness(table: &Table<'_>) -> Answer {
    unsafe {
        plan_soundness(
            table.dist().as_ptr(), table.dist().len(), table.size().as_ptr(), table.size().len(),
            table.value().as_ptr(), table.value().len(),
        )
    }
}

pub fn parent(table: &Table<'_>, row: u32) -> Row {
    unsafe {
        plan_parent(
            table.dist().as_ptr(), table.dist().len(), table.size().as_ptr(), table.size().len(),
            table.value().as_ptr(), table.value().len(),
            row,
        )
    }
}

pub fn first_child(table: &Table<'_>, row: u32) -> Row {
    unsafe {
        plan_first_child(
            table.dist().as_ptr(), table.dist().len(), table.size().as_ptr(), table.size().len(),
            table.value().as_ptr(), table.value().len(),
            row,
        )
    }
}

pub fn next_sibling(table: &Table<'_>, row: u32) -> Row {
    unsafe {
        plan_next_sibling(
            table.dist().as_ptr(), table.dist().len(), table.size().as_ptr(), table.size().len(),
            table.value().as_ptr(), table.value().len(),
            row,
        )
    }
}

pub fn subtree(table: &Table<'_>, row: u32) -> Part {
    unsafe {
        plan_subtree(
            table.dist().as_ptr(), table.dist().len(), table.size().as_ptr(), table.size().len(),
            table.value().as_ptr(), table.value().len(),
            row,
        )
    }
}

pub fn children(table: &Table<'_>, row: u32) -> Walk {
    unsafe {
        plan_children(
            table.dist().as_ptr(), table.dist().len(), table.size().as_ptr(), table.size().len(),
            table.value().as_ptr(), table.value().len(),
            row,
        )
    }
}

pub fn child(size: &[u32], next: u64, end: u64) -> Step {
    unsafe { plan_child(size.as_ptr(), size.len(), next, end) }
}

pub fn bulk(table: &Table<'_>, records: &[Record], insertions: &Table<'_>, new: Lent<'_>) -> Answer {
    unsafe {
        plan_bulk(
            records.as_ptr(), records.len(),
            table.dist().as_ptr(), table.dist().len(), table.size().as_ptr(), table.size().len(),
            table.value().as_ptr(), table.value().len(),
            insertions.dist().as_ptr(), insertions.dist().len(), insertions.size().as_ptr(), insertions.size().len(),
            insertions.value().as_ptr(), insertions.value().len(),
            new.dist.as_mut_ptr(), new.dist.len(), new.size.as_mut_ptr(), new.size.len(),
            new.value.as_mut_ptr(), new.value.len(),
        )
    }
}

pub fn single(table: &Table<'_>, record: Record, insertions: &Table<'_>, new: Lent<'_>) -> Answer {
    unsafe {
        plan_single(
            record,
            table.dist().as_ptr(), table.dist().len(), table.size().as_ptr(), table.size().len(),
            table.value().as_ptr(), table.value().len(),
            insertions.dist().as_ptr(), insertions.dist().len(), insertions.size().as_ptr(), insertions.size().len(),
            insertions.value().as_ptr(), insertions.value().len(),
            new.dist.as_mut_ptr(), new.dist.len(), new.size.as_mut_ptr(), new.size.len(),
            new.value.as_mut_ptr(), new.value.len(),
        )
    }
}

pub fn old_to_new(table: &Table<'_>, records: &[Record], insertions: &Table<'_>, row: u32) -> Became {
    unsafe {
        plan_old_to_new(
            records.as_ptr(), records.len(),
            table.dist().as_ptr(), table.dist().len(), table.size().as_ptr(), table.size().len(),
            table.value().as_ptr(), table.value().len(),
            insertions.dist().as_ptr(), insertions.dist().len(), insertions.size().as_ptr(), insertions.size().len(),
            insertions.value().as_ptr(), insertions.value().len(),
            row,
        )
    }
}

pub fn new_to_old(table: &Table<'_>, records: &[Record], insertions: &Table<'_>, row: u32) -> Was {
    unsafe {
        plan_new_to_old(
            records.as_ptr(), records.len(),
            table.dist().as_ptr(), table.dist().len(), table.size().as_ptr(), table.size().len(),
            table.value().as_ptr(), table.value().len(),
            insertions.dist().as_ptr(), insertions.dist().len(), insertions.size().as_ptr(), insertions.size().len(),
            insertions.value().as_ptr(), insertions.value().len(),
            row,
        )
    }
}

pub fn map_old(table: &Table<'_>, records: &[Record], insertions: &Table<'_>, new_rows: &mut [u32]) -> Answer {
    unsafe {
        plan_map_old(
            records.as_ptr(), records.len(),
            table.dist().as_ptr(), table.dist().len(), table.size().as_ptr(), table.size().len(),
            table.value().as_ptr(), table.value().len(),
            insertions.dist().as_ptr(), insertions.dist().len(), insertions.size().as_ptr(), insertions.size().len(),
            insertions.value().as_ptr(), insertions.value().len(),
            new_rows.as_mut_ptr(), new_rows.len(),
        )
    }
}

pub fn map_new(
    table: &Table<'_>, records: &[Record], insertions: &Table<'_>,
    from_records: &mut [u32], from_rows: &mut [u32],
) -> Answer {
    unsafe {
        plan_map_new(
            records.as_ptr(), records.len(),
            table.dist().as_ptr(), table.dist().len(), table.size().as_ptr(), table.size().len(),
            table.value().as_ptr(), table.value().len(),
            insertions.dist().as_ptr(), insertions.dist().len(), insertions.size().as_ptr(), insertions.size().len(),
            insertions.value().as_ptr(), insertions.value().len(),
            from_records.as_mut_ptr(), from_records.len(), from_rows.as_mut_ptr(), from_rows.len(),
        )
    }
}

#[cfg(test)]
mod tests {
    use super::*;

    const PLAN: Table = Table::new(&[1, 1, 2], &[3, 1, 1], &[7, 8, 9]);
    const BROKEN: Table = Table::new(&[1, 0, 2], &[3, 0, 9], &[7, 8, 9]);

    #[test]
    fn what_an_accepted_axis_says() {
        assert_eq!(parent(&PLAN, 2), Row { number: 0, place: 0, some: 1, row: 0 });
        assert_eq!(parent(&PLAN, 0), Row { number: 0, place: 0, some: 0, row: 0 });
        assert_eq!(subtree(&PLAN, 0), Part { number: 0, place: 0, start: 0, length: 3 });
        assert_eq!(children(&PLAN, 0), Walk { number: 0, place: 0, next: 1, end: 3 });
        let first = Step { number: 0, place: 0, some: 1, row: 1, next: 2 };
        assert_eq!(child(PLAN.size(), 1, 3), first);
        let none = Step { number: 0, place: 0, some: 0, row: 0, next: 3 };
        assert_eq!(child(PLAN.size(), 3, 3), none);
    }

    #[test]
    fn what_a_refused_axis_says() {
        assert_eq!(parent(&BROKEN, 1), Row { number: 12, place: 1, some: 0, row: 0 });
        assert_eq!(subtree(&BROKEN, 2), Part { number: 12, place: 2, start: 0, length: 0 });
        let refused = Step { number: 12, place: 1, some: 0, row: 0, next: 1 };
        assert_eq!(child(BROKEN.size(), 1, 3), refused);
    }

    #[test]
    fn a_walk_refused_at_its_start_gives_none() {
        let walk = children(&BROKEN, 2);
        assert_eq!((walk.number, walk.place), (12, 2));
        let step = child(BROKEN.size(), walk.next, walk.end);
        assert_eq!((step.number, step.some), (0, 0));
    }

    #[test]
    fn a_step_takes_any_numbers() {
        let stays = |place| Step { number: 12, place, some: 0, row: 0, next: place };
        assert_eq!(child(&[1, 1], 5, 9), stays(5)); // no such row
        assert_eq!(child(&[1, 1], 1, 0), stays(1)); // past the end
        assert_eq!(child(&[1, 1], u64::MAX, 0), stays(u64::MAX));
        assert_eq!(child(&[], 7, 7), Step { number: 0, place: 0, some: 0, row: 0, next: 7 });
        let long = Step { number: 0, place: 0, some: 1, row: 0, next: u32::MAX.into() };
        assert_eq!(child(&[u32::MAX], 0, u64::MAX), long);
    }

    #[test]
    fn what_the_mappings_say() {
        let records = [Record::delete(crate::OldRow(1))];
        let none = Table::empty();
        let moved = Became { number: 0, place: 0, count: 0, gone: 0, row: 1 };
        assert_eq!(old_to_new(&PLAN, &records, &none, 2), moved);
        let gone = Became { number: 0, place: 0, count: 0, gone: 1, row: 0 };
        assert_eq!(old_to_new(&PLAN, &records, &none, 1), gone);
        let outside = Became { number: 11, place: 3, count: 0, gone: 0, row: 0 };
        assert_eq!(old_to_new(&PLAN, &records, &none, 3), outside);
        let old = Was { number: 0, place: 0, count: 0, inserted: 0, record: 0, row: 2 };
        assert_eq!(new_to_old(&PLAN, &records, &none, 1), old);
    }
}
