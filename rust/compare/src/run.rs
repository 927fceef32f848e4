//! A whole run: cases of both sizes, the first difference made small.

use std::cell::Cell;
use std::panic::{self, AssertUnwindSafe};

use crate::case::Case;
use crate::check::{check, Difference};
use crate::full::full;
use crate::library::Library;
use crate::shrink::shrink;
use crate::small::small;
use crate::tally::Tally;

/// To so many small cases comes one of full size.
const SMALL_TO_ONE_FULL: u64 = 500;

/// A difference, with the smallest case found that shows it.
#[derive(Debug)]
pub struct Found {
    /// The first case that differed, counted within its size.
    pub number: u64,
    /// Where the two differ on the small case.
    pub difference: Difference,
    /// The small case.
    pub case: Case,
}

/// Compares on so many small cases and the cases of full size that go with them.
pub fn run(
    right: &impl Library,
    ours: &impl Library,
    rounds: u64,
    seed: u64,
) -> Result<Tally, Box<Found>> {
    let mut tally = Tally::default();
    for number in 0..rounds {
        examine(right, ours, number, small(seed, number), &mut tally)?;
    }
    for number in 0..rounds.div_ceil(SMALL_TO_ONE_FULL) {
        examine(right, ours, number, full(seed, number), &mut tally)?;
    }
    Ok(tally)
}

/// Compares on one case.
fn examine(
    right: &impl Library,
    ours: &impl Library,
    number: u64,
    case: Case,
    tally: &mut Tally,
) -> Result<(), Box<Found>> {
    if guarded(&case, right, ours, tally).is_ok() {
        return Ok(());
    }
    let differs = |case: &Case| guarded(case, right, ours, &mut Tally::default()).err();
    let (case, difference) = shrink(case, differs);
    Err(Box::new(Found { number, difference, case }))
}

thread_local! {
    static CHECKING: Cell<bool> = const { Cell::new(false) };
}

/// Is a case being checked, so that a panic is told as a difference?
pub fn checking() -> bool {
    CHECKING.get()
}

/// A check in which a panic is a difference too.
fn guarded(
    case: &Case,
    right: &impl Library,
    ours: &impl Library,
    tally: &mut Tally,
) -> Result<(), Difference> {
    CHECKING.set(true);
    let checked = panic::catch_unwind(AssertUnwindSafe(|| check(case, right, ours, tally)));
    CHECKING.set(false);
    checked.unwrap_or_else(|cause| {
        let words = cause.downcast_ref::<String>().map(String::as_str);
        let words = words.or(cause.downcast_ref::<&str>().copied()).unwrap_or("no words");
        let right = "an answer".into();
        Err(Difference { call: "a call that panics".into(), right, ours: words.into() })
    })
}
