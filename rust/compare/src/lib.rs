//! Holds the plan library against the independent one: random, damaged and adversarial cases, every
//! public call, answers and all columns, what rows behind a result hold, and that a refusal writes
//! nothing.
//!
//! - `library`: the calls, as a trait that both have; `second` and `ours` implement it
//! - `random`, `trees`, `lists`, `damage`: what cases are made of
//! - `case`: one case; `small`, `full`: where cases come from
//! - `check`: one case, every call; `tally`: what has been seen
//! - `shrink`: a case that differs, made small

pub mod case;
pub mod check;
mod damage;
pub mod full;
pub mod library;
mod lists;
#[cfg(feature = "library")]
pub mod ours;
mod random;
pub mod run;
pub mod second;
pub mod shrink;
pub mod small;
pub mod tally;
mod trees;
