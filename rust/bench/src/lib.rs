//! The plan library's calls beside other ways to do the same, in one run and on the same lists.
//!
//! - `shape`, `mix`: the tables and lists; `random`: the numbers that they are made from
//! - `way`: what a way to apply a list is, and the four that are measured
//! - `call`: the library's other calls, and refused lists
//! - `judge`: the published tests in safe Rust, for the ways other than the library's
//! - `singly`, `recompute`: version one's way, and all distances recomputed from the sizes
//! - `measure`: medians of many runs
//! - `figure`: the figures asked for
//! - `report`, `plot`: the tables and the picture

pub mod call;
pub mod figure;
mod judge;
pub mod measure;
pub mod mix;
pub mod plot;
mod random;
mod recompute;
pub mod report;
pub mod shape;
mod singly;
pub mod way;
