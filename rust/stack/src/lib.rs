//! How much stack each call of the plan library takes, on its largest inputs. For x86-64.
//!
//! - `painted`: a stack filled with a pattern, and a call on it
//! - `calls`: every function of `include/plan.h`, with what it takes
//! - `inputs`: the tables and lists
//! - `measure`: the most bytes of each call

#[allow(unsafe_code)]
pub mod calls;
pub mod inputs;
pub mod measure;
#[allow(unsafe_code)]
pub mod painted;
