//! Medians of many runs.

use std::array;
use std::hint::black_box;
use std::time::{Duration, Instant};

use crate::call::{Call, Calls};
use crate::mix::Mix;
use crate::shape::Shape;
use crate::way::{Job, Way, LISTS};

/// Rows of the table.
pub const ROWS: usize = 60_000;
/// Records of each list.
pub const RECORDS: usize = 1_024;

/// How many passes are made over all that is measured: a while in which the machine is slow then falls on
/// a part of each line's runs.
const PASSES: usize = 5;
/// How often each way goes through the lists in a pass; once where a run takes long.
const ROUNDS: usize = 20;
const LONG: Duration = Duration::from_millis(2);

/// The medians of one shape and one mix, in microseconds.
#[derive(Clone, Debug)]
pub struct Medians {
    /// The shape of the table.
    pub shape: Shape,
    /// The mix of the lists.
    pub mix: Mix,
    /// One for each way, in the order of [`Way::ALL`].
    pub micros: [f64; 4],
}

impl Medians {
    /// The median of one way.
    pub fn of(&self, way: Way) -> f64 {
        self.micros[way as usize]
    }

    /// How many times as long one way takes as another.
    pub fn ratio(&self, over: Way, under: Way) -> f64 {
        self.of(over) / self.of(under)
    }
}

/// The medians of all calls on one shape, with mixed lists, in microseconds.
#[derive(Clone, Debug)]
pub struct CallMedians {
    /// The shape of the table.
    pub shape: Shape,
    /// One for each call, in the order of [`Call::ALL`].
    pub micros: [f64; 8],
}

impl CallMedians {
    /// The median of one call.
    pub fn of(&self, call: Call) -> f64 {
        self.micros[call as usize]
    }
}

/// Measures shapes and mixes, once all ways are seen to give the same tables.
pub fn measure(lines: &[(Shape, Mix)]) -> Vec<Medians> {
    let mut jobs: Vec<Job> =
        lines.iter().map(|&(shape, mix)| Job::new(shape, mix, ROWS, RECORDS)).collect();
    jobs.iter_mut().for_each(Job::agree);
    let medians = medians(&mut jobs, Way::ALL, |job, way, list| {
        black_box(job.run(way, list));
    });
    let line = |(&(shape, mix), micros)| Medians { shape, mix, micros };
    lines.iter().zip(medians).map(line).collect()
}

/// Measures all calls on some shapes, once they are seen to answer as they should.
pub fn measure_calls(shapes: &[Shape]) -> Vec<CallMedians> {
    let job = |&shape: &Shape| Job::new(shape, Mix::Mixed, ROWS, RECORDS);
    let mut jobs: Vec<Calls> = shapes.iter().map(|shape| Calls::new(job(shape))).collect();
    jobs.iter_mut().for_each(Calls::agree);
    let medians = medians(&mut jobs, Call::ALL, |calls, call, list| {
        black_box(calls.ask(call, list)).ok();
    });
    let line = |(&shape, micros)| CallMedians { shape, micros };
    shapes.iter().zip(medians).map(line).collect()
}

/// For each job the median times of all things that are run. In each pass the jobs take turns, for each
/// job the lists, and for each list the things.
fn medians<J, T: Copy, const N: usize>(
    jobs: &mut [J],
    things: [T; N],
    run: impl Fn(&mut J, T, usize),
) -> Vec<[f64; N]> {
    let none = || -> [Vec<Duration>; N] { array::from_fn(|_| Vec::new()) };
    let mut all: Vec<[Vec<Duration>; N]> = jobs.iter().map(|_| none()).collect();
    for _ in 0..PASSES {
        for (job, times) in jobs.iter_mut().zip(&mut all) {
            for turn in 0..ROUNDS * LISTS {
                let (round, list) = (turn / LISTS, turn % LISTS);
                for (thing, times) in things.into_iter().zip(times.iter_mut()) {
                    if round == 0 || times[0] < LONG {
                        let start = Instant::now();
                        run(job, black_box(thing), list);
                        times.push(start.elapsed());
                    }
                }
            }
        }
    }
    all.into_iter().map(|times| times.map(median)).collect()
}

fn median(mut times: Vec<Duration>) -> f64 {
    times.sort_unstable();
    times[times.len() / 2].as_secs_f64() * 1e6
}
