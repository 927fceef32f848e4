//! What has been seen in a run.

use std::collections::BTreeMap;
use std::fmt;

use crate::library::Answer;

/// Counts of cases and answers.
#[derive(Debug, Default)]
pub struct Tally {
    /// Cases by what they are after.
    pub cases: BTreeMap<&'static str, u64>,
    /// Calls that were accepted.
    pub accepted: u64,
    /// Calls that were refused, by number.
    pub refused: [u64; 13],
    /// Lists that were accepted.
    pub lists: u64,
    /// Records in them.
    pub records: u64,
    /// Those of them that are vain.
    pub vain: u64,
}

impl Tally {
    /// Counts an answer.
    pub fn saw<T>(&mut self, answer: &Answer<T>) {
        match answer {
            Ok(_) => self.accepted += 1,
            Err(refused) => self.refused[refused.number as usize] += 1,
        }
    }
}

impl fmt::Display for Tally {
    fn fmt(&self, f: &mut fmt::Formatter<'_>) -> fmt::Result {
        let calls: u64 = self.accepted + self.refused.iter().sum::<u64>();
        writeln!(f, "{} cases", self.cases.values().sum::<u64>())?;
        for (about, cases) in &self.cases {
            writeln!(f, "  {about}: {cases}")?;
        }
        writeln!(f, "{calls} calls, each made of both")?;
        writeln!(f, "  accepted: {}", self.accepted)?;
        for (number, refused) in self.refused.iter().enumerate().skip(1) {
            writeln!(f, "  refused with {number}: {refused}")?;
        }
        let Tally { lists, records, vain, .. } = self;
        writeln!(f, "{lists} lists accepted, of {records} records, of which {vain} were vain")
    }
}
