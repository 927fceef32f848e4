//! The figures asked for: each is a bound on a ratio, for some shapes and mixes.

use crate::measure::Medians;
use crate::mix::Mix;
use crate::shape::Shape;
use crate::way::Way;

/// A bound on how many times as long one way takes as another.
#[derive(Clone, Copy, Debug)]
pub struct Figure {
    /// The way that is divided, and the way that it is divided by.
    pub ratio: (Way, Way),
    /// For which shapes and mixes, in words.
    pub words: &'static str,
    /// For which shapes and mixes.
    holds_for: fn(Shape, Mix) -> bool,
    /// The bound.
    pub bound: Bound,
}

/// From which side a ratio is bounded.
#[derive(Clone, Copy, Debug)]
pub enum Bound {
    /// It is to be so much or more.
    Least(f64),
    /// It is to be so much or less.
    Most(f64),
}

impl Figure {
    /// All of them.
    pub const ALL: [Figure; 6] = [
        Figure {
            ratio: (Way::Recompute, Way::Bulk),
            words: "all",
            holds_for: |_, _| true,
            bound: Bound::Least(1.0),
        },
        Figure {
            ratio: (Way::Recompute, Way::Bulk),
            words: "plan-like",
            holds_for: |shape, _| shape == Shape::Plan,
            bound: Bound::Least(1.4),
        },
        Figure {
            ratio: (Way::Bulk, Way::Copy),
            words: "plan-like, flat",
            holds_for: |shape, _| matches!(shape, Shape::Plan | Shape::Flat),
            bound: Bound::Most(9.0),
        },
        Figure {
            ratio: (Way::Bulk, Way::Copy),
            words: "comb, path, binary",
            holds_for: |shape, _| !matches!(shape, Shape::Plan | Shape::Flat),
            bound: Bound::Most(12.0),
        },
        Figure {
            ratio: (Way::Bulk, Way::Singly),
            words: "renames on plan-like, flat, binary",
            holds_for: |shape, mix| {
                mix == Mix::Renames && matches!(shape, Shape::Plan | Shape::Flat | Shape::Binary)
            },
            bound: Bound::Most(1.3),
        },
        Figure {
            ratio: (Way::Singly, Way::Bulk),
            words: "rows come or go",
            holds_for: |_, mix| mix != Mix::Renames,
            bound: Bound::Least(25.0),
        },
    ];

    /// The lines that it is about, each with its ratio, the worst first.
    pub fn lines<'a>(&self, all: &'a [Medians]) -> Vec<(&'a Medians, f64)> {
        let (over, under) = self.ratio;
        let concerned = all.iter().filter(|medians| (self.holds_for)(medians.shape, medians.mix));
        let ratios = concerned.map(|medians| (medians, medians.ratio(over, under)));
        let mut lines: Vec<(&Medians, f64)> = ratios.collect();
        lines.sort_by(|left, right| left.1.total_cmp(&right.1));
        if let Bound::Most(_) = self.bound {
            lines.reverse();
        }
        lines
    }
}

impl Bound {
    /// Whether a ratio is on the right side.
    pub fn met(self, ratio: f64) -> bool {
        match self {
            Bound::Least(least) => ratio >= least,
            Bound::Most(most) => ratio <= most,
        }
    }
}
