//! The tables: trees of five shapes.

use plan::Columns;

use crate::random::Random;

/// What a tree looks like.
#[derive(Clone, Copy, Debug, PartialEq, Eq)]
pub enum Shape {
    /// Six levels, about nine children to a row: a seeding plan.
    Plan,
    /// Every row is a child of the root.
    Flat,
    /// A path on which every row also has a leaf.
    Comb,
    /// Every row is the child of the row before.
    Path,
    /// Two children to a row, of equal size.
    Binary,
}

impl Shape {
    /// All of them.
    pub const ALL: [Shape; 5] = [Shape::Plan, Shape::Flat, Shape::Comb, Shape::Path, Shape::Binary];

    /// Its name in tables and pictures.
    pub fn name(self) -> &'static str {
        match self {
            Shape::Plan => "plan-like",
            Shape::Flat => "flat",
            Shape::Comb => "comb",
            Shape::Path => "path",
            Shape::Binary => "binary",
        }
    }

    /// A table of so many rows.
    pub fn table(self, rows: usize, seed: u64) -> Columns {
        let parents = match self {
            Shape::Plan => plan_like(rows, &mut Random(seed)),
            Shape::Flat => vec![0; rows],
            Shape::Comb => (0..rows).map(|row| row.saturating_sub(2 - row % 2)).collect(),
            Shape::Path => (0..rows).map(|row| row.saturating_sub(1)).collect(),
            Shape::Binary => binary(rows),
        };
        from_parents(&parents)
    }
}

const LEVELS: usize = 6;
const CHILDREN: usize = 9;

/// Each row goes as deep as it may, but one time in nine a level higher than the one before.
fn plan_like(rows: usize, random: &mut Random) -> Vec<usize> {
    let mut parents = vec![0; rows];
    let mut line = vec![0];
    for (row, parent) in parents.iter_mut().enumerate().skip(1) {
        line.truncate(LEVELS - 1);
        while line.len() > 1 && random.below(CHILDREN) == 0 {
            line.pop();
        }
        *parent = line[line.len() - 1];
        line.push(row);
    }
    parents
}

/// The rows below each row are halved between two children.
fn binary(rows: usize) -> Vec<usize> {
    let mut parents = vec![0; rows];
    let mut parts = vec![(0, 0, rows)];
    while let Some((parent, row, size)) = parts.pop() {
        if size > 0 {
            parents[row] = parent;
            let first = size / 2;
            parts.push((row, row + 1, first));
            parts.push((row, row + 1 + first, size - 1 - first));
        }
    }
    parents
}

/// The table in which every row but 0 has the parent given; values are row numbers.
pub fn from_parents(parents: &[usize]) -> Columns {
    let rows = parents.len();
    let mut columns = Columns::of(rows);
    columns.size.fill(1);
    for row in (1..rows).rev() {
        columns.dist[row] = (row - parents[row]) as u32;
        columns.size[parents[row]] += columns.size[row];
    }
    columns.dist[0] = 1;
    columns.value = (0..rows as u32).collect();
    columns
}
