//! Random trees, as sound tables.

use crate::case::Columns;
use crate::random::Random;

/// What a tree looks like.
#[derive(Clone, Copy, Debug)]
pub enum Shape {
    /// Every row is the child of the row before.
    Path,
    /// Every row is a child of the root.
    Flat,
    /// A path on which every row also has a leaf.
    Comb,
    /// Rather two children than more, down to some twenty levels.
    Binary,
    /// At most six levels.
    Plan,
    /// After each row, so many of a hundred times one level up.
    Climb(usize),
}

/// Some shape.
pub fn shape(random: &mut Random) -> Shape {
    match random.below(9) {
        0 => Shape::Path,
        1 => Shape::Flat,
        2 => Shape::Comb,
        3 => Shape::Binary,
        4 => Shape::Plan,
        _ => Shape::Climb(random.between(10, 80)),
    }
}

/// A random tree of so many rows (at least one), as a sound table.
pub fn tree(random: &mut Random, rows: usize, shape: Shape) -> Columns {
    let mut columns = Columns::default();
    add_tree(random, &mut columns, rows, shape);
    columns
}

/// Adds the table of a random tree behind the rows that are there.
pub fn add_tree(random: &mut Random, columns: &mut Columns, rows: usize, shape: Shape) {
    let start = columns.size.len();
    // the last row and its ancestors, from the root on, each with the number of its children so far
    let mut line: Vec<(usize, usize)> = Vec::new();
    for row in 0..rows {
        line.truncate(levels_kept(random, &line, row, shape));
        let parent = line.last_mut().map(|(parent, children)| {
            *children += 1;
            *parent
        });
        columns.dist.push(parent.map_or(1, |parent| row - parent) as u32);
        columns.size.push(1);
        columns.value.push(random.below(1_000_000) as u32);
        line.push((row, 0));
    }
    for row in (1..rows).rev() {
        let parent = row - columns.dist[start + row] as usize;
        columns.size[start + parent] += columns.size[start + row];
    }
}

/// How many of the last row and its ancestors stay open for the next row.
fn levels_kept(random: &mut Random, line: &[(usize, usize)], row: usize, shape: Shape) -> usize {
    let most = line.len();
    if most <= 1 {
        return most;
    }
    match shape {
        Shape::Path => most,
        Shape::Flat => 1,
        Shape::Comb => most - (row + 1) % 2,
        Shape::Binary => {
            let mut kept = most.min(random.between(2, 20));
            while kept > 1 && line[kept - 1].1 == 2 {
                kept -= 1;
            }
            kept
        }
        Shape::Plan => random.between(most.min(5).saturating_sub(1).max(1), most.min(5)),
        Shape::Climb(chance) => {
            let mut kept = most;
            while kept > 1 && random.percent(chance) {
                kept -= 1;
            }
            kept
        }
    }
}
