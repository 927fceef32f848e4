//! The most bytes that each call uses.

use plan::{Columns, MOST_ROWS};

use crate::calls::{Asked, Call, Part};
use crate::inputs::{Input, SHAPES};
use crate::painted::Painted;

/// The most bytes that a call may use below its arguments.
pub const ALLOWED: usize = 4_096;

/// The most bytes that the call used on inputs of each of [`SHAPES`].
pub fn measure(call: &Call, inputs: &[Input], stack: &mut Painted) -> [usize; 3] {
    let mut lent = Columns::of(MOST_ROWS);
    SHAPES.map(|shape| {
        let of_shape = inputs.iter().filter(|input| input.shape == shape);
        of_shape.map(|input| most(call, input, stack, &mut lent)).max().unwrap_or(0)
    })
}

fn most(call: &Call, input: &Input, stack: &mut Painted, lent: &mut Columns) -> usize {
    let has = |part| call.takes.contains(&part);
    let (record, row) = (input.records[0], 0);
    let asked: Vec<Asked> = if has(Part::Single) {
        input.singles.iter().map(|&record| Asked { record, row }).collect()
    } else if has(Part::Row) || has(Part::Walk) {
        input.rows.iter().map(|&row| Asked { record, row }).collect()
    } else {
        vec![Asked { record, row }]
    };
    let expected = if has(Part::List) { input.number } else { 0 };
    let used = asked.into_iter().map(|asked| {
        let (number, bytes) = call.make(stack, input, asked, lent);
        assert_eq!(number, expected, "what {} answers for {asked:?}", call.name);
        bytes
    });
    used.max().unwrap_or(0)
}
