//! The inputs are as large as they can be.

use plan::{refresh, Refusal, MOST_RECORDS, MOST_ROWS};
use stack::inputs::inputs;

#[test]
fn lists_and_results_are_the_largest() {
    for input in inputs() {
        assert_eq!(input.records.len(), MOST_RECORDS);
        let new = refresh(&input.table.table(), &input.records, &input.insertions.table());
        let number = new.as_ref().err().map_or(0, Refusal::number);
        assert_eq!(number, input.number);
        assert!(new.is_err() || new.is_ok_and(|new| new.size.len() == MOST_ROWS));
    }
}
