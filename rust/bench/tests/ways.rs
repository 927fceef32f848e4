//! All ways give the same tables and all calls answer as they should, on every shape and mix; what is
//! printed and drawn is what was measured.

use bench::call::Calls;
use bench::measure::{CallMedians, Medians};
use bench::mix::Mix;
use bench::plot::plot;
use bench::report::{calls, figures, ways};
use bench::shape::Shape;
use bench::way::Job;

#[test]
fn all_ways_agree() {
    for shape in Shape::ALL {
        for mix in Mix::ALL {
            for (rows, records) in [(2_000, 300), (300, 40), (40, 3)] {
                Job::new(shape, mix, rows, records).agree();
            }
        }
    }
}

#[test]
fn all_calls_agree() {
    for shape in Shape::ALL {
        for mix in Mix::ALL {
            Calls::new(Job::new(shape, mix, 2_000, 300)).agree();
        }
    }
}

#[test]
fn the_lists_differ() {
    for mix in Mix::ALL {
        let job = Job::new(Shape::Plan, mix, 2_000, 300);
        assert!(job.lists.windows(2).all(|pair| pair[0] != pair[1]));
    }
}

#[test]
fn every_shape_is_a_sound_table() {
    for shape in Shape::ALL {
        for rows in [1, 2, 3, 10, 1_000] {
            assert_eq!(shape.table(rows, 4).table().soundness(), Ok(rows), "{shape:?}");
        }
    }
}

#[test]
fn the_table_and_the_picture_show_the_medians() {
    let micros = [20.0, 200.0, 300.0, 61_234.0];
    let medians = Medians { shape: Shape::Comb, mix: Mix::Deletes, micros };
    let table = ways(std::slice::from_ref(&medians));
    let lines: Vec<&str> = table.lines().collect();
    assert_eq!(lines[2], "| comb | deletes | 10.0 | 1.50 | 306 | 20 | 200 | 300 | 61,234 |");
    let columns = |line: &str| line.matches('|').count();
    assert!(lines.iter().all(|line| columns(line) == columns(lines[2])));
    let picture = plot(&[medians]);
    assert!(picture.contains(">61,234<") && picture.contains(">comb<"));
}

#[test]
fn calls_are_shown_beside_the_copy() {
    let micros = [20.0, 50.0, 51.0, 60.0, 61.0, 62.0, 100.0, 1_234.0];
    let table = calls(&[CallMedians { shape: Shape::Path, micros }]);
    assert!(table.starts_with("| call | path |\n|---|---:|\n| copy | 1.00 (20) |\n"));
    assert!(table.ends_with("| new to old, all rows | 61.7 (1,234) |\n"));
}

#[test]
fn figures_show_the_worst_line() {
    let of =
        |shape, bulk| Medians { shape, mix: Mix::Inserts, micros: [20.0, bulk, 280.0, 9_000.0] };
    let all = [of(Shape::Plan, 190.0), of(Shape::Flat, 100.0), of(Shape::Path, 200.0)];
    let table = figures(&all);
    let lines: Vec<&str> = table.lines().skip(2).collect();
    assert_eq!(
        lines,
        [
            "| recompute / bulk call | all | ≥ 1 | 1.40 | path, inserts | yes |",
            "| recompute / bulk call | plan-like | ≥ 1.4 | 1.47 | plan-like, inserts | yes |",
            "| bulk call / copy | plan-like, flat | ≤ 9 | 9.50 | plan-like, inserts | 1 of 2 |",
            "| bulk call / copy | comb, path, binary | ≤ 12 | 10.0 | path, inserts | yes |",
            "| singly / bulk call | rows come or go | ≥ 25 | 45.0 | path, inserts | yes |",
        ]
    );
}
