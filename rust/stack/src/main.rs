//! `stack`: prints how many bytes of stack each call of the library uses on its largest inputs, and
//! ends with status 1 where one uses more than it may.

use std::process::ExitCode;

use stack::calls::CALLS;
use stack::inputs::{inputs, SHAPES};
use stack::measure::{measure, ALLOWED};
use stack::painted::Painted;

fn main() -> ExitCode {
    let (inputs, mut stack) = (inputs(), Painted::unused());
    println!("| call | {} | most |", SHAPES.map(|shape| shape.name()).join(" | "));
    println!("|---|{}---:|", "---:|".repeat(SHAPES.len()));
    let mut too_many = Vec::new();
    for call in CALLS {
        let bytes = measure(call, &inputs, &mut stack);
        let most = bytes.into_iter().max().unwrap_or(0);
        println!(
            "| `{}` | {} | {most} |",
            call.name,
            bytes.map(|bytes| bytes.to_string()).join(" | ")
        );
        if most > ALLOWED {
            too_many.push(call.name);
        }
    }
    if too_many.is_empty() {
        println!("each call uses at most {ALLOWED} bytes of stack");
        ExitCode::SUCCESS
    } else {
        println!("more than {ALLOWED} bytes of stack: {}", too_many.join(", "));
        ExitCode::FAILURE
    }
}
