//! Every function that `include/plan.h` declares is measured, with the arguments that it takes.

use stack::calls::{Answer, Call, CALLS};

const HEADER: &str = include_str!("../../../include/plan.h");

/// A function: its name, whether it hands back a `plan_answer`, and how many parameters it has.
type Declared = (String, bool, usize);

fn declared() -> Vec<Declared> {
    let mut text = String::new();
    for (place, part) in HEADER.split("/*").enumerate() {
        text.push_str(if place == 0 {
            part
        } else {
            part.split_once("*/").expect("a comment ends").1
        });
    }
    let mut all = Vec::new();
    for declaration in text.split(';') {
        let Some((head, parameters)) = declaration.split_once('(') else { continue };
        let mut words = head.split_whitespace().rev();
        let name = words.next().expect("a function has a name");
        let answer = words.next().expect("a function hands something back");
        all.push((name.to_string(), answer == "plan_answer", parameters.split(',').count()));
    }
    all
}

#[test]
fn every_declared_function_is_measured() {
    let measured = |call: &Call| {
        let parameters = call.takes.iter().map(|part| part.parameters()).sum();
        (call.name.to_string(), call.answer == Answer::Short, parameters)
    };
    let mut measured: Vec<Declared> = CALLS.iter().map(measured).collect();
    let mut declared = declared();
    measured.sort();
    declared.sort();
    assert!(declared.len() >= 13);
    assert_eq!(measured, declared);
}
