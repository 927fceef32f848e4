//! The published calls, and the public functions that are none.

use promises::code::{declares, functions, words, Function};
use promises::page::{contracts, functions as listed, name, names, published, table};
use promises::{crates, files, folder, nothing_in, read};
use std::collections::BTreeSet;

/// The definitions of the kit, which a contract may cite.
const KIT: &str = "Rattle.std.specs.";

/// The definitions in `plan`.
const PLAN: &str = "Rattle.plan.specs.";

const CALLS: &str = "Published calls";
const ELSEWHERE: &str = "Definitions that stand elsewhere";
const INNER: &str = "Public functions for other crates";
const ASK: &str = "Public functions with a `requires`";
const PRINT: &str = "Helpers that only print";

type Names = BTreeSet<String>;

/// The functions of these crates.
fn all(crates: &[String]) -> Vec<Function> {
    crates.iter().flat_map(|name| functions(name)).collect()
}

/// The functions of the library.
fn library() -> Vec<Function> {
    all(&crates().0)
}

/// The functions of the library that are published.
fn calls() -> Vec<Function> {
    let published = published(&contracts());
    library().into_iter().filter(|function| published.contains(&function.name)).collect()
}

/// The crate of a function.
fn crate_of(function: &str) -> &str {
    function.split("::").next().expect("a crate and a function")
}

/// The names of functions that are so.
fn named(functions: Vec<Function>, so: impl Fn(&Function) -> bool) -> Names {
    functions.into_iter().filter(so).map(|function| function.name).collect()
}

/// Fails with what only the code has, and what only the page has.
fn same(code: &Names, page: &Names) {
    let missing = code.difference(page).map(|name| format!("not on the page: {name}"));
    let stale = page.difference(code).map(|name| format!("only on the page: {name}"));
    nothing_in(missing.chain(stale));
}

/// Is a module of the logic one of the kit's, or of the definitions in `plan`?
fn in_plan_or_kit(module: &str) -> bool {
    [PLAN, KIT].iter().any(|folder| module.starts_with(folder))
}

/// What a call's contract cites, by the name that it has where it is defined, with that place.
fn cited(call: &Function) -> Vec<(&str, &str)> {
    let words = words(call.ensures.as_deref().unwrap_or_default()).into_iter();
    let brought = words.filter_map(|word| call.brought.get(word));
    brought.map(|brought| (brought.name.as_str(), brought.module.as_str())).collect()
}

/// What a call cites or answers that stands neither in `plan` nor in the kit.
fn elsewhere(call: &Function) -> Vec<&str> {
    let cited = cited(call).into_iter().filter(|(_, module)| !in_plan_or_kit(module));
    let answered = call.types().into_iter().filter(|name| !call.uses_from("plan", name));
    cited.map(|(name, _)| name).chain(answered).collect()
}

#[test]
fn every_published_call_has_an_ensures_and_no_requires() {
    let right = |call: &Function| call.public && !call.asks && call.ensures.is_some();
    let page = published(&contracts()).into_iter().collect();
    same(&named(calls(), right), &page);
}

#[test]
fn what_published_calls_cite_and_answer_stands_in_plan_but_for_the_exceptions() {
    let line = |call: &str, name: &str| format!("{name} of {call}");
    let calls = calls();
    let code = calls
        .iter()
        .flat_map(|call| elsewhere(call).into_iter().map(|name| line(&call.name, name)));
    let rows = table(&contracts(), ELSEWHERE);
    let page = rows
        .iter()
        .flat_map(|row| names(&row[1]).into_iter().map(|other| line(&name(&row[0]), &other)));
    same(&code.collect(), &page.collect());
}

#[test]
fn the_definitions_beside_a_call_are_cited_by_its_contract() {
    let calls = calls();
    let mut wrong = Vec::new();
    for row in table(&contracts(), CALLS) {
        let Some(call) = calls.iter().find(|call| call.name == name(&row[0])) else { continue };
        let cited: Vec<&str> = cited(call).into_iter().map(|(name, _)| name).collect();
        let beside = names(&row[2]);
        if beside.is_empty() {
            wrong.push(format!("{} has no definition beside it", call.name));
        }
        let others = beside.iter().filter(|name| !cited.contains(&name.as_str()));
        wrong.extend(others.map(|other| format!("{} does not cite {other}", call.name)));
    }
    nothing_in(wrong);
}

#[test]
fn the_definitions_beside_a_call_stand_in_the_one_folder() {
    let page = contracts();
    let specs = files(&folder("plan").join("specs"), "antt");
    let specs: Vec<String> = specs.iter().map(|file| read(file)).collect();
    let excepted: Names = table(&page, ELSEWHERE).iter().flat_map(|row| names(&row[1])).collect();
    let beside: Names = table(&page, CALLS).iter().flat_map(|row| names(&row[2])).collect();
    let declared = |name: &String| specs.iter().any(|text| declares(text, name));
    nothing_in(beside.difference(&excepted).filter(|name| !declared(name)).cloned());
}

#[test]
fn the_exports_are_the_published_calls_for_c_with_their_clauses() {
    let told = |function: &Function| {
        let name = function.name.rsplit("::").next().unwrap_or_default();
        let clauses = function.ensures.as_deref().unwrap_or_default();
        format!("{name} -> {}\n{clauses}", function.answers)
    };
    let exports: Names = library().iter().filter(|function| function.exported).map(told).collect();
    assert!(exports.len() >= 13);
    let calls = calls();
    let for_c = calls.iter().filter(|call| crate_of(&call.name) == "plan_c");
    same(&exports, &for_c.map(told).collect());
}

#[test]
fn a_crate_with_published_calls_publishes_all_public_functions_that_ask_nothing() {
    let page = contracts();
    let published: Names = published(&page).into_iter().collect();
    let users: BTreeSet<&str> = published.iter().map(|call| crate_of(call)).collect();
    let open = |f: &Function| f.public && !f.asks && users.contains(crate_of(&f.name));
    let inner: Names = named(library(), open).difference(&published).cloned().collect();
    same(&inner, &listed(&page, INNER).into_iter().collect());
}

#[test]
fn the_public_functions_that_ask_are_those_listed() {
    let asking = named(library(), |function| function.public && function.asks);
    same(&asking, &listed(&contracts(), ASK).into_iter().collect());
}

#[test]
fn the_public_helpers_of_programs_are_those_listed() {
    let helpers = named(all(&crates().1), |function| function.public && function.ensures.is_none());
    same(&helpers, &listed(&contracts(), PRINT).into_iter().collect());
}

#[test]
fn no_public_function_of_the_library_lacks_a_contract() {
    nothing_in(named(library(), |function| function.public && function.ensures.is_none()));
}
