//! The functions of a crate, with their contracts and the names that their files bring in from the logic.

use crate::{files, folder, read};
use std::collections::{BTreeMap, BTreeSet};
use std::path::Path;

/// A function, as the code has it.
pub struct Function {
    /// `crate::module::function`, with the type or the trait where it stands in an `impl` or a `trait`.
    pub name: String,
    /// Is it `pub`, or one of a `pub trait`?
    pub public: bool,
    /// Is it exported to C?
    pub exported: bool,
    /// Has it a `requires`?
    pub asks: bool,
    /// Its `ensures`, where it has one.
    pub ensures: Option<String>,
    /// The type that it answers.
    pub answers: String,
    /// What the `ghost use` lines of its file bring in.
    pub brought: BTreeMap<String, Brought>,
    /// What the `use` lines of its file bring in, as they are written.
    pub uses: BTreeSet<String>,
}

impl Function {
    /// The names of types in its answer, but for those that Rust has without a `use`.
    pub fn types(&self) -> Vec<&str> {
        let words = self.answers.split(|c: char| !c.is_alphanumeric() && c != '_');
        let types = words.filter(|word| word.starts_with(char::is_uppercase));
        types.filter(|word| !["Option", "Result"].contains(word)).collect()
    }

    /// Does its file bring this type in from the crate or one of its modules?
    pub fn uses_from(&self, crate_name: &str, name: &str) -> bool {
        let of_crate = |path: &&String| path.split("::").next() == Some(crate_name);
        self.uses.iter().filter(of_crate).any(|path| path.rsplit("::").next() == Some(name))
    }
}

/// A name of the logic: the module that it is from, and what it is called there.
pub struct Brought {
    /// The module.
    pub module: String,
    /// Its name there.
    pub name: String,
}

/// All functions of a crate.
pub fn functions(name: &str) -> Vec<Function> {
    let source = folder(name).join("src");
    files(&source, "rt")
        .iter()
        .flat_map(|file| in_file(&module(name, &source, file), &read(file)))
        .collect()
}

/// The module of a file.
fn module(name: &str, source: &Path, file: &Path) -> String {
    let inner = file.strip_prefix(source).expect("a file of the crate").with_extension("");
    let parts = inner.iter().map(|part| part.to_string_lossy().into_owned());
    let parts = parts.filter(|part| part != "lib" && part != "main");
    std::iter::once(name.to_string()).chain(parts).collect::<Vec<_>>().join("::")
}

/// The functions of one file.
fn in_file(module: &str, text: &str) -> Vec<Function> {
    let mut found = Vec::new();
    let mut scope = module.to_string();
    let mut for_all = false;
    let lines: Vec<&str> = text.lines().collect();
    for (place, line) in lines.iter().enumerate() {
        if line.starts_with("impl") {
            scope = format!("{module}::{}", implemented(line));
        } else if let Some(name) = line.strip_prefix("pub trait ") {
            let end = name.find(|c: char| !c.is_alphanumeric()).expect("a trait has a body");
            scope = format!("{module}::{}", &name[..end]);
            for_all = true;
        } else if *line == "}" {
            scope = module.to_string();
            for_all = false;
        }
        let Some((before, after)) = line.split_once("fn ") else { continue };
        let words: Vec<&str> = before.split_whitespace().collect();
        if !words.iter().all(|word| ["pub", "extern", "\"C\""].contains(word)) {
            continue;
        }
        let end = after.find(['(', '<']).expect("a function has parameters");
        let contract = contract(&lines[place..]);
        found.push(Function {
            name: format!("{scope}::{}", &after[..end]),
            public: for_all || words.contains(&"pub"),
            exported: words.contains(&"extern"),
            asks: clauses(&contract, "requires").is_some(),
            ensures: clauses(&contract, "ensures"),
            answers: answers(&contract),
            brought: brought(text),
            uses: uses(text),
        });
    }
    found
}

/// The type of an `impl` line.
fn implemented(line: &str) -> &str {
    let head =
        line.trim_end_matches('{').split_whitespace().last().expect("an `impl` names a type");
    head.split('<').next().expect("a type has a name")
}

/// A function's head: the lines from its first up to its body, which starts on a line of its own behind a contract, and
/// else on the line that ends the parameters; a function of a `trait` ends with its head.
fn contract(lines: &[&str]) -> String {
    let mut head = Vec::new();
    for line in lines.iter().take_while(|line| line.trim() != "{") {
        head.push(*line);
        let opens = line.ends_with('{') && (head.len() == 1 || line.trim_start().starts_with(')'));
        if opens || line.ends_with(';') {
            break;
        }
    }
    head.join("\n")
}

/// Is it a line on which a clause of this kind starts?
fn is_clause(line: &str, kind: &str) -> bool {
    let behind = line.trim_start().strip_prefix(kind);
    let name = behind.and_then(|rest| rest.split_once('{')).map(|(name, _)| name);
    name.is_some_and(|name| name.starts_with([' ', '*']))
}

/// The clauses of a kind in a head, from the first of them on: `ensures { .. }`, `ensures* { .. }` or, where a function
/// has several, `ensures name { .. }`.
fn clauses(head: &str, kind: &str) -> Option<String> {
    let lines: Vec<&str> = head.lines().collect();
    let first = lines.iter().position(|line| is_clause(line, kind))?;
    let (_, rest) = lines[first].split_once('{')?;
    Some(std::iter::once(&rest).chain(&lines[first + 1..]).copied().collect::<Vec<_>>().join("\n"))
}

/// The type behind a head's last arrow; what a closure among its parameters answers stands behind an earlier one.
fn answers(head: &str) -> String {
    let clauses = ["requires", "ensures"];
    let starts = |line: &&str| clauses.iter().any(|kind| is_clause(line, kind));
    let parameters: Vec<&str> = head.lines().take_while(|line| !starts(line)).collect();
    let parameters = parameters.join("\n");
    let behind = parameters.rsplit_once("-> ").and_then(|(_, rest)| rest.lines().next());
    behind.unwrap_or("()").trim_end_matches(['{', ';']).trim().to_string()
}

/// What the `use` lines of a file bring in, each name with its path.
fn uses(text: &str) -> BTreeSet<String> {
    let mut all = BTreeSet::new();
    for line in text.split(';').filter_map(|part| part.trim_start().strip_prefix("use ")) {
        match line.split_once("::{") {
            Some((path, names)) => {
                let names = names.trim_end_matches('}').split(',').map(str::trim);
                let names = names.filter(|name| !name.is_empty());
                all.extend(names.map(|name| format!("{path}::{name}")));
            }
            None => {
                all.insert(line.to_string());
            }
        }
    }
    all
}

/// What the `ghost use` lines of a file bring in, by the name that it has in the file.
fn brought(text: &str) -> BTreeMap<String, Brought> {
    let mut all = BTreeMap::new();
    for line in text.split(';').filter_map(|part| part.trim_start().rsplit_once("ghost use ")) {
        let Some((module, names)) = line.1.split_once(".{") else { continue };
        for name in names.trim_end_matches('}').split(',') {
            let (name, here) = name.split_once(" as ").unwrap_or((name, name));
            let brought = Brought { module: module.to_string(), name: name.trim().to_string() };
            all.insert(bare(here).to_string(), brought);
        }
    }
    all
}

/// An operator without the marks for its arguments: `◌≡◌` is `≡`.
fn bare(name: &str) -> &str {
    name.trim().trim_matches('◌')
}

/// The words of a contract; a field, as in `t.size` or `(table d s v).size`, is none.
pub fn words(text: &str) -> BTreeSet<&str> {
    let parts = text.split(|c: char| c.is_whitespace() || "(){},⌜⌝".contains(c));
    parts.filter_map(|word| word.split('.').next()).filter(|word| !word.is_empty()).collect()
}

/// The code of a file without its comments, which a mark begins.
pub fn without_comments(text: &str, mark: &str) -> String {
    text.lines()
        .map(|line| line.split(mark).next().unwrap_or_default())
        .collect::<Vec<_>>()
        .join("\n")
}

/// Does a file of the logic declare this name, for others to use?
pub fn declares(text: &str, name: &str) -> bool {
    let kinds = ["pub", "abbrev", "unfoldable", "record", "data"];
    text.lines().filter(|line| line.contains("pub ")).any(|line| {
        let mut words = line.split_whitespace().skip_while(|word| kinds.contains(word));
        words.next() == Some(name)
    })
}

/// The theorems of a file of the logic that others may use.
pub fn theorems(text: &str) -> Vec<String> {
    let lines = text.lines().filter_map(|line| line.trim_start().strip_prefix("pub "));
    lines
        .filter_map(|line| Some(line.split_once(" :")?.0))
        .filter(|name| !name.contains(' '))
        .map(str::to_string)
        .collect()
}

#[cfg(test)]
mod tests {
    use super::*;

    const FILE: &str = "use plan::{
    Found, Walk,
};
use plan::refusal::Misfit;
ghost use Rattle.std.specs.Prelude.{◌≤◌};
ghost use Rattle.plan.specs.Axes.{parent as parent_of, first, size, leb, ◌⊕◌};
impl<'a> Walker<'a> {
    pub fn step<L: Records>(&mut self, f: impl Fn(u32) -> bool) -> Result<Option<Walk<'a>>, Misfit>
        requires low { 0 ≤ 1 }
        ensures is_parent { result ≡ parent_of t.leb }
        ensures* { λ a. ⌜ a ≡ (first t).size ⌝ }
    {
        ensures
    }
}
fn plain(
    x: u32,
) -> u32 {
    x
}
#[unsafe(no_mangle)]
pub extern \"C\" fn given() -> u32
    ensures { result ≡ 0 }
{
    0
}
pub trait Records {
    ghost list: { Self → List Record };
    fn record(&self, j: usize) -> Record
        requires { j < length (list self.now) };
    fn len(&self) -> usize
        ensures { result ≡ length (list self.now) };
}
fn last() {}
";

    #[test]
    fn functions_are_found_with_their_contracts() {
        let found = in_file("c::walker", FILE);
        let names: Vec<&str> = found.iter().map(|function| function.name.as_str()).collect();
        let methods = ["c::walker::Records::record", "c::walker::Records::len"];
        assert_eq!(names[..3], ["c::walker::Walker::step", "c::walker::plain", "c::walker::given"]);
        assert_eq!(names[3..5], methods);
        assert_eq!(names[5..], ["c::walker::last"]);
        assert!(found[0].public && found[0].asks && !found[0].exported);
        assert!(found[1].ensures.is_none() && !found[1].public && !found[1].asks);
        assert!(found[2].ensures.is_some() && found[2].exported && !found[2].asks);
        assert!(found[3].public && found[3].asks && found[3].ensures.is_none());
        assert!(found[4].public && !found[4].asks && found[4].ensures.is_some());
        assert!(!found[5].public);
        assert_eq!([&found[1].answers, &found[4].answers], ["u32", "usize"]);
        assert_eq!(found[0].types(), ["Walk", "Misfit"]);
        assert!(found[0].uses_from("plan", "Walk") && found[0].uses_from("plan", "Misfit"));
        assert!(!found[0].uses_from("plan", "Row") && !found[0].uses_from("Found", "Found"));
        assert_eq!(found[0].brought["parent_of"].name, "parent");
        assert_eq!(found[0].brought["⊕"].module, "Rattle.plan.specs.Axes");
        let ensures = found[0].ensures.as_deref().expect("a contract");
        assert!(["parent_of", "first", "≡"].iter().all(|word| words(ensures).contains(word)));
        assert!(["leb", "size"].iter().all(|word| !words(ensures).contains(word)));
    }

    #[test]
    fn declarations_are_found() {
        assert!(declares("abbrev pub most_rows : ℕ\nmost_rows = 1", "most_rows"));
        assert!(declares("  pub record Done (t : Table) : Type 0 where", "Done"));
        assert!(!declares("own : ℕ\npub other : own", "own"));
        let text = "abbrev pub meant : Table\n  pub new-table :\npub record R : Type 0 where";
        assert_eq!(theorems(text), ["new-table"]);
    }
}
