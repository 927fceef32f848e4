//! `bench [WORD ...]`: measures every shape and mix in every way, and the other calls on every shape,
//! and prints the tables. A word that ends in `.svg` is a file for the picture. Every other word is the
//! name of a shape or of a mix, or `calls`, and narrows what is measured: `bench path inserts`.

use std::env;
use std::fs;
use std::io;
use std::process::exit;

use bench::measure::{measure, measure_calls};
use bench::mix::Mix;
use bench::plot::plot;
use bench::report::{calls, figures, ways};
use bench::shape::Shape;

const CALLS: &str = "calls";

/// The words that narrow what is measured.
struct Words(Vec<String>);

impl Words {
    /// The first word that names nothing.
    fn strange(&self) -> Option<&String> {
        let shape = |word: &str| Shape::ALL.iter().any(|shape| shape.name() == word);
        let mix = |word: &str| Mix::ALL.iter().any(|mix| mix.name() == word);
        self.0.iter().find(|word| !shape(word) && !mix(word) && *word != CALLS)
    }

    /// The shapes to be measured with this mix, or for the calls.
    fn shapes(&self, name: &str) -> Vec<Shape> {
        let wanted = |shape: &Shape| self.0.iter().all(|word| word == shape.name() || word == name);
        Shape::ALL.into_iter().filter(wanted).collect()
    }
}

fn main() -> io::Result<()> {
    let (pictures, words): (Vec<String>, Vec<String>) =
        env::args().skip(1).partition(|word| word.ends_with(".svg"));
    let words = Words(words);
    if let Some(word) = words.strange() {
        eprintln!("{word} is no shape, no mix, not `{CALLS}`, and ends not in .svg");
        exit(2);
    }
    let of_mix = |mix: Mix| words.shapes(mix.name()).into_iter().map(move |shape| (shape, mix));
    let lines: Vec<(Shape, Mix)> = Mix::ALL.into_iter().flat_map(of_mix).collect();
    let all = measure(&lines);
    if !all.is_empty() {
        println!("## The bulk call beside other ways\n\n{}", ways(&all));
    }
    let of_calls = measure_calls(&words.shapes(CALLS));
    if !of_calls.is_empty() {
        println!("## The other calls\n\n{}", calls(&of_calls));
    }
    if !all.is_empty() {
        print!("## The figures asked for\n\n{}", figures(&all));
    }
    pictures.iter().try_for_each(|path| fs::write(path, plot(&all)))
}
