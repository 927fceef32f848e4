//! The tables that the bench prints, in Markdown.

use crate::call::Call;
use crate::figure::{Bound, Figure};
use crate::measure::{CallMedians, Medians};
use crate::way::Way;

/// The ratios that every line shows.
const RATIOS: [(Way, Way); 3] =
    [(Way::Bulk, Way::Copy), (Way::Recompute, Way::Bulk), (Way::Singly, Way::Bulk)];

/// The table of ways: ratios, then times.
pub fn ways(all: &[Medians]) -> String {
    let (ratios, ways) = (RATIOS.map(name).join(" | "), Way::ALL.map(Way::name).join(" | "));
    let mut table =
        format!("| shape | mix | {ratios} | {ways} |\n|---|---|{}\n", "---:|".repeat(7));
    for medians in all {
        let (shape, mix) = (medians.shape.name(), medians.mix.name());
        let ratios = RATIOS.map(|(over, under)| ratio(medians.ratio(over, under))).join(" | ");
        let micros = medians.micros.map(rounded).join(" | ");
        table += &format!("| {shape} | {mix} | {ratios} | {micros} |\n");
    }
    table
}

/// The table of calls: how many times as long as the copy, and the time in brackets.
pub fn calls(all: &[CallMedians]) -> String {
    let line = |name: &str, cell: &dyn Fn(&CallMedians) -> String| {
        let cells: Vec<String> = all.iter().map(cell).collect();
        format!("| {name} | {} |\n", cells.join(" | "))
    };
    let mut table = line("call", &|medians| medians.shape.name().to_string());
    table += &format!("|---|{}\n", "---:|".repeat(all.len()));
    for call in Call::ALL {
        table += &line(call.name(), &|medians| {
            let (micros, copy) = (medians.of(call), medians.of(Call::Copy));
            format!("{} ({})", ratio(micros / copy), rounded(micros))
        });
    }
    table
}

/// The table of figures: for each the worst line, and whether all lines meet it.
pub fn figures(all: &[Medians]) -> String {
    let mut table = String::from("| ratio | lines | asked | worst | where | met |\n");
    table += "|---|---|---:|---:|---|---|\n";
    for figure in Figure::ALL {
        let lines = figure.lines(all);
        let Some((worst, value)) = lines.first() else {
            continue;
        };
        let asked = match figure.bound {
            Bound::Least(least) => format!("≥ {least}"),
            Bound::Most(most) => format!("≤ {most}"),
        };
        let met = lines.iter().filter(|(_, value)| figure.bound.met(*value)).count();
        table += &format!(
            "| {} | {} | {asked} | {} | {}, {} | {} |\n",
            name(figure.ratio),
            figure.words,
            ratio(*value),
            worst.shape.name(),
            worst.mix.name(),
            if met == lines.len() { "yes".into() } else { format!("{met} of {}", lines.len()) },
        );
    }
    table
}

fn name((over, under): (Way, Way)) -> String {
    format!("{} / {}", over.name(), under.name())
}

/// A ratio, with three digits or, where it is large, without a fraction.
fn ratio(value: f64) -> String {
    match value {
        ..10.0 => format!("{value:.2}"),
        ..100.0 => format!("{value:.1}"),
        _ => rounded(value),
    }
}

/// A whole number, in groups of three digits.
pub fn rounded(value: f64) -> String {
    let digits = (value.round() as u64).to_string();
    let mut grouped = String::new();
    for (place, digit) in digits.chars().enumerate() {
        if place > 0 && (digits.len() - place).is_multiple_of(3) {
            grouped.push(',');
        }
        grouped.push(digit);
    }
    grouped
}
