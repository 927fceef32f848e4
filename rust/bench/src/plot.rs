//! The picture: for each mix a panel, for each shape a group of bars, one bar to a way, on a scale of
//! powers of ten.

use std::fmt::Write;

use crate::measure::Medians;
use crate::mix::Mix;
use crate::report::rounded;
use crate::shape::Shape;
use crate::way::Way;

const PANEL: (f64, f64) = (560.0, 250.0);
const MARGIN: (f64, f64) = (62.0, 44.0);
const TOP: f64 = 78.0;

fn colour(way: Way) -> &'static str {
    match way {
        Way::Copy => "#bbbbbb",
        Way::Bulk => "#0072b2",
        Way::Recompute => "#e69f00",
        Way::Singly => "#882255",
    }
}

/// The scale: powers of ten from one below all times to one above.
#[derive(Clone, Copy, Debug)]
struct Scale {
    low: i32,
    high: i32,
}

impl Scale {
    fn of(all: &[Medians]) -> Scale {
        let times = || all.iter().flat_map(|medians| medians.micros).map(f64::log10);
        let low = times().fold(f64::INFINITY, f64::min).floor();
        let high = times().fold(f64::NEG_INFINITY, f64::max).ceil();
        Scale { low: low as i32, high: high as i32 }
    }

    /// How far up a time stands in a panel.
    fn height(self, micros: f64) -> f64 {
        let (low, high) = (f64::from(self.low), f64::from(self.high));
        (micros.log10() - low) / (high - low) * (PANEL.1 - 30.0)
    }
}

/// The picture as SVG.
pub fn plot(all: &[Medians]) -> String {
    let scale = Scale::of(all);
    let width = 2.0 * (PANEL.0 + MARGIN.0) + 20.0;
    let height = TOP + 2.0 * (PANEL.1 + MARGIN.1) + 10.0;
    let mut svg = String::new();
    let mut put = |text: String| svg.push_str(&text);
    put(format!(
        "<svg xmlns=\"http://www.w3.org/2000/svg\" viewBox=\"0 0 {width} {height}\" \
         font-family=\"sans-serif\" font-size=\"12\" fill=\"#222222\">\n\
         <rect width=\"{width}\" height=\"{height}\" fill=\"#ffffff\"/>\n"
    ));
    put(text(
        20.0,
        26.0,
        "start",
        17,
        "1,024 records over 60,000 rows: median time in microseconds, on a scale of powers of ten",
    ));
    let mut left = 20.0;
    for way in Way::ALL {
        put(bar(left, 44.0, 14.0, 14.0, colour(way)));
        put(text(left + 20.0, 56.0, "start", 13, meaning(way)));
        left += 42.0 + 6.6 * meaning(way).len() as f64;
    }
    for (index, mix) in Mix::ALL.into_iter().enumerate() {
        let x = MARGIN.0 + (index % 2) as f64 * (PANEL.0 + MARGIN.0);
        let y = TOP + (index / 2) as f64 * (PANEL.1 + MARGIN.1);
        put(panel(all, scale, mix, x, y));
    }
    svg.push_str("</svg>\n");
    svg
}

fn meaning(way: Way) -> &'static str {
    match way {
        Way::Copy => "copy of the three columns (limit)",
        Way::Bulk => "this library's bulk call",
        Way::Recompute => "all distances recomputed",
        Way::Singly => "each record singly (version one)",
    }
}

fn panel(all: &[Medians], scale: Scale, mix: Mix, x: f64, y: f64) -> String {
    let mut svg = text(x, y + 14.0, "start", 14, mix.name());
    let bottom = y + PANEL.1;
    for decade in scale.low..=scale.high {
        let micros = 10f64.powi(decade);
        let level = bottom - scale.height(micros);
        writeln!(
            svg,
            "<line x1=\"{x:.1}\" x2=\"{:.1}\" y1=\"{level:.1}\" y2=\"{level:.1}\" stroke=\"#dddddd\"/>",
            x + PANEL.0 - 10.0
        )
        .expect("a string takes all");
        svg += &text(x - 6.0, level + 4.0, "end", 11, &rounded(micros));
    }
    let group = (PANEL.0 - 10.0) / Shape::ALL.len() as f64;
    let wide = (group - 16.0) / Way::ALL.len() as f64;
    let of_mix = all.iter().filter(|medians| medians.mix == mix);
    for (index, medians) in of_mix.enumerate() {
        let start = x + index as f64 * group + 8.0;
        for (place, way) in Way::ALL.into_iter().enumerate() {
            let (left, high) = (start + place as f64 * wide, scale.height(medians.of(way)));
            svg += &bar(left, bottom - high, wide - 2.0, high, colour(way));
            let above = bottom - high - 3.0;
            svg += &text(left + wide / 2.0 - 1.0, above, "middle", 9, &rounded(medians.of(way)));
        }
        svg += &text(start + group / 2.0 - 8.0, bottom + 16.0, "middle", 12, medians.shape.name());
    }
    svg
}

fn bar(x: f64, y: f64, width: f64, height: f64, colour: &str) -> String {
    format!(
        "<rect x=\"{x:.1}\" y=\"{y:.1}\" width=\"{width:.1}\" height=\"{height:.1}\" \
         fill=\"{colour}\"/>\n"
    )
}

fn text(x: f64, y: f64, anchor: &str, size: u32, words: &str) -> String {
    format!(
        "<text x=\"{x:.1}\" y=\"{y:.1}\" text-anchor=\"{anchor}\" font-size=\"{size}\">{words}</text>\n"
    )
}
