//! The chosen calls as a picture: cost against use, both sides, on a scale of powers of ten.
use crate::call::{Call, Refusal};
use crate::page::grouped;
use crate::pair::Cost;
use crate::report::{CHOSEN, Figure};
use std::fmt::Write;

const COLUMNS: usize = 3;
const WIDTH: f64 = 300.0;
const HEIGHT: f64 = 220.0;
const LEFT: f64 = 64.0;
const TOP: f64 = 64.0;
/// Between panels.
const GAP: (f64, f64) = (76.0, 76.0);
/// The scale: from 10 ns to 10 ms.
const POWERS: (i32, i32) = (1, 7);

/// How a side is drawn: name, colour, dashes.
const SIDES: [(&str, &str, &str); 2] = [("library", "#0b6e99", "none"), ("the Rust", "#c2571a", "6 4")];

/// A packet that is refused, drawn thin in the panel of one that is taken.
const THIN: (Call, Call) = (Call::Data(1), Call::Refused(Refusal::Circuit));
/// How wide a line is.
const WIDE: f64 = 2.0;
const NARROW: f64 = 0.8;

struct Panel {
    left: f64,
    top: f64,
}

impl Panel {
    fn at(place: usize) -> Self {
        let (column, row) = ((place % COLUMNS) as f64, (place / COLUMNS) as f64);
        Self { left: LEFT + column * (WIDTH + GAP.0), top: TOP + row * (HEIGHT + GAP.1) }
    }

    fn x(&self, place: usize, places: usize) -> f64 {
        self.left + WIDTH * (place as f64 + 0.5) / places as f64
    }

    fn y(&self, nanoseconds: f64) -> f64 {
        let (low, high) = (f64::from(POWERS.0), f64::from(POWERS.1));
        let power = nanoseconds.max(1.0).log10().clamp(low, high);
        self.top + HEIGHT * (high - power) / (high - low)
    }

    /// The frame, a line for each power of ten, the levels and the call's name.
    fn frame(&self, svg: &mut String, call: Call, figures: &[Figure]) -> std::fmt::Result {
        let Self { left, top } = self;
        writeln!(svg, r##"<rect x="{left}" y="{top}" width="{WIDTH}" height="{HEIGHT}" fill="none" stroke="#888"/>"##)?;
        writeln!(svg, r#"<text x="{left}" y="{}" font-weight="bold">{}</text>"#, top - 8.0, call.label())?;
        for power in POWERS.0..=POWERS.1 {
            let y = self.y(10_f64.powi(power));
            writeln!(svg, r##"<line x1="{left}" y1="{y}" x2="{}" y2="{y}" stroke="#ddd"/>"##, left + WIDTH)?;
            writeln!(svg, r#"<text x="{}" y="{}" text-anchor="end">{}</text>"#, left - 6.0, y + 4.0, unit(power))?;
        }
        for (place, (level, _)) in figures.iter().enumerate() {
            let x = self.x(place, figures.len());
            writeln!(svg, r#"<text x="{x}" y="{}" text-anchor="middle">{}</text>"#, top + HEIGHT + 16.0, level.label)?;
        }
        Ok(())
    }

    fn curves(&self, svg: &mut String, call: Call, width: f64, figures: &[Figure]) -> std::fmt::Result {
        let of = |cost: fn(&Cost) -> f64| figures.iter().map(|(_, costs)| cost(&costs[call.place()])).collect();
        let both: [Vec<f64>; 2] = [of(|cost| cost.library), of(|cost| cost.rust)];
        both.iter().enumerate().try_for_each(|(side, costs)| self.curve(svg, side, width, costs))
    }

    fn curve(&self, svg: &mut String, side: usize, width: f64, costs: &[f64]) -> std::fmt::Result {
        let (name, colour, dashes) = SIDES[side];
        let points: Vec<(f64, f64)> =
            costs.iter().enumerate().map(|(place, cost)| (self.x(place, costs.len()), self.y(*cost))).collect();
        let line: Vec<String> = points.iter().map(|(x, y)| format!("{x:.1},{y:.1}")).collect();
        let line = line.join(" ");
        write!(svg, r#"<polyline points="{line}" fill="none" stroke="{colour}""#)?;
        writeln!(svg, r#" stroke-width="{width}" stroke-dasharray="{dashes}"/>"#)?;
        for ((x, y), cost) in points.iter().zip(costs) {
            let title = format!("{name}: {} ns", grouped(*cost));
            writeln!(
                svg,
                r#"<circle cx="{x:.1}" cy="{y:.1}" r="{}" fill="{colour}"><title>{title}</title></circle>"#,
                1.75 * width
            )?;
        }
        Ok(())
    }
}

/// A power of ten of nanoseconds.
fn unit(power: i32) -> String {
    let number = 10_u32.pow(power.rem_euclid(3) as u32);
    format!("{number} {}", ["ns", "µs", "ms"][(power / 3) as usize])
}

pub fn svg(figures: &[Figure]) -> Result<String, std::fmt::Error> {
    let rows = CHOSEN.len().div_ceil(COLUMNS) as f64;
    let (width, height) = (LEFT + COLUMNS as f64 * (WIDTH + GAP.0), TOP + rows * (HEIGHT + GAP.1));
    let mut svg = String::new();
    write!(svg, r#"<svg xmlns="http://www.w3.org/2000/svg" viewBox="0 0 {width} {height}""#)?;
    writeln!(svg, r#" font-family="sans-serif" font-size="12">"#)?;
    writeln!(svg, r#"<title>Time of one call against the share of the tables in use</title>"#)?;
    writeln!(svg, r#"<rect width="{width}" height="{height}" fill="white"/>"#)?;
    legend(&mut svg)?;
    for (place, call) in CHOSEN.into_iter().enumerate() {
        let panel = Panel::at(place);
        panel.frame(&mut svg, call, figures)?;
        panel.curves(&mut svg, call, WIDE, figures)?;
        if call == THIN.0 {
            panel.curves(&mut svg, THIN.1, NARROW, figures)?;
        }
    }
    writeln!(svg, "</svg>")?;
    Ok(svg)
}

fn legend(svg: &mut String) -> std::fmt::Result {
    writeln!(
        svg,
        r#"<text x="{LEFT}" y="24" font-size="14">Time of one call against the share of the tables in use</text>"#
    )?;
    for (side, (name, colour, dashes)) in SIDES.into_iter().enumerate() {
        let x = LEFT + 480.0 + 130.0 * side as f64;
        let line = format!(r#"x1="{x}" y1="20" x2="{}" y2="20""#, x + 36.0);
        writeln!(svg, r#"<line {line} stroke="{colour}" stroke-width="{WIDE}" stroke-dasharray="{dashes}"/>"#)?;
        writeln!(svg, r#"<text x="{}" y="24">{name}</text>"#, x + 44.0)?;
    }
    let x = LEFT + 480.0 + 130.0 * SIDES.len() as f64;
    writeln!(svg, r#"<text x="{x}" y="24">thin, with DATA: of an unknown circuit, refused</text>"#)
}
