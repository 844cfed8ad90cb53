//! The plot of time against tenants held, as SVG.

use std::fmt::{self, Write};

use oracle::random::Random;

use crate::input::Ask;
use crate::reserve::{ones, Reserve};
use crate::rows::{outcome_of, Row, SEED};
use crate::timing::{Figures, LIBRARY, PASS, PLANNERS, SAME, SECOND};

/// The height of the reserve, and the most tenants in it.
const HEIGHT: u16 = 12;
const MOST: u32 = 1 << HEIGHT;

/// How many more tenants each point has.
const STEP: usize = 256;

/// What is timed for the plot: grants of one page, releases and maps that are answered 0, on reserves of single
/// pages. A row's outcome is the number of tenants.
pub fn rows() -> Vec<Row> {
    let mut random = Random::new(SEED);
    let mut rows = Vec::new();
    for tenants in (0..=MOST).step_by(STEP) {
        let reserve = Reserve::draw(HEIGHT, &ones(tenants), &mut random);
        let grant = reserve.grants(&mut random)[0];
        let release = reserve.releases(&mut random)[0];
        for ask in [grant, release, Ask::Map] {
            let input = reserve.input(ask);
            if outcome_of(&input).answer == 0 {
                rows.push(Row {
                    height: HEIGHT,
                    call: ask.name(),
                    reserve: "single pages",
                    outcome: tenants.to_string(),
                    inputs: vec![input],
                    batches: PLANNERS,
                });
            }
        }
    }
    rows
}

/// A line of the plot: whose times of which call, and how it is drawn.
struct Curve {
    label: &'static str,
    call: &'static str,
    who: usize,
    color: &'static str,
    dashes: &'static str,
}

const fn curve(
    label: &'static str,
    call: &'static str,
    who: usize,
    color: &'static str,
    dashes: &'static str,
) -> Curve {
    Curve {
        label,
        call,
        who,
        color,
        dashes,
    }
}

/// All contestants, on a scale of powers of ten.
const ALL: [Curve; 4] = [
    curve("second planner, grant", "grant", SECOND, "#b5651d", "none"),
    curve("library, grant", "grant", LIBRARY, "#1f5fa8", "none"),
    curve("Rust, grant", "grant", SAME, "#1f5fa8", "5 4"),
    curve("bare pass", "grant", PASS, "#777777", "none"),
];

/// The library and the same algorithm, on an even scale.
const NEAR: [Curve; 6] = [
    curve("library, map", "map", LIBRARY, "#2e7d32", "none"),
    curve("Rust, map", "map", SAME, "#2e7d32", "5 4"),
    curve("library, release", "release", LIBRARY, "#8e24aa", "none"),
    curve("Rust, release", "release", SAME, "#8e24aa", "5 4"),
    curve("library, grant", "grant", LIBRARY, "#1f5fa8", "none"),
    curve("Rust, grant", "grant", SAME, "#1f5fa8", "5 4"),
];

/// Where a panel stands, and its scale.
struct Panel {
    left: f64,
    /// Turns nanoseconds into a part of the panel's height.
    scale: fn(f64) -> f64,
    ticks: &'static [(f64, &'static str)],
    title: &'static str,
}

const TOP: f64 = 40.0;
const WIDTH: f64 = 360.0;
const TALL: f64 = 280.0;

const PANELS: [(Panel, &[Curve]); 2] = [
    (
        Panel {
            left: 60.0,
            scale: |time| (time.log10() - 2.0) / 4.0,
            ticks: &[
                (100.0, "100 ns"),
                (1000.0, "1 µs"),
                (10_000.0, "10 µs"),
                (100_000.0, "100 µs"),
                (1_000_000.0, "1 ms"),
            ],
            title: "a grant of one page, and one pass over the table",
        },
        &ALL,
    ),
    (
        Panel {
            left: 490.0,
            scale: |time| time / 6000.0,
            ticks: &[(0.0, "0"), (2000.0, "2 µs"), (4000.0, "4 µs"), (6000.0, "6 µs")],
            title: "the library and the same algorithm in Rust",
        },
        &NEAR,
    ),
];

impl Panel {
    fn x(&self, tenants: f64) -> f64 {
        self.left + WIDTH * tenants / f64::from(MOST)
    }

    fn y(&self, time: f64) -> f64 {
        TOP + TALL * (1.0 - (self.scale)(time).clamp(0.0, 1.0))
    }

    fn axes(&self, out: &mut String) -> fmt::Result {
        let (left, right, bottom) = (self.left, self.left + WIDTH, TOP + TALL);
        writeln!(
            out,
            r#"<text x="{left}" y="24" font-weight="bold">{}</text>"#,
            self.title
        )?;
        for (time, text) in self.ticks {
            let y = self.y(*time);
            writeln!(out, r##"<path d="M{left} {y:.1}H{right}" stroke="#dddddd"/>"##)?;
            writeln!(
                out,
                r#"<text x="{}" y="{:.1}" text-anchor="end">{text}</text>"#,
                left - 6.0,
                y + 4.0
            )?;
        }
        for (tenants, text) in [
            (0, "0"),
            (1024, "1,024"),
            (2048, "2,048"),
            (3072, "3,072"),
            (4096, "4,096"),
        ] {
            let x = self.x(tenants.into());
            writeln!(
                out,
                r#"<text x="{x}" y="{}" text-anchor="middle">{text}</text>"#,
                bottom + 18.0
            )?;
        }
        writeln!(
            out,
            r##"<path d="M{left} {TOP}V{bottom}H{right}" stroke="#444444" fill="none"/>"##
        )?;
        let middle = self.left + WIDTH / 2.0;
        writeln!(
            out,
            r#"<text x="{middle}" y="{}" text-anchor="middle">tenants held</text>"#,
            bottom + 38.0
        )
    }

    fn line(&self, out: &mut String, curve: &Curve, rows: &[Row], figures: &[Figures]) -> fmt::Result {
        let points = rows.iter().zip(figures).filter(|(row, _)| row.call == curve.call);
        let text: Vec<String> = points
            .map(|(row, figures)| {
                let tenants: f64 = row.outcome.parse().expect("a number of tenants");
                format!("{:.1},{:.1}", self.x(tenants), self.y(figures.times[curve.who]))
            })
            .collect();
        let Curve { color, dashes, .. } = curve;
        let points = text.join(" ");
        writeln!(
            out,
            r#"<polyline points="{points}" stroke="{color}" stroke-dasharray="{dashes}" stroke-width="1.6" fill="none"/>"#
        )
    }

    fn legend(&self, out: &mut String, curves: &[Curve]) -> fmt::Result {
        for (place, curve) in curves.iter().enumerate() {
            let (column, line) = (place % 2, place / 2);
            let x = self.left + 180.0 * column as f64;
            let y = TOP + TALL + 62.0 + 18.0 * line as f64;
            let Curve {
                label, color, dashes, ..
            } = curve;
            writeln!(
                out,
                r#"<path d="M{x} {}h24" stroke="{color}" stroke-dasharray="{dashes}" stroke-width="1.6"/>"#,
                y - 4.0
            )?;
            writeln!(out, r#"<text x="{}" y="{y}">{label}</text>"#, x + 30.0)?;
        }
        Ok(())
    }
}

/// Draws the rows of [`rows`] with their figures.
pub fn draw(rows: &[Row], figures: &[Figures]) -> Result<String, fmt::Error> {
    let mut out = String::new();
    writeln!(
        out,
        r#"<svg xmlns="http://www.w3.org/2000/svg" viewBox="0 0 880 430" font-family="sans-serif" font-size="12">"#
    )?;
    writeln!(out, r##"<rect width="880" height="430" fill="#ffffff"/>"##)?;
    for (panel, curves) in &PANELS {
        panel.axes(&mut out)?;
        for curve in *curves {
            panel.line(&mut out, curve, rows, figures)?;
        }
        panel.legend(&mut out, curves)?;
    }
    writeln!(out, "</svg>")?;
    Ok(out)
}
