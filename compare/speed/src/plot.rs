//! The plot: what calls cost against the number of entries, a panel for each call and shape of keys, both axes
//! logarithmic.

use crate::pages::SHAPES;
use crate::table::{Line, Table};
use std::fmt::Write;

/// The calls that are drawn, and how many of the things beside them.
const CALLS: [(&str, usize); 6] = [
    ("find", 2),
    ("lower bound", 2),
    ("entry", 2),
    ("fit", 1),
    ("insert", 2),
    ("batch", 1),
];

/// Colours that stand out on a light page and on a dark one: ours, and what stands beside it.
const COLOURS: [&str; 3] = ["#e8590c", "#1c7ed6", "#2b8a3e"];
const LEGEND: [&str; 3] = [
    "ours",
    "doradb",
    "doradb after the check of the page that ours includes",
];

/// Measures of the picture, in pixels.
const LEFT: f64 = 56.0;
const TOP: f64 = 102.0;
const WIDE: f64 = 232.0;
const HIGH: f64 = 104.0;
const STEP_X: f64 = 290.0;
const STEP_Y: f64 = 156.0;

/// The shapes of keys that are drawn: those of the order.
const DRAWN: usize = 3;

/// The picture of tables that hold these calls.
pub fn svg(tables: &[Table]) -> String {
    let drawn: Vec<(&Table, usize)> = CALLS
        .iter()
        .filter_map(|(call, beside)| {
            let table = tables.iter().find(|table| table.call == *call)?;
            Some((table, *beside))
        })
        .collect();
    let (width, height) = (
        LEFT + STEP_X * DRAWN as f64 - 42.0,
        TOP + STEP_Y * drawn.len() as f64 - 8.0,
    );
    let mut svg = format!(
        "<svg xmlns=\"http://www.w3.org/2000/svg\" viewBox=\"0 0 {width} {height}\" width=\"{width}\" height=\"{height}\" \
         role=\"img\">\n<title>Nanoseconds a call against the number of entries</title>\n<style>\n{STYLE}</style>\n"
    );
    legend(&mut svg);
    for (row, (table, beside)) in drawn.into_iter().enumerate() {
        draw_row(&mut svg, table, beside, TOP + STEP_Y * row as f64);
    }
    svg + "</svg>\n"
}

const STYLE: &str = "\
text { font: 11px system-ui, sans-serif; fill: #7a7a7a; }
.call { font-size: 14px; font-weight: 600; }
.shape { font-weight: 600; }
.right { text-anchor: end; }
.middle { text-anchor: middle; }
.axis { stroke: #8a8a8a; fill: none; }
.grid { stroke: #8a8a8a; stroke-opacity: 0.25; fill: none; }
.line { fill: none; stroke-width: 2; stroke-linejoin: round; }
";

fn legend(svg: &mut String) {
    let mut x = LEFT;
    for (name, colour) in LEGEND.iter().zip(COLOURS) {
        let _ = writeln!(
            svg,
            "<path class=\"line\" stroke=\"{colour}\" d=\"M{x} 16h22\"/><circle cx=\"{}\" cy=\"16\" r=\"3\" fill=\"{colour}\"/>\
             <text x=\"{}\" y=\"20\">{name}</text>",
            x + 11.0,
            x + 28.0
        );
        x += 60.0 + 6.4 * name.len() as f64;
    }
    let _ = writeln!(
        svg,
        "<text x=\"{LEFT}\" y=\"37\">Both axes are logarithmic; hints are in use from 64 entries on.</text>"
    );
    for (column, shape) in SHAPES[..DRAWN].iter().enumerate() {
        let _ = writeln!(
            svg,
            "<text class=\"shape\" x=\"{}\" y=\"62\">{}</text>",
            LEFT + STEP_X * column as f64,
            shape.words()
        );
    }
}

/// One call: its name, and a panel for each shape, over one scale of costs.
fn draw_row(svg: &mut String, table: &Table, beside: usize, top: f64) {
    let _ = writeln!(
        svg,
        "<text x=\"{LEFT}\" y=\"{}\"><tspan class=\"call\">{}</tspan>  {}</text>",
        top - 10.0,
        table.call,
        words(table, beside)
    );
    let shapes = SHAPES[..DRAWN].iter();
    let curves: Vec<_> = shapes
        .map(|shape| curves(table, shape.name, beside))
        .collect();
    let costs = curves.iter().flatten().flatten().map(|(_, cost)| *cost);
    let (low, high) = costs.fold((f64::MAX, f64::MIN), |(low, high), cost| {
        (low.min(cost), high.max(cost))
    });
    let costs = Scale {
        low: round_below(low),
        high: round_above(high),
        from: top + HIGH,
        to: top,
    };
    for (column, curves) in curves.iter().enumerate() {
        panel(svg, LEFT + STEP_X * column as f64, top, &costs, curves);
    }
}

/// What a row shows: the unit, and what of doradb is drawn.
fn words(table: &Table, beside: usize) -> String {
    let unit = match table.call {
        "batch" => "ns a record",
        _ => "ns a call",
    };
    let what: Vec<String> = table.beside().take(beside).map(plain).collect();
    let doradb = match &what[..] {
        [first, second] => {
            let after = second.strip_prefix(first.as_str()).unwrap_or(second);
            format!("{first}, alone and{after}")
        }
        _ => what.concat(),
    };
    format!("{unit} by entries on the page; doradb: {doradb}")
}

/// Words without their marks.
fn plain(words: &str) -> String {
    words.replace('`', "")
}

/// Ours and what stands beside it: counts with costs, hints in use where they can be.
fn curves(table: &Table, shape: &str, beside: usize) -> Vec<Vec<(f64, f64)>> {
    let drawn = |line: &&Line| line.shape == shape && line.hints == (line.count >= 64);
    let curve = |side: usize| {
        let lines = table.lines.iter().filter(drawn);
        let point = |line: &Line| {
            let time = line.time?;
            let cost = match side {
                0 => Some(time.ours),
                _ => time.against[side - 1],
            };
            Some((line.count as f64, cost.filter(|cost| *cost > 0.0)?))
        };
        lines.filter_map(point).collect()
    };
    (0..=beside).map(curve).collect()
}

/// A logarithmic scale between two places.
struct Scale {
    low: f64,
    high: f64,
    from: f64,
    to: f64,
}

impl Scale {
    fn at(&self, x: f64) -> f64 {
        let part = (x / self.low).ln() / (self.high / self.low).ln();
        self.from + part * (self.to - self.from)
    }

    /// Round numbers on the scale; powers of ten alone where they are enough.
    fn ticks(&self) -> Vec<f64> {
        let few = self.high / self.low < 60.0;
        round_numbers()
            .filter(|(tick, power)| (few || tick == power) && (self.low..=self.high).contains(tick))
            .map(|(tick, _)| tick)
            .collect()
    }
}

/// Powers of ten, their doubles and fives, each with its power, rising.
fn round_numbers() -> impl Iterator<Item = (f64, f64)> {
    let powers = (-2..9).map(|power| 10_f64.powi(power));
    powers.flat_map(|power| [1.0, 2.0, 5.0].map(|step| (step * power, power)))
}

fn round_below(x: f64) -> f64 {
    let below = round_numbers().map(|(tick, _)| tick);
    below.take_while(|tick| *tick <= x).last().unwrap_or(x)
}

fn round_above(x: f64) -> f64 {
    let mut above = round_numbers().map(|(tick, _)| tick);
    above.find(|tick| *tick >= x).unwrap_or(x)
}

fn panel(svg: &mut String, left: f64, top: f64, costs: &Scale, curves: &[Vec<(f64, f64)>]) {
    let counts = Scale {
        low: 7.0,
        high: 1160.0,
        from: left,
        to: left + WIDE,
    };
    let mut grid = String::new();
    for tick in costs.ticks() {
        let y = costs.at(tick);
        let _ = write!(grid, "M{left} {y:.1}h{WIDE}");
        let _ = writeln!(
            svg,
            "<text class=\"right\" x=\"{}\" y=\"{:.1}\">{}</text>",
            left - 5.0,
            y + 4.0,
            grouped(tick)
        );
    }
    for count in [8.0, 64.0, 256.0, 1016.0] {
        let x = counts.at(count);
        let _ = write!(grid, "M{x:.1} {top}v{HIGH}");
        let _ = writeln!(
            svg,
            "<text class=\"middle\" x=\"{x:.1}\" y=\"{}\">{}</text>",
            top + HIGH + 15.0,
            grouped(count)
        );
    }
    let _ = writeln!(svg, "<path class=\"grid\" d=\"{grid}\"/>");
    let _ = writeln!(
        svg,
        "<path class=\"axis\" d=\"M{left} {top}v{HIGH}h{WIDE}\"/>"
    );
    // ours last, on top of the others
    for (curve, colour) in curves.iter().zip(COLOURS).rev() {
        draw_curve(svg, curve, colour, &counts, costs);
    }
}

fn draw_curve(svg: &mut String, curve: &[(f64, f64)], colour: &str, counts: &Scale, costs: &Scale) {
    let places: Vec<(f64, f64)> = curve
        .iter()
        .map(|(count, cost)| (counts.at(*count), costs.at(*cost)))
        .collect();
    let path: Vec<String> = places
        .iter()
        .map(|(x, y)| format!("{x:.1} {y:.1}"))
        .collect();
    let _ = writeln!(
        svg,
        "<path class=\"line\" stroke=\"{colour}\" d=\"M{}\"/>",
        path.join("L")
    );
    for (x, y) in places {
        let _ = writeln!(
            svg,
            "<circle cx=\"{x:.1}\" cy=\"{y:.1}\" r=\"3\" fill=\"{colour}\"/>"
        );
    }
}

/// A number with its thousands set apart.
fn grouped(x: f64) -> String {
    match x {
        x if x < 1.0 => x.to_string(),
        x if x < 1000.0 => format!("{x:.0}"),
        x => format!("{:.0},{:03.0}", (x / 1000.0).floor(), x % 1000.0),
    }
}
