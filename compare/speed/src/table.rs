//! The figures as Markdown: a summary, and a table for each call.

use crate::measure::{Costs, Figures};
use crate::rows::Cells;
use std::fmt::Write;

/// The figures of a call.
pub struct Table {
    pub call: &'static str,
    note: &'static str,
    beside: Vec<Beside>,
    pub lines: Vec<Line>,
}

/// What stands beside a call, and the bound that was set for ours divided by it.
struct Beside {
    name: &'static str,
    what: String,
    target: Option<f64>,
}

/// A case with its figures.
pub struct Line {
    name: String,
    pub shape: &'static str,
    pub count: usize,
    pub hints: bool,
    pub time: Option<Figures>,
    pub instructions: Option<Figures>,
}

/// One kind of figures of a line.
type Kind = fn(&Line) -> Option<Figures>;

/// The tables of cells with their times and their counts; either may be missing.
pub fn tables(
    cells: &[Cells],
    times: Option<Vec<Vec<Costs>>>,
    counts: Option<Vec<Vec<Costs>>>,
) -> Vec<Table> {
    let figures = |costs: &Option<Vec<Vec<Costs>>>, row: usize, case: usize, parts: usize| {
        let costs = costs.as_ref()?[row][case];
        Some(Figures::new(costs, parts))
    };
    let table = |(at, Cells { row, cases }): (usize, &Cells)| Table {
        call: row.name,
        note: row.note,
        beside: row
            .against
            .iter()
            .map(|against| Beside {
                name: against.name,
                what: against.what.clone(),
                target: against.target,
            })
            .collect(),
        lines: cases
            .iter()
            .enumerate()
            .map(|(n, case)| Line {
                name: (row.line)(case),
                shape: case.shape,
                count: case.count,
                hints: case.hints,
                time: figures(&times, at, n, (row.parts)(case)),
                instructions: figures(&counts, at, n, (row.parts)(case)),
            })
            .collect(),
    };
    cells.iter().enumerate().map(table).collect()
}

/// The summary of tables: for each call and what stands beside it the worst, the median and the best ratio, and on how
/// many lines the bound that was set is kept.
pub fn summary(tables: &[Table]) -> String {
    let mut text = String::from(
        "| call | beside it | target | time: worst | median | best | met | instructions: worst | median | best | met |\n\
         |---|---|---|---|---|---|---|---|---|---|---|\n",
    );
    for table in tables {
        for (at, beside) in table.beside.iter().enumerate() {
            let target = beside.target.map_or(String::new(), |t| format!("{t:?}"));
            let time = table.ratios(at, |line| line.time);
            let count = table.ratios(at, |line| line.instructions);
            let _ = writeln!(
                text,
                "| {} | {} | {target} |{}{}",
                table.call,
                beside.what,
                spread(time, beside.target),
                spread(count, beside.target)
            );
        }
    }
    text
}

impl Table {
    /// What stands beside the call, in words.
    pub fn beside(&self) -> impl Iterator<Item = &str> {
        self.beside.iter().map(|beside| beside.what.as_str())
    }

    /// The ratios of all lines, the lowest first.
    fn ratios(&self, at: usize, figures: impl Fn(&Line) -> Option<Figures>) -> Vec<f64> {
        let ratio = |line: &Line| figures(line)?.ratio(at);
        let mut ratios: Vec<f64> = self.lines.iter().filter_map(ratio).collect();
        ratios.sort_by(f64::total_cmp);
        ratios
    }
}

/// The worst, the median and the best of ratios, and how many of them are within a bound.
fn spread(ratios: Vec<f64>, target: Option<f64>) -> String {
    let [Some(best), Some(worst)] = [ratios.first(), ratios.last()] else {
        return " | | | |".into();
    };
    let median = (ratios[(ratios.len() - 1) / 2] + ratios[ratios.len() / 2]) / 2.0;
    let met = target.map_or(String::new(), |target| met(&ratios, target));
    format!(
        " {} | {} | {} | {met} |",
        ratio(*worst),
        ratio(median),
        ratio(*best)
    )
}

/// On how many lines a bound is kept, as the figures are printed.
fn met(ratios: &[f64], target: f64) -> String {
    let within = ratios.iter().filter(|x| **x < target + 0.005).count();
    match within {
        0 => "no".into(),
        n if n == ratios.len() => "yes".into(),
        n => format!("{n} of {}", ratios.len()),
    }
}

/// A table for each call, folded.
pub fn folded(tables: &[Table]) -> String {
    let fold = |table: &Table| {
        format!(
            "<details>\n<summary>{}</summary>\n\n{}\n</details>\n",
            table.call,
            table.markdown()
        )
    };
    tables.iter().map(fold).collect::<Vec<_>>().join("\n")
}

/// A table for each call.
pub fn open(tables: &[Table]) -> String {
    let section = |table: &Table| format!("### {}\n\n{}", table.call, table.markdown());
    tables.iter().map(section).collect::<Vec<_>>().join("\n")
}

impl Table {
    /// A line for each case: the ratios first, then the figures that they are made of.
    fn markdown(&self) -> String {
        let mut text = self.legend();
        let figures: [(&str, Kind); 2] = [
            ("ns", |line| line.time),
            ("instructions", |line| line.instructions),
        ];
        let mut heads = vec!["page".to_string()];
        for (unit, _) in figures {
            let names = self.beside.iter().map(|beside| beside.name);
            heads.extend(names.map(|name| format!("{unit}: ours / {name}")));
        }
        for (unit, _) in figures {
            let names = self.beside.iter().map(|beside| beside.name.to_string());
            heads.extend([format!("{unit}: ours")].into_iter().chain(names));
        }
        let _ = writeln!(text, "| {} |", heads.join(" | "));
        let _ = writeln!(text, "|{}", "---|".repeat(heads.len()));
        for line in &self.lines {
            let _ = write!(text, "| {} |", line.name);
            for (_, of) in figures {
                for at in 0..self.beside.len() {
                    text += &cell(of(line).and_then(|f| f.ratio(at)), ratio);
                }
            }
            for (_, of) in figures {
                text += &cell(of(line).map(|f| f.ours), figure);
                for at in 0..self.beside.len() {
                    text += &cell(of(line).and_then(|f| f.against[at]), figure);
                }
            }
            text += "\n";
        }
        text
    }

    /// What the columns are, and what is to be said of the call.
    fn legend(&self) -> String {
        let columns = self
            .beside
            .iter()
            .map(|beside| format!("*{}*: {}.", beside.name, beside.what));
        let mut words: Vec<String> = columns.collect();
        if !self.note.is_empty() {
            words.push(self.note.into());
        }
        words.join(" ") + "\n\n"
    }
}

fn cell(x: Option<f64>, form: fn(f64) -> String) -> String {
    x.map_or(" |".into(), |x| format!(" {} |", form(x)))
}

fn ratio(x: f64) -> String {
    match x {
        x if x < 10.0 => format!("{x:.2}"),
        x => format!("{x:.0}"),
    }
}

fn figure(x: f64) -> String {
    match x {
        x if x < 100.0 => format!("{x:.1}"),
        x => format!("{x:.0}"),
    }
}

#[cfg(test)]
mod tests {
    use super::*;

    #[test]
    fn ratios_are_summed_up() {
        let spread = |ratios: &[f64]| spread(ratios.to_vec(), Some(1.0));
        assert_eq!(spread(&[]), " | | | |");
        assert_eq!(spread(&[0.5]), " 0.50 | 0.50 | 0.50 | yes |");
        assert_eq!(spread(&[0.5, 0.9, 1.3]), " 1.30 | 0.90 | 0.50 | 2 of 3 |");
        assert_eq!(spread(&[1.1, 1.3]), " 1.30 | 1.20 | 1.10 | no |");
    }

    #[test]
    fn a_bound_is_kept_as_figures_are_printed() {
        assert_eq!(met(&[1.004], 1.0), "yes");
        assert_eq!(met(&[1.006], 1.0), "no");
    }
}
