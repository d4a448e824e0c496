//! What a run has seen, counted, and the tables that show it.

use crate::bench::Judged;
use crate::calls::{self, Call, Kind, CALLS};
use crate::case::Case;
use crate::pages::hints_in_use;
use std::fmt::Write;

/// Cases in which each call shall get each of its refusals, in a million.
const LEAST_OF_A_MILLION: u64 = 1_000;

/// The counts of one call.
#[derive(Default, Clone)]
struct Counts {
    cases: u64,
    doradb: u64,
    ask: u64,
    paper: u64,
    disagreements: u64,
    with_hints: u64,
    numbers: [u64; 19],
    strange_numbers: u64,
}

/// The counts of a run.
pub struct Tally {
    counts: Vec<Counts>,
    fit: [u64; 10],
    layout: [u64; 2],
    widths: [u64; 3],
}

impl Tally {
    /// Nothing seen.
    pub fn new() -> Tally {
        let counts = vec![Counts::default(); CALLS.len()];
        Tally {
            counts,
            fit: [0; 10],
            layout: [0; 2],
            widths: [0; 3],
        }
    }

    /// Counts a judged case.
    pub fn count(&mut self, case: &Case, judged: &Judged) {
        let at = CALLS
            .iter()
            .position(|call| call.number == case.request.call);
        let counts = &mut self.counts[at.expect("a call of the table")];
        counts.cases += 1;
        counts.doradb += u64::from(judged.doradb);
        counts.ask += u64::from(judged.ask);
        counts.paper += u64::from(judged.doradb || judged.ask);
        counts.disagreements += u64::from(judged.disagreement.is_some());
        let number = judged.paper.reply.number;
        match counts.numbers.get_mut(usize::from(number)) {
            Some(count) => *count += 1,
            None => counts.strange_numbers += 1,
        }
        if number != 0 {
            return;
        }
        let paged = case.call().kind != Kind::Pageless;
        counts.with_hints += u64::from(paged && hints_in_use(&case.page.bytes));
        let verdict = judged.paper.reply.a as usize;
        match case.request.call {
            calls::FIT => self.fit[verdict] += 1,
            calls::LAYOUT => self.layout[verdict] += 1,
            _ => {}
        }
        let takes_width = !matches!(
            case.request.call,
            calls::BEGIN | calls::CHILD | calls::SPACE | calls::FORECAST
        );
        let width = [0, 1, 8].iter().position(|&w| w == case.request.width);
        if let Some(width) = width.filter(|_| takes_width) {
            self.widths[width] += 1;
        }
    }

    /// Cases counted.
    pub fn cases(&self) -> u64 {
        self.sum(|counts| counts.cases)
    }

    /// Disagreements counted.
    pub fn disagreements(&self) -> u64 {
        self.sum(|counts| counts.disagreements)
    }

    fn sum(&self, of: impl Fn(&Counts) -> u64) -> u64 {
        self.counts.iter().map(of).sum()
    }

    fn accepted(&self) -> u64 {
        self.sum(|counts| counts.numbers[0])
    }

    /// Both tables, the verdicts and the widths, as Markdown.
    pub fn text(&self) -> String {
        [self.comparisons(), self.refusals(), self.shares()].join("\n")
    }

    fn rows(&self) -> impl Iterator<Item = (&'static Call, &Counts)> {
        CALLS
            .iter()
            .zip(&self.counts)
            .filter(|(_, counts)| counts.cases > 0)
    }

    fn comparisons(&self) -> String {
        let mut text = String::from(
            "| call | cases | compared with doradb | compared with paper | compared with ask | disagreements |\n\
             |---|---:|---:|---:|---:|---:|\n",
        );
        let mut row = |name: &str, of: [u64; 5]| {
            let cells: Vec<String> = of.iter().map(|count| count.to_string()).collect();
            writeln!(text, "| {name} | {} |", cells.join(" | ")).expect("a string takes all text");
        };
        for (call, counts) in self.rows() {
            let Counts {
                cases,
                doradb,
                paper,
                ask,
                disagreements,
                ..
            } = *counts;
            row(call.name, [cases, doradb, paper, ask, disagreements]);
        }
        let total = [
            self.cases(),
            self.sum(|counts| counts.doradb),
            self.sum(|counts| counts.paper),
            self.sum(|counts| counts.ask),
            self.disagreements(),
        ];
        row("all", total);
        text
    }

    fn refusals(&self) -> String {
        let mut text =
            String::from("| call | accepted | of its cases | of those with hints in use |");
        text += &(1..=18)
            .map(|number| format!(" {number} |"))
            .collect::<String>();
        text += &format!("\n|---|{}\n", "---:|".repeat(21));
        for (call, counts) in self.rows() {
            let accepted = counts.numbers[0];
            write!(
                text,
                "| {} | {accepted} | {} | {} |",
                call.name,
                share(accepted, counts.cases),
                share(counts.with_hints, accepted)
            )
            .expect("a string takes all text");
            for number in 1..=18_u8 {
                let count = counts.numbers[usize::from(number)];
                match call.refusals.contains(&number) || count > 0 {
                    true => write!(text, " {count} |"),
                    false => write!(text, " |"),
                }
                .expect("a string takes all text");
            }
            text.push('\n');
        }
        text
    }

    fn shares(&self) -> String {
        let accepted = self.accepted();
        let fit: Vec<String> = self
            .fit
            .iter()
            .enumerate()
            .map(|(u, n)| format!("{u}: {n}"))
            .collect();
        format!(
            "accepted: {} of all cases; of these {} on pages of 64 keys or more with hints in use\n\
             widths of accepted cases: 0: {}, 1: {}, 8: {}\n\
             layout verdicts: no {}, yes {}\n\
             fit verdicts: {}\n",
            share(accepted, self.cases()),
            share(self.sum(|counts| counts.with_hints), accepted),
            self.widths[0],
            self.widths[1],
            self.widths[2],
            self.layout[0],
            self.layout[1],
            fit.join(", ")
        )
    }

    /// Refusals that a call of the tally never got, calls never accepted, fit
    /// verdicts never given.
    pub fn missing(&self) -> Vec<String> {
        let mut missing = Vec::new();
        for (call, counts) in self.rows() {
            let never = [0].iter().chain(call.refusals);
            for number in never.filter(|number| counts.numbers[usize::from(**number)] == 0) {
                missing.push(format!("{} never got {number}", call.name));
            }
            if call.number == calls::FIT {
                let never = (0..10).filter(|&rule| self.fit[rule] == 0);
                missing.extend(never.map(|rule| format!("fit verdict never {rule}")));
            }
        }
        missing
    }

    /// What the run does not show of what a run shall show: each call by each
    /// of its refusals, three tenths accepted, a third of these with hints.
    pub fn shortfalls(&self) -> Vec<String> {
        let mut short = Vec::new();
        let least = (LEAST_OF_A_MILLION * self.cases().min(1_000_000) / 1_000_000).max(1);
        for (call, counts) in self.rows() {
            for &refusal in call.refusals {
                let count = counts.numbers[usize::from(refusal)];
                if count < least {
                    short.push(format!(
                        "{} got {refusal} {count} times, not {least}",
                        call.name
                    ));
                }
            }
            for number in 1..=18_u8 {
                let count = counts.numbers[usize::from(number)];
                if count > 0 && !call.refusals.contains(&number) {
                    short.push(format!(
                        "{} got {number}, which 01 does not list",
                        call.name
                    ));
                }
            }
            if counts.strange_numbers > 0 {
                short.push(format!("{} got a number that 01 does not have", call.name));
            }
        }
        let accepted = self.accepted();
        if accepted * 10 < self.cases() * 3 {
            short.push(format!(
                "{accepted} of {} cases accepted, under 30 %",
                self.cases()
            ));
        }
        let with_hints = self.sum(|counts| counts.with_hints);
        if with_hints * 3 < accepted {
            short.push(format!(
                "{with_hints} of {accepted} accepted with hints in use, under a third"
            ));
        }
        short
    }
}

fn share(part: u64, whole: u64) -> String {
    match whole {
        0 => "–".into(),
        _ => format!("{:.1} %", part as f64 * 100.0 / whole as f64),
    }
}
