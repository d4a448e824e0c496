//! `speed`: the static library's calls beside doradb's, on the same pages.
//!
//! Nanoseconds a call are the best of many rounds; instructions a call are counted by callgrind and do not waver.

mod count;
mod measure;
mod ours;
mod pages;
mod plot;
mod publish;
mod rows;
mod table;

use rows::{Cells, CALLS, PROBES};
use std::hint::black_box;
use std::process::ExitCode;
use table::Table;

const USAGE: &str = "\
speed bench [--call CALL] [--quick] [--out FOLDER]  times and instructions into FOLDER/SPEED.md and FOLDER/speed.svg, or printed
speed time [--call CALL] [--quick]                  nanoseconds a call, the best of many rounds
speed count [--call CALL] [--quick]                 instructions a call, by callgrind
speed loop CALL PAGE ours|first|second N            one side of a call N times, for a profile
speed list                                          the calls and the pages";

/// What the command line asks for.
pub struct Want {
    /// One call alone.
    pub call: Option<String>,
    /// Fewer pages, and less time for each.
    pub quick: bool,
    /// The folder of the page that is written.
    out: Option<String>,
}

impl Want {
    fn read(words: &[&str]) -> Result<Want, String> {
        let mut want = Want {
            call: None,
            quick: false,
            out: None,
        };
        let mut words = words.iter();
        while let Some(word) = words.next() {
            let mut value = || words.next().map(|value| value.to_string()).ok_or(USAGE);
            match *word {
                "--quick" => want.quick = true,
                "--call" => want.call = Some(value()?),
                "--out" => want.out = Some(value()?),
                _ => return Err(USAGE.into()),
            }
        }
        Ok(want)
    }

    /// The words that ask for the same cells.
    pub fn words(&self) -> Vec<String> {
        let mut words = Vec::new();
        if self.quick {
            words.push("--quick".into());
        }
        if let Some(call) = &self.call {
            words.extend(["--call".into(), call.clone()]);
        }
        words
    }
}

fn main() -> ExitCode {
    let words: Vec<String> = std::env::args().skip(1).collect();
    let words: Vec<&str> = words.iter().map(String::as_str).collect();
    match done(&words) {
        Ok(()) => ExitCode::SUCCESS,
        Err(message) => {
            eprintln!("{message}");
            ExitCode::from(2)
        }
    }
}

fn done(words: &[&str]) -> Result<(), String> {
    match words {
        ["bench", rest @ ..] => bench(&Want::read(rest)?),
        ["time", rest @ ..] => print(&measured(&Want::read(rest)?, true, false)?),
        ["count", rest @ ..] => print(&measured(&Want::read(rest)?, false, true)?),
        [count::COUNTED, rest @ ..] => count::counted(&Want::read(rest)?),
        ["loop", call, page, side, n] => over_and_over(call, page, side, n),
        ["list"] => list(),
        _ => Err(USAGE.into()),
    }
}

/// Times and instructions, printed, or written where `--out` says.
fn bench(want: &Want) -> Result<(), String> {
    if want.call.is_some() && want.out.is_some() {
        return Err("--out wants the figures of all calls".into());
    }
    let before = publish::load();
    let tables = measured(want, true, true)?;
    match &want.out {
        Some(folder) => publish::publish(folder, want, &tables, &before),
        None => print(&tables),
    }
}

/// The tables of the calls that are wanted. The sides must answer alike where they are timed.
fn measured(want: &Want, time: bool, count: bool) -> Result<Vec<Table>, String> {
    let cells = measure::cells(want, PROBES)?;
    let counts = count.then(|| count::counts(&cells, want)).transpose()?;
    let times = time
        .then(|| measure::times(&cells, want.quick))
        .transpose()?;
    Ok(table::tables(&cells, times, counts))
}

fn print(tables: &[Table]) -> Result<(), String> {
    println!("{}\n{}", table::summary(tables), table::open(tables));
    Ok(())
}

fn over_and_over(call: &str, page: &str, side: &str, n: &str) -> Result<(), String> {
    let names = ["ours", "first", "second"];
    let at = names.iter().position(|name| *name == side).ok_or(USAGE)?;
    let n: usize = n.parse().map_err(|_| USAGE)?;
    let want = Want::read(&["--call", call])?;
    for Cells { row, cases } in measure::cells(&want, PROBES)? {
        if let Some(case) = cases.iter().find(|case| (row.line)(case) == page) {
            let side = row.sides(case)[CALLS[at]].ok_or("there is no such side")?;
            let probes = side.probes(case, 1);
            for _ in 0..n.div_ceil(probes.len()) {
                black_box((side.ask)(black_box(case), black_box(probes)));
            }
            return Ok(());
        }
    }
    Err(format!(
        "no page `{page}` of `{call}`: `speed list` names them"
    ))
}

fn list() -> Result<(), String> {
    for Cells { row, cases } in measure::cells(&Want::read(&[])?, 1)? {
        println!("{}", row.name);
        for case in cases {
            println!("    {}", (row.line)(&case));
        }
    }
    Ok(())
}
