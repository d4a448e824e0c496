//! The command line.

use crate::calls::{by_number, DIGEST};
use std::num::NonZeroUsize;
use std::path::Path;

/// What the command line says.
pub struct Options {
    /// `run`, `sequences`, `departures`, `record`, `samples` or `bench`.
    pub command: String,
    /// The seeds of a run, one after the other.
    pub seeds: Vec<u64>,
    /// Cases of each seed, or calls in its sequences.
    pub count: usize,
    /// The shell command of the program to ask, if one is asked.
    pub ask: Option<String>,
    /// Files with pages to ask about in place of generated ones.
    pub pages: Vec<String>,
    /// The width of the given pages.
    pub width: u8,
    /// The calls to ask, by their numbers in the protocol.
    pub calls: Vec<u8>,
    /// Whether the run must show what a run shall show.
    pub shows: bool,
    /// Disagreements after which a run ends.
    pub tell: usize,
    /// Seconds in which a disagreement is made small.
    pub patience: u64,
    /// The file for recorded requests.
    pub out_stdin: Option<String>,
    /// The file for recorded answers.
    pub out_stdout: Option<String>,
    /// The folder for sample pages, or for the figures of a bench.
    pub out: Option<String>,
    /// The one call of a bench.
    pub call: Option<String>,
    /// Whether a bench has fewer pages and takes less time for each.
    pub quick: bool,
    /// The most bytes of a recording.
    pub limit: usize,
}

/// How the command is used.
pub const USAGE: &str = "\
compare run [--seed S[,S...]] [--count N] [--ask CMD|none] [--page FILE]... [--width W] [--calls C[,C...]] [--tell N] [--patience SECONDS] [--shows]
compare sequences [--seed S[,S...]] [--count N] [--ask CMD|none] [--tell N] [--shows]
compare departures [--ask CMD|none]
compare record --out-stdin FILE --out-stdout FILE [--seed S] [--limit BYTES] [--calls C[,C...]]
compare samples [--out FOLDER] [--out-stdin FILE --out-stdout FILE]
compare bench [--call NAME] [--quick] [--out FOLDER]

Without --ask, `run ask` at the project's root is asked, if that program is there.";

impl Options {
    /// Reads the arguments after the program's name.
    pub fn read(mut arguments: impl Iterator<Item = String>) -> Result<Options, String> {
        let mut options = Options {
            command: arguments.next().ok_or(USAGE)?,
            seeds: vec![1],
            count: 100_000,
            ask: own_ask(),
            pages: Vec::new(),
            width: 8,
            calls: (0..=DIGEST).collect(),
            shows: false,
            tell: 3,
            patience: 10,
            out_stdin: None,
            out_stdout: None,
            out: None,
            call: None,
            quick: false,
            limit: 3_000_000,
        };
        while let Some(name) = arguments.next() {
            match name.as_str() {
                "--shows" => options.shows = true,
                "--quick" => options.quick = true,
                _ => {
                    let value = arguments
                        .next()
                        .ok_or(format!("{name} wants a value\n\n{USAGE}"))?;
                    options.set(&name, value)?;
                }
            }
        }
        if options.calls.iter().all(|&call| by_number(call).is_none()) {
            return Err(format!("--calls names no call that has cases\n\n{USAGE}"));
        }
        Ok(options)
    }

    fn set(&mut self, name: &str, value: String) -> Result<(), String> {
        match name {
            "--seed" => self.seeds = list(&value)?,
            "--count" => self.count = above_0(name, &value)?,
            "--ask" if value == "none" => self.ask = None,
            "--ask" => self.ask = Some(value),
            "--page" => self.pages.push(value),
            "--width" => self.width = number(&value)?,
            "--tell" => self.tell = above_0(name, &value)?,
            "--patience" => self.patience = number(&value)?,
            "--calls" => self.calls = list(&value)?,
            "--out-stdin" => self.out_stdin = Some(value),
            "--out-stdout" => self.out_stdout = Some(value),
            "--out" => self.out = Some(value),
            "--call" => self.call = Some(value),
            "--limit" => self.limit = number(&value)?,
            _ => return Err(format!("{name} is no option\n\n{USAGE}")),
        }
        Ok(())
    }
}

fn number<T: std::str::FromStr>(text: &str) -> Result<T, String> {
    text.parse()
        .map_err(|_| format!("{text} is not a number in range"))
}

/// A number that is not 0: a run of no case would agree with anything.
fn above_0(name: &str, text: &str) -> Result<usize, String> {
    text.parse()
        .map(NonZeroUsize::get)
        .map_err(|_| format!("{name} wants a number above 0, not {text}\n\n{USAGE}"))
}

fn list<T: std::str::FromStr>(text: &str) -> Result<Vec<T>, String> {
    text.split(',').map(number).collect()
}

/// The project's own `ask`, if that program and the script that runs it are there.
fn own_ask() -> Option<String> {
    let root = Path::new(env!("CARGO_MANIFEST_DIR")).join("../..");
    let there = ["run", "crates/ask/src/main.rt"]
        .iter()
        .all(|file| root.join(file).exists());
    there.then(|| format!("'{}' ask", root.join("run").display()))
}
