//! Departures: inputs on which document 01 and the Rust differ, each run on
//! both and held to what is written of it.

pub mod scene;
mod table;

use crate::asking::{self, Ask};
use crate::calls;
use crate::options::Options;
use crate::quiet::quietly;
use plain::ask::Server;
use plain::protocol::{Reply, Request};
use scene::Scene;

/// One departure: what is written of it, and how to see it.
pub struct Departure {
    /// Its name.
    pub name: &'static str,
    /// What document 01 says.
    pub says: &'static str,
    /// The smallest input that shows it.
    pub input: &'static str,
    /// What the Rust does.
    pub rust: &'static str,
    /// What this project does.
    pub ours: &'static str,
    /// Runs the Rust on the input and says what it did.
    pub run_rust: fn() -> String,
    /// Runs a server of calls on the input and says what it did.
    pub run_ours: fn(&mut Scene) -> String,
}

/// Runs every departure and prints the table. Answers whether the Rust, `plain`
/// and, where it answers the calls in question, `ask` did what is written.
pub fn departures(options: &Options) -> Result<bool, String> {
    let mut program = options.ask.as_deref().map(Program::new).transpose()?;
    let (mut astray, mut unanswered) = (Vec::new(), Vec::new());
    println!("| name | 01 says | the Rust does | we do | smallest input |\n|---|---|---|---|---|");
    for departure in &table::TABLE {
        println!("{}", row(departure));
        let calls = run(departure, &mut astray);
        if let Some(program) = &mut program {
            match program.answers(&calls) {
                true => run_program(departure, program, &mut astray),
                false => unanswered.push(departure.name),
            }
        }
    }
    let judges = if program.is_some() {
        "doradb, plain and ask"
    } else {
        "doradb and plain"
    };
    println!("\n{} departures run on {judges}", table::TABLE.len());
    if !unanswered.is_empty() {
        println!(
            "calls that ask does not answer yet: {}",
            unanswered.join("; ")
        );
    }
    for line in &astray {
        println!("ASTRAY: {line}");
    }
    Ok(astray.is_empty())
}

fn row(departure: &Departure) -> String {
    let Departure {
        name,
        says,
        input,
        rust,
        ours,
        ..
    } = departure;
    format!("| {name} | {says} | {rust} | {ours} | {input} |")
}

/// Runs a departure on the Rust and on `plain`; gives the calls that it makes.
fn run(departure: &Departure, astray: &mut Vec<String>) -> Vec<u8> {
    let did = quietly(departure.run_rust).unwrap_or("panics".into());
    note(astray, departure.name, "the Rust", departure.rust, did);
    let mut server = Server::default();
    let mut answer = |request: &Request| server.answer(request).unwrap_or_else(Reply::broken);
    let mut scene = Scene::new(&mut answer);
    let did = (departure.run_ours)(&mut scene);
    note(astray, departure.name, "plain", departure.ours, did);
    scene.calls
}

/// Runs a departure on a program.
fn run_program(departure: &Departure, program: &mut Program, astray: &mut Vec<String>) {
    let mut answer = |request: &Request| program.answer(request);
    let did = (departure.run_ours)(&mut Scene::new(&mut answer));
    note(astray, departure.name, "ask", departure.ours, did);
}

fn note(astray: &mut Vec<String>, name: &str, who: &str, written: &str, did: String) {
    if did != written {
        astray.push(format!("{name}: {who} did \"{did}\", not \"{written}\""));
    }
}

/// A program that answers some calls.
struct Program {
    ask: Ask,
    calls: Vec<u8>,
}

impl Program {
    fn new(command: &str) -> Result<Program, String> {
        let all: Vec<u8> = (0..=calls::DIGEST).collect();
        let error = |error| format!("{command}: {error}");
        let calls = asking::answered(command, &all).map_err(error)?;
        let ask = Ask::start(command).map_err(error)?;
        Ok(Program { ask, calls })
    }

    fn answers(&self, calls: &[u8]) -> bool {
        calls.iter().all(|call| self.calls.contains(call))
    }

    /// The reply to a request; a program that falls silent gives 255.
    fn answer(&self, request: &Request) -> Reply {
        self.ask.send(vec![request.clone()]);
        self.ask.receive().unwrap_or_else(|_| Reply::broken())
    }
}

#[cfg(test)]
mod tests {
    use super::{run, table::TABLE};

    #[test]
    fn the_rust_and_plain_do_what_is_written() {
        let mut astray = Vec::new();
        for departure in &TABLE {
            assert!(
                !run(departure, &mut astray).is_empty(),
                "{}",
                departure.name
            );
        }
        assert_eq!(astray, Vec::<String>::new());
    }

    #[test]
    fn names_are_unlike() {
        for (at, departure) in TABLE.iter().enumerate() {
            assert!(TABLE[..at].iter().all(|other| other.name != departure.name));
        }
    }
}
