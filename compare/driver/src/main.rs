//! `compare`: doradb, the plain reading of document 01 and the server `ask`,
//! side by side.

mod asking;
mod batch;
mod bench;
mod calls;
mod case;
mod damage;
mod departures;
mod differ;
mod generator;
mod judges;
mod keys;
mod options;
mod pages;
mod places;
mod pool;
mod quiet;
mod random;
mod record;
mod run;
mod samples;
mod script;
mod sequences;
mod shrink;
mod speed;
mod tables;
mod talk;

use options::{Options, USAGE};
use std::process::ExitCode;

/// Exit status 0: all agreed; 1: they did not; 2: the run could not be made.
fn main() -> ExitCode {
    let agreed = Options::read(std::env::args().skip(1)).and_then(|options| {
        match options.command.as_str() {
            "run" => run::run(&options),
            "sequences" => sequences::sequences(&options),
            "record" => record::record(&options),
            "departures" => departures::departures(&options),
            "samples" => samples::samples(&options),
            "bench" => speed::bench(&options),
            _ => Err(USAGE.into()),
        }
    });
    match agreed {
        Ok(true) => ExitCode::SUCCESS,
        Ok(false) => ExitCode::from(1),
        Err(message) => {
            eprintln!("{message}");
            ExitCode::from(2)
        }
    }
}
