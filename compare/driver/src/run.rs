//! `compare run`: generated or given cases through all judges.

use crate::bench::{Bench, Judged};
use crate::calls::CALLS;
use crate::case::Case;
use crate::differ::Disagreement;
use crate::generator::Generator;
use crate::options::Options;
use crate::pages::Page;
use crate::pool::Pool;
use crate::random::Random;
use crate::script::Step;
use crate::shrink::shrink;
use crate::tables::Tally;
use std::rc::Rc;
use std::time::{Duration, Instant};
use std::{fs, iter, slice};

/// Cases that are put to `ask` before its first answer is awaited.
const BATCH: usize = 256;

/// Runs all seeds and prints the tables. Answers whether all agreed and, if
/// asked for, the run shows what it shall show.
pub fn run(options: &Options) -> Result<bool, String> {
    let mut bench = bench(options)?;
    println!("{}", introduce(options, &bench, "cases", &options.calls));
    let mut tally = Tally::new();
    for &seed in &options.seeds {
        let mut generator = generator(options, seed)?;
        let told = run_seed(options, seed, &mut generator, &mut bench, &mut tally);
        if told >= options.tell {
            println!("The run ends here, after {told} disagreements were told.\n");
            break;
        }
    }
    println!("{}", tally.text());
    let short = if options.shows {
        tally.shortfalls()
    } else {
        Vec::new()
    };
    for line in &short {
        println!("shortfall: {line}");
    }
    Ok(tally.disagreements() == 0 && short.is_empty())
}

/// The judges that the options name.
pub fn bench(options: &Options) -> Result<Bench, String> {
    match &options.ask {
        Some(command) => Bench::with_ask(command),
        None => Ok(Bench::alone()),
    }
}

/// What is put to whom, and which of the calls go to doradb and `plain` alone.
pub fn introduce(options: &Options, bench: &Bench, what: &str, calls: &[u8]) -> String {
    let seeds: Vec<String> = options.seeds.iter().map(|seed| seed.to_string()).collect();
    let what = format!(
        "{} {what} from each of the seeds {}",
        options.count,
        seeds.join(", ")
    );
    let silent: Vec<&str> = CALLS
        .iter()
        .filter(|call| calls.contains(&call.number) && !bench.asks(call.number))
        .map(|call| call.name)
        .collect();
    let judges = match (&options.ask, silent.is_empty()) {
        (None, _) => "doradb and plain alone: there is no program `ask` to put them to".into(),
        (Some(command), true) => format!("doradb, plain and `{command}`"),
        (Some(command), false) => format!(
            "doradb, plain and `{command}`; it does not answer {}, so there doradb and plain alone",
            silent.join(", ")
        ),
    };
    format!("{what}: {judges}\n")
}

fn generator(options: &Options, seed: u64) -> Result<Generator, String> {
    let mut random = Random::new(seed);
    let pool = match options.pages.is_empty() {
        true => Pool::generated(&mut random),
        false => Pool::given(given(options)?),
    };
    Ok(Generator::new(random, pool, &options.calls))
}

/// The pages of the files that were given.
fn given(options: &Options) -> Result<Vec<Rc<Page>>, String> {
    options
        .pages
        .iter()
        .map(|name| {
            let bytes = fs::read(name).map_err(|error| format!("{name}: {error}"))?;
            let step = Step::Given {
                name: name.clone(),
                bytes: bytes.clone(),
            };
            Ok(Rc::new(Page::new(vec![step], bytes, options.width)))
        })
        .collect()
}

/// Runs one seed's cases; answers how many disagreements were told.
fn run_seed(
    options: &Options,
    seed: u64,
    generator: &mut Generator,
    bench: &mut Bench,
    tally: &mut Tally,
) -> usize {
    let started = Instant::now();
    let (mut done, mut told, mut shown) = (0, 0, 0);
    while done < options.count && told < options.tell {
        let size = BATCH.min(options.count - done);
        let cases: Vec<Case> = (0..size).map(|_| generator.next()).collect();
        let judged = bench.judge(&cases);
        for (case, judged) in cases.iter().zip(&judged) {
            tally.count(case, judged);
        }
        for at in disagreeing(&cases, &judged)
            .into_iter()
            .take(options.tell - told)
        {
            let found = judged[at].disagreement.as_ref().expect("it disagrees");
            let (at, found) = culprit(bench, &cases, at, found);
            tell(options, bench, (seed, done + at), &cases[at], &found);
            told += 1;
        }
        done += size;
        if done * 10 / options.count > shown {
            shown = done * 10 / options.count;
            let seconds = started.elapsed().as_secs();
            eprintln!(
                "seed {seed}: {done} of {} cases, {seconds} s",
                options.count
            );
        }
    }
    told
}

/// The cases that somebody disagrees on, those with the shortest way first.
fn disagreeing(cases: &[Case], judged: &[Judged]) -> Vec<usize> {
    let mut at: Vec<usize> = (0..cases.len())
        .filter(|&at| judged[at].disagreement.is_some())
        .collect();
    at.sort_by_key(|&at| cases[at].page.script.len() + cases[at].other.script.len());
    at
}

/// The case to tell for a disagreement. That a page changed may be the doing of
/// another read of it, so each of them is judged by itself until one is found.
fn culprit(
    bench: &mut Bench,
    cases: &[Case],
    at: usize,
    found: &Disagreement,
) -> (usize, Disagreement) {
    let on_its_page = |&other: &usize| Rc::ptr_eq(&cases[other].page, &cases[at].page);
    iter::once(at)
        .chain((0..cases.len()).filter(on_its_page))
        .find_map(|at| {
            let alone = bench.judge(slice::from_ref(&cases[at])).remove(0);
            alone.disagreement.map(|found| (at, found))
        })
        .unwrap_or_else(|| (at, found.clone()))
}

/// Makes a disagreement small and prints it.
fn tell(
    options: &Options,
    bench: &mut Bench,
    (seed, at): (u64, usize),
    case: &Case,
    found: &Disagreement,
) {
    let (small, said) = shrink(bench, case, found, Duration::from_secs(options.patience));
    println!(
        "DISAGREEMENT of {} with paper in {} (seed {seed}, case {at}), made small:\n{small}  \
         paper: {}\n  {}: {}\n  first difference (paper against {}): {}\n",
        said.by,
        case.call().name,
        said.paper,
        said.by,
        said.theirs,
        said.by,
        said.first
    );
}
