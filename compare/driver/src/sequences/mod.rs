//! `compare sequences`: long sequences of edits on one page, which lives on in
//! every judge.

mod sequence;

use crate::bench::Bench;
use crate::calls::{BEGIN, CHANGE_KEY, INSERT, RUN_COPY, SET_VALUE};
use crate::case;
use crate::differ::Disagreement;
use crate::options::Options;
use crate::random::Random;
use crate::run;
use crate::tables::Tally;
use crate::talk::Talk;
use sequence::Sequence;
use std::time::Instant;

pub use sequence::Turn;

/// The calls that sequences are made of.
const EDITS: [u8; 5] = [BEGIN, INSERT, SET_VALUE, CHANGE_KEY, RUN_COPY];
/// Calls that are put to `ask` at once. While it answers, the next are judged.
const BATCH: usize = 128;

/// Plays the sequences of all seeds and prints the tables. Answers whether all
/// agreed and, if asked for, the run shows what it shall show.
pub fn sequences(options: &Options) -> Result<bool, String> {
    let bench = run::bench(options)?;
    println!(
        "{}",
        run::introduce(options, &bench, "calls in sequences", &EDITS)
    );
    let mut player = Player {
        options,
        bench,
        tally: Tally::new(),
        told: 0,
        sequences: 0,
        longest: 0,
        entries: 0,
    };
    for &seed in &options.seeds {
        player.play_seed(seed);
    }
    if player.told >= options.tell {
        let told = player.told;
        println!("The run ends here, after {told} disagreements were told.\n");
    }
    println!("{}", player.tally.text());
    println!(
        "sequences: {}, the longest of {} calls; the most entries on a page: {}",
        player.sequences, player.longest, player.entries
    );
    let short = match options.shows {
        true => player.tally.shortfalls(),
        false => Vec::new(),
    };
    for line in &short {
        println!("shortfall: {line}");
    }
    Ok(player.tally.disagreements() == 0 && short.is_empty())
}

/// Plays sequences and counts what they show.
struct Player<'a> {
    options: &'a Options,
    bench: Bench,
    tally: Tally,
    told: usize,
    sequences: usize,
    longest: usize,
    entries: usize,
}

/// Calls that were played one after the other, and the talk with `ask` about them.
struct Lot {
    turns: Vec<Turn>,
    talk: Option<Talk>,
}

impl Player<'_> {
    /// Plays sequences of a seed until it has its count of calls.
    fn play_seed(&mut self, seed: u64) {
        let started = Instant::now();
        let mut random = Random::new(seed);
        let count = self.options.count;
        let (mut done, mut number, mut shown) = (0, 0, 0);
        while done < count && self.told < self.options.tell {
            number += 1;
            let sequence = Sequence::new(Random::new(random.next()), count - done);
            let played = self.play((seed, number), sequence);
            self.sequences += 1;
            self.longest = self.longest.max(played);
            done += played;
            if done * 10 / count > shown {
                shown = done * 10 / count;
                let seconds = started.elapsed().as_secs();
                eprintln!("seed {seed}: {done} of {count} calls, {seconds} s");
            }
        }
    }

    /// Plays one sequence, to its end or to the first disagreement; answers how
    /// many calls it had.
    fn play(&mut self, name: (u64, usize), mut sequence: Sequence) -> usize {
        let mut played = 0;
        let mut waiting = self.lot(&mut sequence);
        while !waiting.turns.is_empty() {
            let next = self.lot(&mut sequence);
            let size = waiting.turns.len();
            let agreed = self.close(name, waiting);
            played += agreed;
            if agreed < size {
                self.bench.stop();
                return played + 1;
            }
            waiting = next;
        }
        played
    }

    /// Plays the next calls and puts them to `ask`.
    fn lot(&mut self, sequence: &mut Sequence) -> Lot {
        let turns: Vec<Turn> = std::iter::from_fn(|| sequence.turn()).take(BATCH).collect();
        let asked = self.options.ask.is_some() && !turns.is_empty();
        let talk = asked.then(|| {
            let mut talk = Talk::live(&turns, |call| self.bench.asks(call));
            self.bench.running().send(talk.requests());
            talk
        });
        Lot { turns, talk }
    }

    /// Hears `ask` and counts the calls; answers how many come before the first
    /// disagreement, which is told.
    fn close(&mut self, name: (u64, usize), lot: Lot) -> usize {
        let Lot { mut turns, talk } = lot;
        if let Some(talk) = talk {
            let papers: Vec<_> = turns.iter().map(|turn| &turn.judged.paper).collect();
            let heard = talk.hear(self.bench.running(), &papers);
            if let Some((at, disagreement)) = heard.into_iter().next() {
                turns[at].judged.disagreement.get_or_insert(disagreement);
            }
        }
        for (at, turn) in turns.iter_mut().enumerate() {
            turn.judged.ask = self.bench.asks(turn.case.request.call);
            self.tally.count(&turn.case, &turn.judged);
            self.entries = self.entries.max(turn.entries);
            if let Some(found) = &turn.judged.disagreement {
                tell(name, turn, found);
                self.told += 1;
                return at;
            }
        }
        turns.len()
    }
}

/// Prints a disagreement.
fn tell((seed, number): (u64, usize), turn: &Turn, found: &Disagreement) {
    let request = &turn.case.request;
    println!(
        "DISAGREEMENT of {} with paper in {} (seed {seed}, sequence {number}, call {}):",
        found.by,
        turn.case.call().name,
        turn.place
    );
    let mut pages = vec![("page", request.page, &turn.case.page)];
    if turn.case.takes_two() {
        pages.push(("source page", request.other, &turn.case.other));
    }
    for (title, register, page) in pages {
        println!(
            "  {title}: register {register}, {} entries at width {}, {} bytes free",
            page.facts.entries.len(),
            page.facts.width,
            page.facts.free
        );
        for (i, step) in page.script.iter().enumerate() {
            println!("    {}. {step}", i + 1);
        }
    }
    println!(
        "  call: {}\n  paper: {}\n  {}: {}\n  first difference (paper against {}): {}\n",
        case::words(request),
        found.paper,
        found.by,
        found.theirs,
        found.by,
        found.first
    );
}
