//! The bindings beside the plain reading of document 01: both get the same requests, and after each one the answers and
//! every byte of every page must be alike.

mod generator;
mod ours;

use generator::Scene;
use ours::Ours;
use plain::ask::Server;
use plain::protocol::{Arrival, Request};
use std::collections::{BTreeMap, BTreeSet};

/// The calls by their numbers in the protocol, and the refusals that 01 lists for each; 255 is a batch that is cut.
const LISTED: [(u8, &[u8]); 19] = [
    (2, &[1, 3, 6, 13]),
    (3, &[1, 2, 3, 5, 7, 8, 9, 11, 13]),
    (4, &[1, 2, 3, 5, 7, 8, 17, 18]),
    (5, &[1, 2, 3, 5, 8, 9, 10, 12, 13]),
    (6, &[1, 2, 5, 8, 9, 10, 12, 13]),
    (7, &[1, 2, 3, 4, 8, 14]),
    (8, &[1, 2, 3, 4, 14]),
    (9, &[1, 2, 3, 4, 14]),
    (10, &[1, 2, 3, 4, 10, 14]),
    (11, &[1, 3, 5, 8, 9]),
    (12, &[1, 2, 4, 10, 14]),
    (13, &[1, 2, 4, 10, 14, 15]),
    (14, &[1, 2, 4, 10, 14, 16]),
    (15, &[1, 4, 5]),
    (16, &[2, 3, 8]),
    (17, &[3]),
    (18, &[1, 2]),
    (19, &[1, 2]),
    (20, &[1, 2, 3, 5, 7, 8, 9, 11, 13, 255]),
];

/// Both sides, and how often each call got each number.
#[derive(Default)]
struct Pair {
    plain: Server,
    ours: Ours,
    met: BTreeMap<(u8, u8), u32>,
}

impl Pair {
    /// Asks both sides, and holds them against each other.
    fn ask(&mut self, request: &Request) {
        let (theirs, ours) = (self.plain.answer(request), self.ours.answer(request));
        let number = theirs.as_ref().map_or(255, |reply| reply.number);
        assert!(theirs == ours, "{theirs:?}\n{ours:?}\n{request:?}");
        assert!(self.plain.registers == self.ours.registers, "{request:?}");
        *self.met.entry((request.call, number)).or_default() += 1;
    }

    /// How many calls of document 01 there were.
    fn calls(&self) -> u32 {
        self.met.range((2, 0)..).map(|(_, times)| times).sum()
    }
}

#[test]
fn random_calls_on_good_and_damaged_pages() {
    let mut pair = Pair::default();
    for seed in 0..500 {
        let mut scene = Scene::new(seed);
        for request in scene.pages() {
            pair.ask(&request);
        }
        scene.damage(&pair.plain).iter().for_each(|r| pair.ask(r));
        for _ in 0..50 {
            let request = scene.call(&pair.plain);
            pair.ask(&request);
        }
    }
    assert!(pair.calls() > 70_000, "{}", pair.calls());
    let done = LISTED.iter().map(|&(call, _)| (call, 0));
    let refused = LISTED
        .iter()
        .flat_map(|&(call, numbers)| numbers.iter().map(move |&number| (call, number)));
    let listed: BTreeSet<(u8, u8)> = done.chain(refused).collect();
    let met: BTreeSet<(u8, u8)> = pair.met.range((2, 0)..).map(|(&met, _)| met).collect();
    assert_eq!(met, listed, "{:?}", pair.met);
}

#[test]
fn the_recorded_conversation() {
    let tape = std::fs::read("../../crates/ask/stdin").expect("the recorded conversation of `ask`");
    let mut pair = Pair::default();
    let mut stream = tape.as_slice();
    while let Arrival::Whole(request) = Request::decode(&mut stream).expect("a slice is read") {
        if request.call != 21 {
            pair.ask(&request);
        }
    }
    assert!(pair.calls() > 5_000, "{}", pair.calls());
}
