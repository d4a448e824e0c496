//! Cases by aim: for each call some that are accepted and, for each of its
//! refusals, some that are meant to get it. What a case gets is the judges'
//! matter; an aim that is missed is a case all the same.

mod arguments;
mod begins;
mod copies;
mod edits;
mod searches;
mod slots;
mod sums;
mod turns;

use crate::batch::record;
use crate::calls::{self, Call};
use crate::case::Case;
use crate::damage;
use crate::keys;
use crate::pages::Page;
use crate::pool::Pool;
use crate::random::Random;
use plain::protocol::Request;
use std::rc::Rc;

pub use turns::Course;

/// Widths that no value has.
const BAD_WIDTHS: [u8; 8] = [2, 3, 4, 7, 9, 16, 128, 255];

/// How often each call is asked, in a hundred or so.
const WEIGHTS: [(usize, u8); 19] = [
    (5, calls::BEGIN),
    (9, calls::INSERT),
    (7, calls::SET_VALUE),
    (9, calls::CHANGE_KEY),
    (7, calls::RUN_COPY),
    (8, calls::FIND),
    (7, calls::LOWER_BOUND),
    (7, calls::UPPER_BOUND),
    (6, calls::COMPARE),
    (6, calls::CHILD),
    (5, calls::ENTRY),
    (5, calls::KEY_COPY),
    (5, calls::TRAILING_ID),
    (5, calls::SPACE),
    (3, calls::NEED),
    (2, calls::FORECAST),
    (5, calls::LAYOUT),
    (5, calls::FIT),
    (4, calls::FILE_BATCH),
];

/// A stream of cases of one seed.
pub struct Generator {
    random: Random,
    pool: Pool,
    calls: Vec<(usize, u8)>,
}

impl Generator {
    /// Cases for some calls, on pages of a pool.
    pub fn new(random: Random, pool: Pool, calls: &[u8]) -> Generator {
        let calls = WEIGHTS
            .into_iter()
            .filter(|(_, call)| calls.contains(call))
            .collect();
        Generator {
            random,
            pool,
            calls,
        }
    }

    /// Lets the next cases be drawn from another pool.
    pub fn seat(&mut self, pool: Pool) {
        self.pool = pool;
    }

    /// The next case.
    pub fn next(&mut self) -> Case {
        self.pool.renew(&mut self.random);
        if let Some(suspect) = self.pool.suspect() {
            return suspect;
        }
        let number = self.random.weighted(&self.calls);
        let call = calls::by_number(number).expect("weights are given for calls of the table");
        match self.random.below(100) {
            0..=56 => self.accepted(call),
            57..=94 => {
                let refusal = *self.random.pick(call.refusals);
                self.refused(call, refusal)
            }
            _ => self.wild(call),
        }
    }

    /// A case meant to get a refusal, and one of any refusal on top of it now
    /// and then, so that the order of the refusals shows.
    pub fn refused(&mut self, call: &Call, refusal: u8) -> Case {
        let case = self.aimed(call, refusal);
        if self.random.percent(25) {
            let other = *self.random.pick(call.refusals);
            return self.spoilt(case, other);
        }
        case
    }

    fn aimed(&mut self, call: &Call, refusal: u8) -> Case {
        if refusal <= 5 {
            let case = self.accepted(call);
            return self.spoilt(case, refusal);
        }
        match call.number {
            calls::BEGIN => self.begin_refused(refusal),
            calls::INSERT => self.insert_refused(refusal),
            calls::SET_VALUE => self.set_value_refused(refusal),
            calls::CHANGE_KEY => self.change_key_refused(refusal),
            calls::RUN_COPY => self.run_copy_refused(refusal),
            calls::FIND | calls::LOWER_BOUND | calls::UPPER_BOUND => {
                self.search_refused(call.number, refusal)
            }
            calls::CHILD => self.child_refused(refusal),
            calls::NEED => self.need_refused(),
            calls::FILE_BATCH => self.batch_refused(refusal),
            _ => self.slot_refused(call.number, refusal),
        }
    }

    /// A case meant to be accepted.
    pub fn accepted(&mut self, call: &Call) -> Case {
        match call.number {
            calls::BEGIN => self.begin(),
            calls::INSERT => self.insert(),
            calls::SET_VALUE => self.set_value(),
            calls::CHANGE_KEY => self.change_key(),
            calls::RUN_COPY => self.run_copy(),
            calls::FIND | calls::LOWER_BOUND | calls::UPPER_BOUND => self.search(call.number),
            calls::CHILD => self.child(),
            calls::NEED => self.need(),
            calls::FORECAST => self.forecast(),
            calls::SPACE | calls::LAYOUT | calls::FIT => self.judged(call.number),
            calls::FILE_BATCH => self.batch(),
            _ => self.slot(call.number),
        }
    }

    /// Anything: an accepted case with arguments exchanged for others.
    fn wild(&mut self, call: &Call) -> Case {
        let mut case = self.accepted(call);
        let page = case.page.clone();
        match self.random.below(4) {
            0 => case.request.a = self.number(&page),
            1 => case.request.b = self.number(&page),
            2 if call.number != calls::FILE_BATCH => case.request.first = self.probe(&page),
            _ => case.page = Rc::new(damage::some(&mut self.random, &page)),
        }
        if call.number == calls::BEGIN {
            case.request.a %= 65_536;
        }
        case
    }

    /// A case spoilt for one of its refusals, as far as one change can do it.
    fn spoilt(&mut self, mut case: Case, refusal: u8) -> Case {
        let page = case.page.clone();
        let keyed = !matches!(
            case.request.call,
            calls::RUN_COPY | calls::NEED | calls::FILE_BATCH
        );
        match refusal {
            1 | 4 | 5 => self.spoil_page(&mut case, refusal),
            2 => case.request.width = *self.random.pick(&BAD_WIDTHS),
            3 => self.lengthen(&mut case.request),
            7 => case.request.a = self.large(page.facts.width),
            8 if keyed => case.request.first = self.strange(&page),
            9 if keyed => case.request.first = self.outside(&page),
            10 => case.request.a = self.unoccupied(&page),
            _ => {}
        }
        case
    }

    /// Spoils the page of a case, or the source of a run copy, or both.
    fn spoil_page(&mut self, case: &mut Case, refusal: u8) {
        let which = if case.takes_two() {
            self.random.below(3)
        } else {
            0
        };
        if which != 1 {
            case.page = self.spoilt_page(&case.page, case.request.call, refusal);
        }
        if which != 0 {
            case.other = self.spoilt_page(&case.other, case.request.call, refusal);
        }
    }

    fn spoilt_page(&mut self, page: &Rc<Page>, call: u8, refusal: u8) -> Rc<Page> {
        let random = &mut self.random;
        if refusal == 1 {
            return Rc::new(damage::length(random, page));
        }
        Rc::new(match refusal {
            4 => damage::header(random, page),
            _ if call == calls::SPACE => damage::overdrawn(random, page),
            _ => damage::some(random, page),
        })
    }

    /// Makes a key argument longer than any key.
    fn lengthen(&mut self, request: &mut Request) {
        let long = keys::too_long(&mut self.random);
        match request.call {
            calls::FILE_BATCH => request.first = record(&long, 0),
            calls::BEGIN | calls::FORECAST if self.random.percent(50) => request.second = long,
            _ => request.first = long,
        }
    }
}
