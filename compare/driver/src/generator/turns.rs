//! Turns of a sequence: edits of a page that lives on, and of a second one
//! that run copies are made from.

use super::Generator;
use crate::calls::{self, Call};
use crate::case::Case;
use crate::keys::{self, Suffixes};
use crate::pages::{self, Builder, Page};
use crate::pool::{request, Pool};
use crate::random::Random;
use crate::script::Step;
use std::rc::Rc;

/// How often each edit is a turn.
const TURNS: [(usize, u8); 5] = [
    (5, calls::BEGIN),
    (49, calls::INSERT),
    (12, calls::SET_VALUE),
    (19, calls::CHANGE_KEY),
    (15, calls::RUN_COPY),
];
/// The same in a sequence whose pages are packed.
const PACKED_TURNS: [(usize, u8); 5] = [
    (1, calls::BEGIN),
    (82, calls::INSERT),
    (5, calls::SET_VALUE),
    (6, calls::CHANGE_KEY),
    (6, calls::RUN_COPY),
];
/// Sequences whose pages are packed, in a hundred.
const PACKED: usize = 8;
/// The first bytes of packed suffixes, on the page and on the second one. They
/// lie between all fences.
const PACKED_HEADS: [(usize, usize); 2] = [(61, 100), (101, 139)];
/// Turns on the second page, in a hundred.
const ON_SECOND: usize = 24;
/// Turns on a page of few entries that are inserts beyond those of the weights, in a hundred.
const GROWING: usize = 35;
/// Pages with hints, in a hundred.
const HINTED: usize = 88;
/// Free bytes below which a page counts as crowded.
const CROWDED: usize = 400;

/// What the pages of one sequence look like.
pub struct Course {
    /// The width of their values.
    pub width: u8,
    /// Whether the pages are packed with entries: suffixes are short, and the
    /// second page has many from the start, above those of the first.
    pub packed: bool,
    lower: Vec<u8>,
    upper: Vec<u8>,
    suffixes: Suffixes,
}

impl Course {
    /// Some course.
    pub fn some(random: &mut Random) -> Course {
        let (lower, upper) = keys::fences(random);
        let suffixes = match random.below(10) {
            0..=6 => Suffixes::some(random, 64),
            7 | 8 => Suffixes::some(random, 1),
            _ => Suffixes::filling(random),
        };
        Course {
            width: pages::width(random),
            packed: random.percent(PACKED),
            lower,
            upper,
            suffixes,
        }
    }

    /// The second page of a packed sequence, which is there from the start.
    pub fn second(&self, random: &mut Random) -> Vec<u8> {
        let mut second = Builder::begin(random, self.width, &self.lower, &self.upper, true);
        for _ in 0..random.within(300, 1_500) {
            let key = self.packed_key(random, 1);
            second.insert(random, key);
        }
        second.finish().bytes
    }

    /// A key with a short suffix, for the page or the second one.
    fn packed_key(&self, random: &mut Random, which: usize) -> Vec<u8> {
        let prefix = &self.lower[..keys::shared_prefix(&self.lower, &self.upper)];
        let (from, to) = PACKED_HEADS[which];
        let head = random.within(from, to) as u8;
        let length = random.within(1, 3);
        [prefix, &[head], &random.bytes(length)].concat()
    }

    /// The begin of the page that lives on.
    pub fn begin(&self, random: &mut Random) -> Step {
        let hints = random.percent(HINTED);
        pages::begin(random, &self.lower, &self.upper, hints)
    }

    /// A begin of the second page: under the same fences, none, others, or such
    /// that only their prefix is another of the same length.
    pub fn begin_second(&self, random: &mut Random) -> Step {
        let prefix = keys::shared_prefix(&self.lower, &self.upper);
        let (lower, upper) = match random.below(10) {
            0 | 1 => (Vec::new(), Vec::new()),
            2 => keys::fences(random),
            3 if prefix > 0 => {
                let (at, byte) = (random.below(prefix), random.byte());
                let (mut lower, mut upper) = (self.lower.clone(), self.upper.clone());
                (lower[at], upper[at]) = (byte, byte);
                (lower, upper)
            }
            _ => (self.lower.clone(), self.upper.clone()),
        };
        let hints = random.percent(HINTED);
        pages::begin(random, &lower, &upper, hints)
    }
}

impl Generator {
    /// The next call of a sequence, on the page that lives on or on the second one.
    pub fn turn(&mut self, course: &Course, living: &Rc<Page>, second: &Rc<Page>) -> Case {
        let on_second = self.random.percent(ON_SECOND);
        let (page, other) = match on_second {
            true => (second, living),
            false => (living, second),
        };
        self.seat(Pool::living(page.clone(), other.clone()));
        let renewed = on_second && crowded(page) && self.random.percent(10);
        let turns = if course.packed { &PACKED_TURNS } else { &TURNS };
        let number = match page.facts.entries.len() < 64 && self.random.percent(GROWING) {
            true => calls::INSERT,
            false => self.random.weighted(turns),
        };
        let call = calls::by_number(number).expect("turns are calls of the table");
        if renewed || on_second && number == calls::BEGIN && self.random.percent(20) {
            let begin = request(&course.begin_second(&mut self.random));
            return Case::new(page.clone(), begin.expect("a begin is a call"));
        }
        match self.random.below(100) {
            0..=69 if number == calls::INSERT => self.filed(course, page, living),
            0..=39 if number == calls::RUN_COPY => self.whole_run(page, other),
            0..=69 if number != calls::BEGIN => self.accepted(call),
            70..=71 if number != calls::BEGIN => self.wild(call),
            _ => self.turned_down(call, page, on_second),
        }
    }

    /// An insert that does not fill the page at once: a key of the course, one
    /// between others or near one, or one above the last of a page.
    fn filed(&mut self, course: &Course, page: &Rc<Page>, below: &Rc<Page>) -> Case {
        if crowded(page) && self.random.percent(30) {
            return self.insert();
        }
        let second = !Rc::ptr_eq(page, below);
        let above = if second { 5 } else { 1 };
        let key = match self.random.below(10) {
            _ if course.packed => course.packed_key(&mut self.random, usize::from(second)),
            at if at < above => self.above(page, below),
            5..=6 => self.absent(page),
            7 => {
                let key = self.present(page);
                keys::near(&mut self.random, &key)
            }
            _ => self.fresh(course, page),
        };
        let value = pages::value(&mut self.random, page.facts.width);
        self.insert_of(page.clone(), key, value)
    }

    /// A run copy of all that is above the page's last key, or of what there is room for.
    fn whole_run(&mut self, page: &Rc<Page>, other: &Rc<Page>) -> Case {
        let last = page.facts.entries.last().map(|entry| &entry.key);
        let entries = &other.facts.entries;
        let first = entries.partition_point(|entry| Some(&entry.key) <= last);
        let all = entries.len() - first;
        let least = 8 + usize::from(page.facts.width);
        let n = match self.random.percent(50) {
            true => all,
            false => all.min(page.facts.free / least),
        };
        self.run_copy_of(page.clone(), other.clone(), first as u64, n as u64)
    }

    /// A key of the course, within the page's fences if a few tries find one.
    fn fresh(&mut self, course: &Course, page: &Page) -> Vec<u8> {
        let facts = &page.facts;
        let within =
            |key: &Vec<u8>| *key >= facts.lower && (facts.upper.is_empty() || *key < facts.upper);
        let key = (0..6)
            .map(|_| [&facts.prefix[..], &course.suffixes.suffix(&mut self.random)].concat())
            .find(within);
        key.unwrap_or_else(|| self.absent(page))
    }

    /// A key for a page that is above another's last one.
    fn above(&mut self, page: &Page, below: &Page) -> Vec<u8> {
        let low = below.facts.entries.last().map(|entry| &entry.key[..]);
        let high = Some(&page.facts.upper[..]).filter(|upper| !upper.is_empty());
        let key = keys::between(&mut self.random, low.or(Some(&page.facts.lower)), high);
        key.unwrap_or_else(|| self.absent(page))
    }

    /// A call meant to get one of its refusals. Long arguments and pages of
    /// other lengths are rare, and so are keys that need all of much free space:
    /// some are accepted, and then the page is full.
    fn turned_down(&mut self, call: &Call, page: &Rc<Page>, on_second: bool) -> Case {
        let roomy = page.facts.free > 1_500;
        let aimed = |refusal: u8, random: &mut Random| match (call.number, refusal) {
            (_, 1 | 3) => random.percent(25),
            (calls::BEGIN, 13) => on_second,
            (_, 13) if roomy => random.percent(5),
            _ => true,
        };
        let mut refusal = *self.random.pick(call.refusals);
        while !aimed(refusal, &mut self.random) {
            refusal = *self.random.pick(call.refusals);
        }
        // Fences and runs that do not fit are seldom found by chance.
        let scarce = match call.number {
            calls::BEGIN => on_second,
            calls::RUN_COPY => !roomy,
            _ => false,
        };
        if scarce && self.random.percent(60) {
            refusal = 13;
        }
        if refusal == 5 && !page.facts.entries.is_empty() && self.random.percent(50) {
            return self.of_another_width(call);
        }
        self.refused(call, refusal)
    }

    /// A call at another width than the page's, for which no filled page is fit.
    fn of_another_width(&mut self, call: &Call) -> Case {
        let mut case = self.accepted(call);
        let widths: &[u8] = match case.request.width {
            0 => &[1, 8],
            1 => &[0, 8],
            _ => &[0, 1],
        };
        case.request.width = *self.random.pick(widths);
        case
    }
}

fn crowded(page: &Page) -> bool {
    page.facts.free < CROWDED
}
