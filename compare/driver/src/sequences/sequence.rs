//! One sequence: two pages that live on, in `plain`'s registers and in doradb's,
//! from one call to the next.

use crate::bench::{self, Judged};
use crate::case::Case;
use crate::generator::{Course, Generator};
use crate::judges::{self, Claim, Verdict};
use crate::pages::{self, Page};
use crate::pool::{request, Pool};
use crate::random::Random;
use crate::script::replay;
use doradb::oracle;
use plain::ask::Server;
use plain::protocol::Request;
use std::rc::Rc;

/// The most calls of a sequence.
const LONGEST: usize = 1_000;
/// Registers of pages that live on: the page of the sequence and the second
/// one. The two after them hold what is loaded for one call, a page and a source.
const LIVING: usize = 2;
/// Free bytes below which the page of a sequence is full, and the sequence may end.
const FULL: usize = 40;

/// A sequence that is played call by call.
pub struct Sequence {
    random: Random,
    generator: Generator,
    course: Course,
    length: usize,
    played: usize,
    plain: Server,
    doradb: [Option<Box<oracle::Page>>; 4],
    pages: [Rc<Page>; LIVING],
}

/// A call of a sequence after `plain` and doradb have spoken.
pub struct Turn {
    /// Its place in the sequence, from 1.
    pub place: usize,
    /// The call, with its registers, and the pages that it found there.
    pub case: Case,
    /// What the judges say.
    pub judged: Judged,
    /// What is loaded into registers before the call.
    pub loads: Vec<(usize, Rc<Page>)>,
    /// What registers hold after it: the source of a run copy, at the end of
    /// the sequence both pages.
    pub held: Vec<(usize, Rc<Page>)>,
    /// The entries of the fuller one of the two pages after it.
    pub entries: usize,
}

impl Sequence {
    /// A sequence of a seed of its own, of at most so many calls.
    pub fn new(mut random: Random, most: usize) -> Sequence {
        let course = Course::some(&mut random);
        let length = length(&mut random).min(most);
        let bed = |random: &mut Random| {
            let bed = vec![pages::bed(random)];
            let bytes = replay(&bed);
            Page::new(bed, bytes, course.width)
        };
        let page = bed(&mut random);
        let second = match course.packed {
            true => Page::new(Vec::new(), course.second(&mut random), course.width),
            false => bed(&mut random),
        };
        let pages = [page, second].map(Rc::new);
        let pool = Pool::living(pages[0].clone(), pages[1].clone());
        let generator = Generator::new(Random::new(random.next()), pool, &[]);
        Sequence {
            random,
            generator,
            course,
            length,
            played: 0,
            plain: Server::default(),
            doradb: [const { None }; 4],
            pages,
        }
    }

    /// The next call, played; none at the end or after a disagreement.
    pub fn turn(&mut self) -> Option<Turn> {
        if self.played == self.length {
            return None;
        }
        let mut loads = Vec::new();
        if self.played == 0 {
            loads.extend(self.pages.iter().cloned().enumerate());
        }
        let case = self.next();
        let case = self.registered(case, &mut loads);
        for (place, page) in &loads {
            self.plain.registers[*place].clone_from(&page.bytes);
            self.doradb[*place] = oracle::Page::of(&page.bytes);
        }
        self.played += 1;
        Some(self.play(case, loads))
    }

    /// The next call: each of the two pages is begun, unless it is there already,
    /// then any edit.
    fn next(&mut self) -> Case {
        let begin = match self.played {
            0 => self.course.begin(&mut self.random),
            1 if !self.course.packed => self.course.begin_second(&mut self.random),
            _ => {
                let [living, second] = &self.pages;
                return self.generator.turn(&self.course, living, second);
            }
        };
        let request = request(&begin).expect("a begin is a call");
        Case::new(self.pages[self.played].clone(), request)
    }

    /// A call with the registers of its pages; those that do not live are loaded.
    fn registered(&self, mut case: Case, loads: &mut Vec<(usize, Rc<Page>)>) -> Case {
        let living = |page: &Rc<Page>| self.pages.iter().position(|held| Rc::ptr_eq(held, page));
        let page = living(&case.page).unwrap_or_else(|| {
            loads.push((LIVING, case.page.clone()));
            LIVING
        });
        case.request.page = page as u8;
        if case.takes_two() {
            let other = living(&case.other).filter(|other| *other != page);
            let other = other.unwrap_or_else(|| {
                loads.push((LIVING + 1, case.other.clone()));
                LIVING + 1
            });
            case.request.other = other as u8;
        }
        case
    }

    /// Lets `plain` and doradb do the call.
    fn play(&mut self, case: Case, loads: Vec<(usize, Rc<Page>)>) -> Turn {
        let place = usize::from(case.request.page);
        let reply = self
            .plain
            .answer(&case.request)
            .expect("turns are carried to a call");
        let mut after = case.page.bytes.clone();
        let mut claims = Vec::new();
        // A refused call changes nothing. One that is not is in document 01's
        // domain of equality.
        if reply.number == 0 {
            after.clone_from(&self.plain.registers[place]);
            claims.push(self.ask_doradb(&case.request));
            if place < LIVING {
                let page = Page::new(Vec::new(), after.clone(), self.course.width);
                self.pages[place] = Rc::new(page);
            }
        }
        let after = Some(after);
        let judged = bench::settled(&case, Verdict { reply, after }, claims);
        let full = self.pages[0].facts.free < FULL && self.random.percent(1);
        if full || judged.disagreement.is_some() {
            self.length = self.played;
        }
        Turn {
            place: self.played,
            held: self.held(&case),
            entries: self.entries(),
            case,
            judged,
            loads,
        }
    }

    fn ask_doradb(&mut self, request: &Request) -> Claim {
        let place = usize::from(request.page);
        let mut page = self.doradb[place].take();
        let other = self.doradb[usize::from(request.other)].as_deref();
        let claim = judges::edit_kept(page.as_deref_mut(), other, request);
        self.doradb[place] = page;
        claim
    }

    fn entries(&self) -> usize {
        let [page, second] = self.pages.each_ref().map(|page| page.facts.entries.len());
        page.max(second)
    }

    /// What registers that the call did not edit hold after it.
    fn held(&self, case: &Case) -> Vec<(usize, Rc<Page>)> {
        let mut held = Vec::new();
        if case.takes_two() {
            held.push((usize::from(case.request.other), case.other.clone()));
        }
        if self.played == self.length {
            held.extend(self.pages.iter().cloned().enumerate());
        }
        held
    }
}

/// How many calls a sequence has.
fn length(random: &mut Random) -> usize {
    match random.below(8) {
        0 => random.within(3, 80),
        1 | 2 => random.within(81, 400),
        3 | 4 => random.within(401, LONGEST),
        _ => LONGEST,
    }
}
