//! The pages that cases are drawn from. They are renewed as cases go by, so
//! that a long run sees many.

use crate::calls;
use crate::case::Case;
use crate::judges;
use crate::pages::{self, Page};
use crate::random::Random;
use crate::script::{replay, Step};
use plain::protocol::Request;
use std::rc::Rc;

/// Single pages and pairs for run copies that a generated pool starts with.
const FIRST: (usize, usize) = (24, 8);
/// Single pages and pairs that it grows to.
const ALL: (usize, usize) = (80, 24);
/// A generated pool grows by a page after this many cases.
const PAGE_GROWTH: usize = 20;
/// A generated pool grows by a pair after this many cases.
const PAIR_GROWTH: usize = 60;
/// A page is exchanged after this many cases.
const PAGE_LIFE: usize = 250;
/// A pair is exchanged after this many cases.
const PAIR_LIFE: usize = 1_500;

/// Pages to draw from.
pub struct Pool {
    pages: Vec<Rc<Page>>,
    pairs: Vec<(Rc<Page>, Rc<Page>)>,
    given: bool,
    drawn: usize,
    suspects: Vec<Case>,
}

impl Pool {
    /// A pool of generated pages.
    pub fn generated(random: &mut Random) -> Pool {
        let mut pool = Pool::of(Vec::new(), Vec::new(), false);
        for _ in 0..FIRST.0 {
            let page = pool.page_made(random);
            pool.pages.push(page);
        }
        for _ in 0..FIRST.1 {
            let pair = pool.pair_made(random);
            pool.pairs.push(pair);
        }
        pool
    }

    /// A pool of given pages; each is also source and destination of run copies.
    pub fn given(pages: Vec<Rc<Page>>) -> Pool {
        let pair = |one: &Rc<Page>, other: &Rc<Page>| (one.clone(), other.clone());
        let pairs = pages
            .iter()
            .flat_map(|one| pages.iter().map(move |other| pair(one, other)));
        let pairs = pairs.collect();
        Pool::of(pages, pairs, true)
    }

    /// A pool of given pages, the first two of them destination and source.
    pub fn paired(pages: Vec<Rc<Page>>) -> Pool {
        let pairs = vec![(pages[0].clone(), pages[1].clone())];
        Pool::of(pages, pairs, true)
    }

    /// A pool of one page, which is also the destination of run copies from another.
    pub fn living(page: Rc<Page>, other: Rc<Page>) -> Pool {
        Pool::of(vec![page.clone()], vec![(page, other)], true)
    }

    fn of(pages: Vec<Rc<Page>>, pairs: Vec<(Rc<Page>, Rc<Page>)>, given: bool) -> Pool {
        Pool {
            pages,
            pairs,
            given,
            drawn: 0,
            suspects: Vec::new(),
        }
    }

    /// Counts a case; when it is time, adds a page or exchanges one for a new one.
    pub fn renew(&mut self, random: &mut Random) {
        self.drawn += 1;
        if self.given {
            return;
        }
        if self.pages.len() < ALL.0 && self.drawn.is_multiple_of(PAGE_GROWTH) {
            let page = self.page_made(random);
            self.pages.push(page);
        }
        if self.pairs.len() < ALL.1 && self.drawn.is_multiple_of(PAIR_GROWTH) {
            let pair = self.pair_made(random);
            self.pairs.push(pair);
        }
        if self.drawn.is_multiple_of(PAGE_LIFE) {
            let at = self.drawn / PAGE_LIFE % self.pages.len();
            self.pages[at] = self.page_made(random);
        }
        if self.drawn.is_multiple_of(PAIR_LIFE) {
            let at = self.drawn / PAIR_LIFE % self.pairs.len();
            self.pairs[at] = self.pair_made(random);
        }
    }

    /// A step of a page's construction that doradb did otherwise, as a case.
    pub fn suspect(&mut self) -> Option<Case> {
        self.suspects.pop()
    }

    /// A page that is as wanted, or any if many tries find none.
    pub fn page(&self, random: &mut Random, wanted: impl Fn(&Page) -> bool) -> Rc<Page> {
        let mut page = random.pick(&self.pages);
        for _ in 0..60 {
            if wanted(page) {
                break;
            }
            page = random.pick(&self.pages);
        }
        page.clone()
    }

    /// A destination and a source.
    pub fn pair(&self, random: &mut Random) -> (Rc<Page>, Rc<Page>) {
        random.pick(&self.pairs).clone()
    }

    fn page_made(&mut self, random: &mut Random) -> Rc<Page> {
        let page = pages::some(random);
        self.hold(&page);
        Rc::new(page)
    }

    fn pair_made(&mut self, random: &mut Random) -> (Rc<Page>, Rc<Page>) {
        let width = pages::width(random);
        let (one, other) = pages::two(random, width);
        self.hold(&one);
        self.hold(&other);
        (Rc::new(one), Rc::new(other))
    }

    /// Holds a page that `plain` built to doradb's: where doradb builds another
    /// one, every step of the way becomes a case.
    fn hold(&mut self, page: &Page) {
        if judges::rebuilt(&page.script).as_ref() == Some(&page.bytes) {
            return;
        }
        for (at, step) in page.script.iter().enumerate() {
            if let Some(request) = request(step) {
                let (script, width) = (page.script[..at].to_vec(), page.facts.width);
                let before = Page::new(script.clone(), replay(&script), width);
                self.suspects.push(Case::new(Rc::new(before), request));
            }
        }
    }
}

/// A step as the call that it is.
pub fn request(step: &Step) -> Option<Request> {
    let none = Request::default();
    Some(match step.clone() {
        Step::Begin {
            height,
            timestamp,
            lower,
            lower_value,
            upper,
            hints,
        } => Request {
            call: calls::BEGIN,
            width: u8::from(hints),
            a: u64::from(height),
            b: timestamp,
            c: lower_value,
            first: lower,
            second: upper,
            ..none
        },
        Step::Insert { width, key, value } => Request {
            call: calls::INSERT,
            width,
            a: value,
            first: key,
            ..none
        },
        Step::ChangeKey { width, slot, key } => Request {
            call: calls::CHANGE_KEY,
            width,
            a: slot,
            first: key,
            ..none
        },
        _ => return None,
    })
}

#[cfg(test)]
mod tests {
    use super::*;
    use crate::pages::Filling;

    #[test]
    fn a_page_that_doradb_builds_otherwise_makes_its_steps_suspect() {
        let mut pool = Pool::of(Vec::new(), Vec::new(), false);
        let mut page = pages::filled(&mut Random::new(3), 8, Filling::Count(5, 5));
        pool.hold(&page);
        assert!(pool.suspect().is_none());
        page.bytes[16_000] ^= 1;
        pool.hold(&page);
        let steps = page.script.iter().filter_map(request).count();
        assert!(steps >= 2);
        assert_eq!(pool.suspects.len(), steps);
    }
}
