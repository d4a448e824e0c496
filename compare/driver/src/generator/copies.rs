//! Cases of run copy.

use super::Generator;
use crate::calls;
use crate::case::Case;
use crate::keys;
use crate::pages::{self, Page};
use plain::protocol::Request;
use std::rc::Rc;

impl Generator {
    /// A run copy that is meant to be accepted.
    pub(super) fn run_copy(&mut self) -> Case {
        let (page, other) = self.pool.pair(&mut self.random);
        let last = page.facts.entries.last().map(|entry| entry.key.as_slice());
        let count = other.facts.entries.len();
        let above = other
            .facts
            .entries
            .iter()
            .filter(|entry| Some(entry.key.as_slice()) > last);
        let from = count - above.count();
        let first = self.random.within(from, count);
        let n = self.random.within(0, count - first);
        self.run_copy_of(page, other, first as u64, n as u64)
    }

    pub(super) fn run_copy_of(&mut self, page: Rc<Page>, other: Rc<Page>, a: u64, b: u64) -> Case {
        let width = page.facts.width;
        let request = Request {
            call: calls::RUN_COPY,
            width,
            a,
            b,
            ..Request::default()
        };
        Case::run_copy(page, other, request)
    }

    /// A run copy that is meant to get 8 to 13.
    pub(super) fn run_copy_refused(&mut self, refusal: u8) -> Case {
        let case = self.run_copy();
        let (mut page, mut other) = (case.page, case.other);
        match refusal {
            8 => {
                let same = self.random.percent(50);
                let prefix = &other.facts.prefix;
                page = self.alike(other.facts.width, |page| {
                    let facts = &page.facts;
                    facts.prefix != *prefix && (!same || facts.prefix.len() == prefix.len())
                });
            }
            9 => {
                page = self.alike(other.facts.width, |page| {
                    page.facts.prefix.is_empty() && page.facts.lower != page.facts.upper
                });
            }
            12 => other = page.clone(),
            13 => {
                page = self.alike(other.facts.width, |page| {
                    page.facts.free < 1_500 && page.facts.prefix.is_empty()
                });
                other = self.beyond(&page);
            }
            _ => {}
        }
        let count = other.facts.entries.len() as u64;
        if refusal == 10 {
            let (a, b) = self.past(count);
            return self.run_copy_of(page, other, a, b);
        }
        let last = page.facts.entries.last().map(|entry| &entry.key);
        let repeated = other
            .facts
            .entries
            .iter()
            .position(|entry| Some(&entry.key) == last);
        let first = match (refusal, repeated) {
            (13, _) => 0,
            (12, Some(slot)) if self.random.percent(50) => slot as u64,
            _ => self.random.next() % (count + 1),
        };
        let n = match refusal {
            13 => count,
            _ => self.random.next() % (count - first + 1),
        };
        self.run_copy_of(page, other, first, n)
    }

    fn alike(&mut self, width: u8, wanted: impl Fn(&Page) -> bool) -> Rc<Page> {
        self.page(|page| page.facts.width == width && wanted(page))
    }

    /// A run past a count: by one, far, or by a sum that wraps.
    fn past(&mut self, count: u64) -> (u64, u64) {
        let random = &mut self.random;
        match random.below(5) {
            0 => (count + 1, 0),
            1 => (random.next() % (count + 1), count + 1),
            2 => (
                random.next() % (count + 1),
                u64::MAX - random.next() % (count + 2),
            ),
            3 => (u64::MAX - random.next() % 4, random.next() % 9),
            _ => (0, count + 1),
        }
    }

    /// A source with keys beyond a page's last one, more than it has room for.
    fn beyond(&mut self, page: &Page) -> Rc<Page> {
        let random = &mut self.random;
        let (low, high) = page.facts.neighbours(page.facts.entries.len(), usize::MAX);
        let (lower, upper) = (
            low.unwrap_or_default().to_vec(),
            high.unwrap_or_default().to_vec(),
        );
        let mut source = pages::Builder::begin(random, page.facts.width, &lower, &[], false);
        let long = page.facts.free / 2;
        for _ in 0..random.within(1, 6) {
            let Some(mut key) = keys::between(random, Some(&lower), high) else {
                break;
            };
            if random.percent(70) {
                key.resize(key.len() + long, 0);
            }
            if upper.is_empty() || key < upper {
                source.insert(random, key);
            }
        }
        Rc::new(source.finish())
    }
}
