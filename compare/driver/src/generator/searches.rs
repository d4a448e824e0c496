//! Cases of find, the bounds and the child number.

use super::Generator;
use crate::calls;
use crate::case::Case;
use crate::damage;
use crate::keys;
use crate::pages::{hints_in_use, Page};
use plain::protocol::Request;
use std::rc::Rc;

impl Generator {
    /// A search that is meant to be accepted.
    pub(super) fn search(&mut self, call: u8) -> Case {
        let page = self.readable(|_| true);
        if self.random.percent(15) {
            let (page, slot) = self.unfaithful();
            let key = self.headed_at(&page, slot);
            return self.search_of(call, page, key);
        }
        let key = match call {
            calls::FIND => self.within_prefix(&page),
            _ => self.probe(&page),
        };
        self.search_of(call, page, key)
    }

    /// A probe that has the page's prefix.
    fn within_prefix(&mut self, page: &Page) -> Vec<u8> {
        match self.random.below(10) {
            0 => self.outside(page),
            1..=4 => self.absent(page),
            5 => {
                let key = self.present(page);
                keys::near(&mut self.random, &key)
            }
            _ => self.present(page),
        }
    }

    fn search_of(&mut self, call: u8, page: Rc<Page>, first: Vec<u8>) -> Case {
        let width = self.width(&page);
        Case::new(
            page,
            Request {
                call,
                width,
                first,
                ..Request::default()
            },
        )
    }

    /// A search that is meant to get 8 or 14.
    pub(super) fn search_refused(&mut self, call: u8, refusal: u8) -> Case {
        if refusal == 8 {
            let page = self.readable(|page| !page.facts.prefix.is_empty());
            let key = self.strange(&page);
            return self.search_of(call, page, key);
        }
        let page = self.page(|page| !page.facts.entries.is_empty());
        let mut slot = self.occupied(&page);
        let mut key = page
            .facts
            .entries
            .get(slot)
            .map_or(Vec::new(), |entry| entry.key.clone());
        if self.random.percent(20) {
            key = keys::near(&mut self.random, &key);
        } else if hints_in_use(&page.bytes) && self.random.percent(30) {
            // The slot where a window ends is tested, though no halving visits it.
            slot = page.facts.entries.len() / 9 * self.random.within(1, 8);
            let (low, high) = page.facts.neighbours(slot, slot);
            key = keys::between(&mut self.random, low, high).unwrap_or(key);
        }
        let damaged = Rc::new(damage::payload(&mut self.random, &page, slot));
        self.search_of(call, damaged, key)
    }

    /// A child number that is meant to be accepted.
    pub(super) fn child(&mut self) -> Case {
        let page = self.page(|page| page.facts.width == 8);
        let probe = match self.random.below(10) {
            0 => page.facts.lower.clone(),
            1..=4 => self.present(&page),
            _ => self.absent(&page),
        };
        Case::new(
            page,
            Request {
                call: calls::CHILD,
                width: 8,
                first: probe,
                ..Request::default()
            },
        )
    }

    /// A child number that is meant to get 8 or 9.
    pub(super) fn child_refused(&mut self, refusal: u8) -> Case {
        let page = self.page(|page| {
            page.facts.width == 8
                && match refusal {
                    8 => !page.facts.prefix.is_empty(),
                    _ => !page.facts.lower.is_empty() || !page.facts.upper.is_empty(),
                }
        });
        let first = self.key_for(&page, refusal);
        let width = self.random.byte();
        Case::new(
            page,
            Request {
                call: calls::CHILD,
                width,
                first,
                ..Request::default()
            },
        )
    }
}
