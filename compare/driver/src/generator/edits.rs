//! Cases of insert, set value, change key and of batches of inserts.

use super::Generator;
use crate::batch::record;
use crate::calls;
use crate::case::Case;
use crate::keys;
use crate::pages::{self, Page};
use plain::protocol::Request;
use std::rc::Rc;

/// Batches without a record, in a hundred: only the page is judged.
const EMPTY_BATCHES: usize = 8;

impl Generator {
    /// An insert that is meant to be accepted.
    pub(super) fn insert(&mut self) -> Case {
        let page = self.page(|page| page.facts.free > 40);
        let mut key = self.absent(&page);
        let width = page.facts.width;
        if self.random.percent(8) {
            key = self.filling(&page, key, 8 + usize::from(width));
        }
        let value = pages::value(&mut self.random, width);
        self.insert_of(page, key, value)
    }

    pub(super) fn insert_of(&mut self, page: Rc<Page>, first: Vec<u8>, a: u64) -> Case {
        let width = page.facts.width;
        Case::new(
            page,
            Request {
                call: calls::INSERT,
                width,
                a,
                first,
                ..Request::default()
            },
        )
    }

    /// An insert that is meant to get 7 to 13.
    pub(super) fn insert_refused(&mut self, refusal: u8) -> Case {
        let page = self.page_for(refusal);
        let key = self.key_for(&page, refusal);
        let width = page.facts.width;
        let value = match refusal {
            7 => self.large(width),
            _ => pages::value(&mut self.random, width),
        };
        self.insert_of(page, key, value)
    }

    /// A page on which an edit can get a refusal.
    fn page_for(&mut self, refusal: u8) -> Rc<Page> {
        self.page(|page| match refusal {
            7 => page.facts.width < 8,
            8 => !page.facts.prefix.is_empty(),
            9 => !page.facts.upper.is_empty() || !page.facts.lower.is_empty(),
            13 => page.facts.free < 1_000,
            10 => true,
            _ => !page.facts.entries.is_empty(),
        })
    }

    /// A key that gets a refusal from an edit.
    pub(super) fn key_for(&mut self, page: &Page, refusal: u8) -> Vec<u8> {
        match refusal {
            8 => self.strange(page),
            9 => self.outside(page),
            11 | 18 => self.present(page),
            13 => {
                let key = self.absent(page);
                let fixed = if self.random.percent(50) { 0 } else { 8 };
                self.filling(page, key, fixed + usize::from(page.facts.width))
            }
            _ => self.absent(page),
        }
    }

    /// A set value that is meant to be accepted.
    pub(super) fn set_value(&mut self) -> Case {
        let page = self.page(|page| !page.facts.entries.is_empty());
        let slot = self.occupied(&page);
        let (key, stored) = match page.facts.entries.get(slot) {
            Some(entry) => (entry.key.clone(), entry.value),
            None => (Vec::new(), 0),
        };
        let new = pages::value(&mut self.random, page.facts.width);
        self.set_value_of(page, key, stored, new)
    }

    fn set_value_of(&mut self, page: Rc<Page>, first: Vec<u8>, a: u64, b: u64) -> Case {
        let width = page.facts.width;
        Case::new(
            page,
            Request {
                call: calls::SET_VALUE,
                width,
                a,
                b,
                first,
                ..Request::default()
            },
        )
    }

    /// A set value that is meant to get 7, 8, 17 or 18.
    pub(super) fn set_value_refused(&mut self, refusal: u8) -> Case {
        let page = match refusal {
            // A stored value can differ from the expected one only where there is a value.
            18 => self.page(|page| page.facts.width > 0 && !page.facts.entries.is_empty()),
            17 => self.page(|_| true),
            _ => self.page_for(refusal),
        };
        let width = page.facts.width;
        let key = match refusal {
            17 if self.random.percent(20) => self.outside(&page),
            _ => self.key_for(&page, refusal),
        };
        let mut values = [0; 2].map(|_| pages::value(&mut self.random, width));
        if refusal == 7 {
            values[self.random.below(2)] = self.large(width);
        }
        self.set_value_of(page, key, values[0], values[1])
    }

    /// A change key that is meant to be accepted.
    pub(super) fn change_key(&mut self) -> Case {
        let page = self.page(|page| !page.facts.entries.is_empty());
        let slot = self.occupied(&page);
        let key = self.replacement(&page, slot);
        self.change_key_of(page, slot as u64, key)
    }

    /// A key that may stand in a slot: between its neighbours, or its own.
    fn replacement(&mut self, page: &Page, slot: usize) -> Vec<u8> {
        let own = page
            .facts
            .entries
            .get(slot)
            .map(|entry| entry.key.clone())
            .unwrap_or_default();
        let (low, high) = page.facts.neighbours(slot, slot + 1);
        let random = &mut self.random;
        let near = keys::near(random, &own);
        match random.below(8) {
            0 => own,
            1..=3
                if low.is_none_or(|low| low < &near[..])
                    && high.is_none_or(|high| &near[..] < high) =>
            {
                near
            }
            4 => {
                let length = own.len() + random.below(9);
                let mut longer = own;
                longer.resize(length, 0);
                longer
            }
            _ => keys::between(random, low, high).unwrap_or(own),
        }
    }

    fn change_key_of(&mut self, page: Rc<Page>, a: u64, first: Vec<u8>) -> Case {
        let width = page.facts.width;
        Case::new(
            page,
            Request {
                call: calls::CHANGE_KEY,
                width,
                a,
                first,
                ..Request::default()
            },
        )
    }

    /// A change key that is meant to get 8 to 13.
    pub(super) fn change_key_refused(&mut self, refusal: u8) -> Case {
        let page = self.page_for(refusal);
        let slot = self.occupied(&page);
        let (slot, key) = match refusal {
            10 => (self.unoccupied(&page), self.absent(&page)),
            12 => {
                let (low, high) = page.facts.neighbours(slot, slot + 1);
                let key = match self.random.below(4) {
                    0 => low.unwrap_or_default().to_vec(),
                    1 => high.unwrap_or_default().to_vec(),
                    2 => self.present(&page),
                    _ => self.absent(&page),
                };
                (slot as u64, key)
            }
            13 => {
                let key = self.replacement(&page, slot);
                let width = usize::from(page.facts.width);
                (slot as u64, self.filling(&page, key, width))
            }
            _ => (slot as u64, self.key_for(&page, refusal)),
        };
        self.change_key_of(page, slot, key)
    }

    /// A batch that is meant to be accepted; some have no record.
    pub(super) fn batch(&mut self) -> Case {
        let page = self.page(|page| page.facts.free > 200);
        let empty = self.random.percent(EMPTY_BATCHES);
        let count = if empty { 0 } else { self.random.within(1, 7) };
        let mut records = Vec::new();
        for _ in 0..count {
            let key = self.absent(&page);
            let value = pages::value(&mut self.random, page.facts.width);
            records.extend(record(&key, value));
        }
        self.batch_of(page, records)
    }

    fn batch_of(&mut self, page: Rc<Page>, first: Vec<u8>) -> Case {
        let width = page.facts.width;
        Case::new(
            page,
            Request {
                call: calls::FILE_BATCH,
                width,
                first,
                ..Request::default()
            },
        )
    }

    /// A batch whose second record is meant to get 7 to 13.
    pub(super) fn batch_refused(&mut self, refusal: u8) -> Case {
        let page = self.page_for(refusal);
        let good = self.absent(&page);
        let bad = self.insert_refused_on(&page, refusal);
        let value = pages::value(&mut self.random, page.facts.width);
        let mut records = record(&good, value);
        records.extend(bad);
        self.batch_of(page, records)
    }

    fn insert_refused_on(&mut self, page: &Page, refusal: u8) -> Vec<u8> {
        let key = self.key_for(page, refusal);
        let value = match refusal {
            7 => self.large(page.facts.width),
            _ => pages::value(&mut self.random, page.facts.width),
        };
        record(&key, value)
    }
}
