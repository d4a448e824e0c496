//! Cases of the calls that name a slot: compare, entry, key copy, trailing id.

use super::Generator;
use crate::calls;
use crate::case::Case;
use crate::damage;
use crate::pages::Page;
use plain::protocol::Request;
use std::rc::Rc;

impl Generator {
    /// A call on a slot that is meant to be accepted.
    pub(super) fn slot(&mut self, call: u8) -> Case {
        if call == calls::COMPARE && self.random.percent(20) {
            let (page, slot) = self.unfaithful();
            return self.slot_of(call, page, slot as u64);
        }
        let page = self.readable(|page| {
            let long = |entry: &plain::Entry| entry.key.len() >= 8;
            let entries = &page.facts.entries;
            !entries.is_empty() && (call != calls::TRAILING_ID || entries.iter().any(long))
        });
        let mut slot = self.occupied(&page);
        if call == calls::TRAILING_ID {
            let long = |slot: &usize| {
                page.facts
                    .entries
                    .get(*slot)
                    .is_some_and(|e| e.key.len() >= 8)
            };
            let count = page.facts.entries.len();
            slot = (slot..count).chain(0..slot).find(long).unwrap_or(slot);
        }
        self.slot_of(call, page, slot as u64)
    }

    fn slot_of(&mut self, call: u8, page: Rc<Page>, a: u64) -> Case {
        let width = self.width(&page);
        let first = match (call, self.random.below(3)) {
            (calls::COMPARE, 0) => self.headed_at(&page, a as usize),
            (calls::COMPARE, _) => self.probe(&page),
            _ => Vec::new(),
        };
        let length = page
            .facts
            .entries
            .get(a as usize)
            .map_or(0, |entry| entry.key.len());
        let second = match call {
            calls::KEY_COPY => vec![self.random.byte(); length + self.random.below(30)],
            _ => Vec::new(),
        };
        Case::new(
            page,
            Request {
                call,
                width,
                a,
                first,
                second,
                ..Request::default()
            },
        )
    }

    /// A call on a slot that is meant to get 10, 14, 15 or 16.
    pub(super) fn slot_refused(&mut self, call: u8, refusal: u8) -> Case {
        if refusal == 10 {
            let page = self.readable(|_| true);
            let slot = self.unoccupied(&page);
            return self.slot_of(call, page, slot);
        }
        let short = |entry: &plain::Entry| entry.key.len() < 8;
        let page = self.page(|page| match refusal {
            16 => page.facts.entries.iter().any(short),
            15 => page.facts.entries.iter().any(|entry| !entry.key.is_empty()),
            _ => !page.facts.entries.is_empty(),
        });
        let mut slot = self.occupied(&page);
        if refusal == 16 {
            slot = page.facts.entries.iter().position(short).unwrap_or(slot);
        }
        let page = match refusal {
            14 => Rc::new(damage::payload(&mut self.random, &page, slot)),
            _ => page,
        };
        let mut case = self.slot_of(call, page, slot as u64);
        if refusal == 15 {
            let length = case
                .page
                .facts
                .entries
                .get(slot)
                .map_or(0, |entry| entry.key.len());
            let short = self.random.below(length.max(1));
            let short = if self.random.percent(40) {
                length.saturating_sub(1)
            } else {
                short
            };
            case.request.second.truncate(short);
        }
        case
    }
}
