//! Pages, slots, keys and values that calls are asked with.

use super::Generator;
use crate::damage;
use crate::keys;
use crate::pages::{self, Page};
use std::rc::Rc;

impl Generator {
    /// A page of the pool that is as wanted, or any if few are.
    pub(super) fn page(&mut self, wanted: impl Fn(&Page) -> bool) -> Rc<Page> {
        self.pool.page(&mut self.random, wanted)
    }

    /// A page for a read: good, or damaged below the header.
    pub(super) fn readable(&mut self, wanted: impl Fn(&Page) -> bool) -> Rc<Page> {
        let page = self.page(wanted);
        match self.random.percent(30) {
            true => Rc::new(damage::below_header(&mut self.random, &page)),
            false => page,
        }
    }

    /// The page's own width, or another one now and then.
    pub(super) fn width(&mut self, page: &Page) -> u8 {
        match self.random.percent(6) {
            true => pages::width(&mut self.random),
            false => page.facts.width,
        }
    }

    /// A number at or beside some limit.
    pub(super) fn number(&mut self, page: &Page) -> u64 {
        let count = page.facts.entries.len() as u64;
        let last = count.saturating_sub(1);
        let limits = [
            0,
            1,
            last,
            count,
            count + 1,
            255,
            256,
            1_015,
            1_016,
            65_535,
            65_536,
        ];
        match self.random.below(4) {
            0 => u64::MAX - self.random.next() % 3,
            1 => [1 << 32, 1 << 63, u64::MAX][self.random.below(3)],
            _ => *self.random.pick(&limits),
        }
    }

    /// The slot of some entry, 0 if there is none.
    pub(super) fn occupied(&mut self, page: &Page) -> usize {
        let count = page.facts.entries.len();
        match self.random.below(10) {
            0 => 0,
            1 => count.saturating_sub(1),
            _ => self.random.below(count.max(1)),
        }
    }

    /// A slot number that no entry has.
    pub(super) fn unoccupied(&mut self, page: &Page) -> u64 {
        let count = page.facts.entries.len() as u64;
        let random = &mut self.random;
        match random.below(4) {
            0 => count,
            1 => count + 1 + random.next() % 10,
            2 => *random.pick(&[1 << 16, 1 << 32, 1 << 63, u64::MAX]) | count,
            _ => count.max(random.next()),
        }
    }

    /// The key of some entry; empty if there is none.
    pub(super) fn present(&mut self, page: &Page) -> Vec<u8> {
        let slot = self.occupied(page);
        page.facts
            .entries
            .get(slot)
            .map_or(Vec::new(), |entry| entry.key.clone())
    }

    /// A key inside the fences that is most likely not there.
    pub(super) fn absent(&mut self, page: &Page) -> Vec<u8> {
        let at = self.random.below(page.facts.entries.len() + 1);
        let (low, high) = page.facts.neighbours(at, at);
        keys::between(&mut self.random, low, high).unwrap_or_else(|| page.facts.lower.clone())
    }

    /// A key with the page's prefix, beyond a fence where there is one.
    pub(super) fn outside(&mut self, page: &Page) -> Vec<u8> {
        let facts = &page.facts;
        let random = &mut self.random;
        for _ in 0..12 {
            let length = keys::length(random);
            let key = match random.below(4) {
                0 => facts.upper.clone(),
                1 => keys::near(random, &facts.upper),
                2 => keys::near(random, &facts.lower),
                _ => [&facts.prefix[..], &keys::run(random, length)].concat(),
            };
            let above = !facts.upper.is_empty() && key >= facts.upper;
            if key.starts_with(&facts.prefix) && (above || key < facts.lower) {
                return key;
            }
        }
        facts.upper.clone()
    }

    /// A key without the page's prefix, where it has one.
    pub(super) fn strange(&mut self, page: &Page) -> Vec<u8> {
        let prefix = &page.facts.prefix;
        if prefix.is_empty() {
            return self.absent(page);
        }
        let random = &mut self.random;
        let at = random.below(prefix.len());
        if random.percent(30) {
            return prefix[..at].to_vec();
        }
        let mut key = self.present(page);
        if key.len() <= at {
            key = prefix.clone();
        }
        key[at] = key[at].wrapping_add(*self.random.pick(&[1, 255, 128]));
        key
    }

    /// Any probe.
    pub(super) fn probe(&mut self, page: &Page) -> Vec<u8> {
        match self.random.below(16) {
            0..=4 => self.present(page),
            5 => {
                let key = self.present(page);
                keys::near(&mut self.random, &key)
            }
            6..=9 => self.absent(page),
            10 => self.outside(page),
            11 => self.strange(page),
            12 => {
                let length = keys::length(&mut self.random);
                keys::run(&mut self.random, length)
            }
            13 => Vec::new(),
            14 => page.facts.lower.clone(),
            _ => {
                let mut key = self.present(page);
                let length = *self.random.pick(&[keys::LONGEST, 300, 300, 300, 300, 300]);
                key.resize(length, 0);
                key
            }
        }
    }

    /// A page with a slot whose head is not its suffix's.
    pub(super) fn unfaithful(&mut self) -> (Rc<Page>, usize) {
        let page = self.page(|page| !page.facts.entries.is_empty());
        let slot = self.occupied(&page);
        (
            Rc::new(damage::unfaithful(&mut self.random, &page, slot)),
            slot,
        )
    }

    /// A probe that meets a slot's head as it stands on the page: the head
    /// alone, cut, with the slot's own tail or with another.
    pub(super) fn headed_at(&mut self, page: &Page, slot: usize) -> Vec<u8> {
        let at = plain::HEADER.saturating_add(slot.saturating_mul(8));
        let Some(head) = at
            .checked_add(8)
            .and_then(|end| page.bytes.get(at + 4..end))
        else {
            return self.probe(page);
        };
        let mut key = page.facts.prefix.clone();
        key.extend(head.iter().rev());
        let own = page
            .facts
            .entries
            .get(slot)
            .map_or(&[][..], |entry| entry.key.as_slice());
        match self.random.below(5) {
            0 => key.truncate(page.facts.prefix.len() + self.random.below(4)),
            1 => key.extend(own.get(key.len()..).unwrap_or_default()),
            2 => {
                let length = keys::length(&mut self.random);
                key.extend(keys::run(&mut self.random, length));
            }
            _ => {}
        }
        key
    }

    /// A key lengthened so that it needs all the free bytes, one more or less;
    /// `fixed` bytes of the need do not hang on the key.
    pub(super) fn filling(&mut self, page: &Page, mut key: Vec<u8>, fixed: usize) -> Vec<u8> {
        let suffix = (page.facts.free + self.random.below(3)).saturating_sub(fixed + 1);
        let prefix = page.facts.prefix.len();
        if prefix + suffix > key.len() && key.len() > prefix {
            key.resize(prefix + suffix, 0);
        }
        key
    }

    /// A value too large for a narrow width.
    pub(super) fn large(&mut self, width: u8) -> u64 {
        let least = if width == 1 { 256 } else { 1 };
        *self.random.pick(&[least, least, 1 << 8, 1 << 32, u64::MAX])
    }
}
