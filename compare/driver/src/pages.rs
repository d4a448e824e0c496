//! Pages that calls are asked on: good ones with what is known of them, built
//! by `plain` and held to doradb's.

use crate::keys::{self, Suffixes};
use crate::random::Random;
use crate::script::{Script, Step};
use plain::Entry;
use std::rc::Rc;

/// A page, the way to it, and what was known of it before any damage.
pub struct Page {
    /// The steps that lead to it.
    pub script: Script,
    /// Its bytes.
    pub bytes: Vec<u8>,
    /// What generators want to know of it.
    pub facts: Rc<Facts>,
}

/// What a page holds, as far as it can be read.
pub struct Facts {
    /// The width that its values were filed at.
    pub width: u8,
    /// Its entries in slot order.
    pub entries: Vec<Entry>,
    /// The common prefix of its keys.
    pub prefix: Vec<u8>,
    /// Its lower fence.
    pub lower: Vec<u8>,
    /// Its upper fence; an empty one bounds nothing.
    pub upper: Vec<u8>,
    /// Bytes between slots and payloads.
    pub free: usize,
}

impl Facts {
    /// Reads what can be read of a page.
    pub fn read(page: &[u8], width: u8) -> Facts {
        let Ok(space) = plain::space(page) else {
            return Facts::none(width);
        };
        let prefix = prefix(page);
        Facts {
            width,
            entries: (0..space.start / 8)
                .filter_map(|i| plain::entry(page, width, i).ok())
                .collect(),
            lower: [&prefix[..], &suffix(page, 16)].concat(),
            upper: [&prefix[..], &suffix(page, 32)].concat(),
            free: space.free as usize,
            prefix,
        }
    }

    fn none(width: u8) -> Facts {
        let (prefix, lower, upper) = (Vec::new(), Vec::new(), Vec::new());
        Facts {
            width,
            entries: Vec::new(),
            prefix,
            lower,
            upper,
            free: 0,
        }
    }

    /// The keys before and after the place of a slot, the fences at the ends.
    /// The lower fence may itself be a key, so it bounds as nothing below it.
    pub fn neighbours(&self, before: usize, after: usize) -> (Option<&[u8]>, Option<&[u8]>) {
        let low = before.checked_sub(1).and_then(|i| self.entries.get(i));
        let high = self.entries.get(after).map(|entry| entry.key.as_slice());
        let fence = Some(self.upper.as_slice()).filter(|upper| !upper.is_empty());
        (
            Some(low.map_or(self.lower.as_slice(), |entry| entry.key.as_slice())),
            high.or(fence),
        )
    }
}

fn number(page: &[u8], at: usize) -> usize {
    usize::from(u16::from_le_bytes([page[at], page[at + 1]]))
}

/// The prefix of a page with a clean header.
fn prefix(page: &[u8]) -> Vec<u8> {
    match number(page, 46) {
        length if length <= 16 => page[48..48 + length].to_vec(),
        length => page[plain::USABLE - length..plain::USABLE].to_vec(),
    }
}

/// The suffix of the fence slot at a place of a page with a clean header.
fn suffix(page: &[u8], at: usize) -> Vec<u8> {
    let (length, offset) = (number(page, at), plain::HEADER + number(page, at + 2));
    if length > 4 {
        return page[offset..offset + length].to_vec();
    }
    page[at + 4..at + 8]
        .iter()
        .rev()
        .take(length)
        .copied()
        .collect()
}

/// Whether hints guide a search of this page: flag 1 and at least 64 keys.
pub fn hints_in_use(page: &[u8]) -> bool {
    page.len() == plain::PAGE && page[45] == 1 && number(page, 2) >= 64
}

/// Whether the hints of a page never fall.
pub fn hints_rise(page: &[u8]) -> bool {
    let hint = |i: usize| {
        page[64 + 4 * i..68 + 4 * i]
            .iter()
            .rev()
            .copied()
            .collect::<Vec<u8>>()
    };
    (1..8).all(|i| hint(i - 1) <= hint(i))
}

impl Page {
    /// The page of a script, which was made at a width.
    pub fn new(script: Script, bytes: Vec<u8>, width: u8) -> Page {
        let facts = Rc::new(Facts::read(&bytes, width));
        Page {
            script,
            bytes,
            facts,
        }
    }

    /// The page after further steps; what was known of it stays.
    pub fn after(&self, steps: Vec<Step>) -> Page {
        let mut bytes = self.bytes.clone();
        for step in &steps {
            step.apply(&mut bytes);
        }
        Page {
            script: [&self.script[..], &steps].concat(),
            bytes,
            facts: self.facts.clone(),
        }
    }
}

/// How many entries a page shall get.
#[derive(Clone, Copy)]
pub enum Filling {
    /// Within these limits, if there is room.
    Count(usize, usize),
    /// As many as there is room for.
    Full,
    /// Until few bytes are free.
    NearlyFull,
}

/// A page under construction.
pub struct Builder {
    script: Script,
    bytes: Vec<u8>,
    width: u8,
}

impl Builder {
    /// A page begun over bytes of some kind.
    pub fn begin(random: &mut Random, width: u8, lower: &[u8], upper: &[u8], hints: bool) -> Self {
        let (bed, begin) = (bed(random), begin(random, lower, upper, hints));
        let mut builder = Builder {
            script: Vec::new(),
            bytes: Vec::new(),
            width,
        };
        builder.step(bed);
        builder.step(begin);
        builder
    }

    /// Does a step and keeps it, if the page changes; answers whether it did.
    pub fn step(&mut self, step: Step) -> bool {
        let before = self.bytes.clone();
        step.apply(&mut self.bytes);
        let changed = self.bytes != before;
        if changed {
            self.script.push(step);
        }
        changed
    }

    /// Files a key with some value; answers whether it was accepted.
    pub fn insert(&mut self, random: &mut Random, key: Vec<u8>) -> bool {
        let value = value(random, self.width);
        self.step(Step::Insert {
            width: self.width,
            key,
            value,
        })
    }

    fn free(&self) -> usize {
        plain::space(&self.bytes).map_or(0, |space| space.free as usize)
    }

    /// Files keys that look alike until the page is filled as asked.
    fn fill(&mut self, random: &mut Random, filling: Filling, lower: &[u8], upper: &[u8]) {
        let (target, spare) = match filling {
            Filling::Count(from, to) => (random.within(from, to), 0),
            Filling::Full => (usize::MAX, 0),
            Filling::NearlyFull => (usize::MAX, random.within(1, 400)),
        };
        let suffixes = match filling {
            Filling::Count(..) => Suffixes::some(random, target),
            _ => Suffixes::filling(random),
        };
        let prefix = &lower[..keys::shared_prefix(lower, upper)];
        let (mut count, mut refused) = (0, 0);
        while count < target && refused < 30 && self.free() > spare {
            let key = [prefix, &suffixes.suffix(random)].concat();
            match self.insert(random, key) {
                true => (count, refused) = (count + 1, 0),
                false => refused += 1,
            }
        }
    }

    /// Changes keys here and there, so that payloads lie in disorder and bytes are lost.
    fn fragment(&mut self, random: &mut Random) {
        let facts = Facts::read(&self.bytes, self.width);
        let mut slots: Vec<usize> = (0..facts.entries.len()).collect();
        slots.retain(|_| random.percent(15));
        for slot in slots {
            let (low, high) = facts.neighbours(slot, slot + 1);
            if let Some(key) = keys::between(random, low, high) {
                self.step(Step::ChangeKey {
                    width: self.width,
                    slot: slot as u64,
                    key,
                });
            }
        }
    }

    /// The page as it is now.
    pub fn finish(self) -> Page {
        Page::new(self.script, self.bytes, self.width)
    }
}

/// Bytes to begin a page over.
pub fn bed(random: &mut Random) -> Step {
    match random.below(4) {
        0 | 1 => Step::Filled(0),
        2 => Step::Filled(255),
        _ => Step::Scattered(random.next() % 1_000),
    }
}

/// A begin between two fences.
pub fn begin(random: &mut Random, lower: &[u8], upper: &[u8], hints: bool) -> Step {
    Step::Begin {
        height: *random.pick(&[0, 0, 0, 1, 2, 7, 65_535]),
        timestamp: limits(random),
        lower: lower.to_vec(),
        lower_value: limits(random),
        upper: upper.to_vec(),
        hints,
    }
}

/// A number, many of them at a limit.
pub fn limits(random: &mut Random) -> u64 {
    match random.below(6) {
        0 => 0,
        1 => 1,
        2 => u64::MAX,
        3 => 1 << 63,
        4 => random.next() % 1_000,
        _ => random.next(),
    }
}

/// A value that fits a width.
pub fn value(random: &mut Random, width: u8) -> u64 {
    match width {
        0 => 0,
        1 => *random.pick(&[0, 1, 127, 128, 254, 255, random.clone().next() % 256]),
        _ => limits(random),
    }
}

/// One of the three widths.
pub fn width(random: &mut Random) -> u8 {
    random.weighted(&[(2, 8), (1, 1), (1, 0)])
}

/// A good page of some kind.
pub fn some(random: &mut Random) -> Page {
    let filling = random.weighted(&[
        (7, Filling::Count(0, 0)),
        (7, Filling::Count(1, 1)),
        (9, Filling::Count(2, 12)),
        (7, Filling::Count(20, 62)),
        (6, Filling::Count(63, 63)),
        (16, Filling::Count(64, 65)),
        (24, Filling::Count(66, 100)),
        (14, Filling::Count(101, 200)),
        (3, Filling::Count(201, 400)),
        (3, Filling::Full),
        (4, Filling::NearlyFull),
    ]);
    let width = width(random);
    filled(random, width, filling)
}

/// A good page of a width, filled as asked.
pub fn filled(random: &mut Random, width: u8, filling: Filling) -> Page {
    let (lower, upper) = keys::fences(random);
    let hints = random.percent(85);
    let mut builder = Builder::begin(random, width, &lower, &upper, hints);
    builder.fill(random, filling, &lower, &upper);
    if random.percent(40) {
        builder.fragment(random);
    }
    builder.finish()
}

/// A destination and a source for run copies.
pub fn two(random: &mut Random, width: u8) -> (Page, Page) {
    match random.percent(20) {
        true => straddling(random, width),
        false => pair(random, width),
    }
}

/// A destination and a source for run copies: the keys of one set, the lower
/// ones on the first page, the upper ones on the second, under fences that
/// agree, widen or narrow.
fn pair(random: &mut Random, width: u8) -> (Page, Page) {
    let (lower, upper) = keys::fences(random);
    let prefix = lower[..keys::shared_prefix(&lower, &upper)].to_vec();
    let split = random.weighted(&[(1, 0), (1, 5), (1, 60), (6, 66), (3, 120)]);
    let total = split + random.within(1, 80);
    let suffixes = Suffixes::some(random, total);
    let mut all: Vec<Vec<u8>> = (0..total)
        .map(|_| [&prefix[..], &suffixes.suffix(random)].concat())
        .collect();
    all.retain(|key| *key >= lower && (upper.is_empty() || *key < upper));
    all.sort();
    all.dedup();
    let split = split.min(all.len());
    let overlap = random.below(4).min(split);
    let mut page = |keys: &[Vec<u8>]| {
        let (lower, upper) = other_fences(random, (&lower, &upper), keys);
        let hints = random.percent(90);
        let mut builder = Builder::begin(random, width, &lower, &upper, hints);
        for key in keys {
            builder.insert(random, key.clone());
        }
        builder.finish()
    };
    (page(&all[..split]), page(&all[split - overlap..]))
}

/// A destination with a prefix and two fences, and a source without: its keys
/// lie before the prefix, below, between and above the fences, and after it.
fn straddling(random: &mut Random, width: u8) -> (Page, Page) {
    let length = *random.pick(&[1, 4, 16, 17]);
    let prefix: Vec<u8> = (0..length).map(|_| random.within(1, 254) as u8).collect();
    let under = |first: u8, random: &mut Random| {
        let tail = keys::length(random).min(40);
        [&prefix[..], &[first], &keys::run(random, tail)].concat()
    };
    let (lower, upper) = (
        [&prefix[..], &[80]].concat(),
        [&prefix[..], &[160]].concat(),
    );
    let hints = random.percent(60);
    let mut destination = Builder::begin(random, width, &lower, &upper, hints);
    for _ in 0..random.below(90) {
        let first = random.within(80, 110) as u8;
        let key = under(first, random);
        destination.insert(random, key);
    }
    let mut source = Builder::begin(random, width, &[], &[], hints);
    for _ in 0..random.within(2, 24) {
        let key = match random.below(5) {
            0 => vec![0],
            1 => vec![255, random.byte()],
            _ => {
                let first = random.within(60, 180) as u8;
                under(first, random)
            }
        };
        source.insert(random, key);
    }
    (destination.finish(), source.finish())
}

/// Fences for some of a page's keys: its own, none, or close ones.
fn other_fences(
    random: &mut Random,
    (lower, upper): (&[u8], &[u8]),
    keys: &[Vec<u8>],
) -> (Vec<u8>, Vec<u8>) {
    match (random.below(10), keys.first(), keys.last()) {
        (0..=1, _, _) => (Vec::new(), Vec::new()),
        (2, Some(first), Some(last)) => (first.clone(), [last, &[0][..]].concat()),
        (3, Some(first), _) => (first.clone(), upper.to_vec()),
        _ => (lower.to_vec(), upper.to_vec()),
    }
}

#[cfg(test)]
mod tests {
    use super::*;

    #[test]
    fn generated_pages_are_fit_and_read_as_they_were_built() {
        let mut random = Random::new(4);
        for _ in 0..60 {
            let page = some(&mut random);
            let facts = &page.facts;
            assert_eq!(plain::fit(&page.bytes, facts.width), Ok(0));
            assert_eq!(facts.entries, plain::listing(&page.bytes, facts.width));
            let Some(Step::Begin { lower, upper, .. }) = page.script.get(1) else {
                panic!("a page is begun by its second step");
            };
            assert_eq!((&facts.lower, &facts.upper), (lower, upper));
            assert_eq!(facts.prefix, lower[..keys::shared_prefix(lower, upper)]);
        }
    }

    #[test]
    fn hints_rise_or_fall() {
        let mut page = vec![0; plain::PAGE];
        assert!(hints_rise(&page));
        page[64..68].copy_from_slice(&256_u32.to_le_bytes());
        page[68..72].copy_from_slice(&255_u32.to_le_bytes());
        assert!(!hints_rise(&page));
    }
}
