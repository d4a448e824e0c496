//! Random pages and random calls on them. A scene has a width, two fences and a kind of keys, and four pages in the
//! registers: two that are filled, one with few and low keys, and bytes of another length.

#[allow(dead_code)]
#[path = "../../../../compare/plain/tests/common/mod.rs"]
mod common;

use common::*;
use plain::ask::Server;
use plain::protocol::{Request, MOST};
use plain::PAGE;

/// Fences: none; with a short prefix in common; with one above 16 bytes.
const FENCES: [(&[u8], &[u8]); 3] = [
    (b"", b""),
    (b"aa", b"ac"),
    (b"hub/osl/sender/001", b"hub/osl/sender/009999"),
];

/// The bytes of suffixes.
const BYTES: &[u8] = b"0159ab\0\xff";

pub struct Scene {
    dice: Dice,
    width: u8,
    lower: &'static [u8],
    upper: &'static [u8],
    /// Suffixes are shorter than this.
    longest: usize,
}

impl Scene {
    pub fn new(seed: u64) -> Scene {
        let mut dice = Dice::new(seed + 1);
        let (lower, upper) = FENCES[dice.below(3)];
        Scene {
            width: [0, 1, 8][dice.below(3)],
            longest: [9, 9, 30, 5_000][dice.below(4)],
            dice,
            lower,
            upper,
        }
    }

    /// The requests that make the scene's pages.
    pub fn pages(&mut self) -> Vec<Request> {
        let mut requests = Vec::new();
        for page in 0..4 {
            let other = [0, 1, PAGE - 1, PAGE + 1][self.dice.below(4)];
            let length = if page == 3 { other } else { PAGE };
            let first = self.dice.bytes(length, &[0, 1, 255]);
            requests.push(Request {
                page: page as u8,
                first,
                ..Request::default()
            });
            if page == 3 {
                break;
            }
            requests.push(Request {
                call: 2,
                page: page as u8,
                ..self.beginning()
            });
            let most = match (page, self.longest) {
                (2, _) => 3,
                (_, 31..) => 9,
                _ => 120,
            };
            for _ in 0..self.dice.below(most) {
                let mut first = self.inner_key();
                if page == 2 {
                    first.insert(self.lower.len().min(first.len()), 0);
                }
                requests.push(Request {
                    call: 3,
                    width: self.width,
                    page: page as u8,
                    a: self.value(),
                    first,
                    ..Request::default()
                });
            }
        }
        requests
    }

    /// Damage to the filled pages, in three scenes of four.
    pub fn damage(&mut self, server: &Server) -> Vec<Request> {
        let pages = if self.dice.below(4) == 0 { 0..0 } else { 0..2 };
        pages
            .map(|page: u8| Request {
                page,
                first: self.damaged(&server.registers[usize::from(page)]),
                ..Request::default()
            })
            .collect()
    }

    /// A page with up to two other bytes, in the header, in offsets of slots or anywhere.
    fn damaged(&mut self, page: &[u8]) -> Vec<u8> {
        let mut bytes = page.to_vec();
        for _ in 0..self.dice.below(3) {
            let at = match self.dice.below(5) {
                0 => self.dice.below(96),
                1 => EFFECTIVE + self.dice.below(8),
                2 => HINTS + self.dice.below(32),
                3 => slot_at(self.dice.below(count(&bytes).clamp(1, 1_016) as usize)) + 3,
                _ => self.dice.below(PAGE),
            };
            bytes[at] = match self.dice.below(3) {
                0 => self.dice.below(256) as u8,
                1 => bytes[at].wrapping_add(1),
                _ => bytes[at].wrapping_sub(1),
            };
        }
        bytes
    }

    /// A call on one of the pages.
    pub fn call(&mut self, server: &Server) -> Request {
        let page = [0, 0, 0, 0, 0, 0, 1, 1, 2, 2, 2, 3][self.dice.below(12)];
        let bytes = &server.registers[page];
        let slot = self.slot(bytes);
        let (key, stored) = self.key(bytes, slot);
        let request = Request {
            call: 2 + self.dice.below(19) as u8,
            width: match self.dice.below(12) {
                0 => [0, 1, 2, 8, 255][self.dice.below(5)],
                _ => self.width,
            },
            page: page as u8,
            first: key,
            ..Request::default()
        };
        match request.call {
            2 => Request {
                call: 2,
                page: request.page.max(2),
                ..self.beginning()
            },
            3 => Request {
                a: self.value(),
                ..request
            },
            4 => {
                let expected = if self.dice.below(3) == 0 {
                    self.value()
                } else {
                    stored
                };
                Request {
                    a: expected,
                    b: self.value(),
                    ..request
                }
            }
            6 => {
                let pages = [
                    (2, 0),
                    (2, 1),
                    (2, 1),
                    (2, 1),
                    (0, 1),
                    (1, 2),
                    (2, 3),
                    (3, 0),
                ];
                let (page, other) = pages[self.dice.below(8)];
                let a = slot / 4;
                let rest = count(&server.registers[usize::from(other)]).saturating_sub(a);
                let b = [0, 1, 5, rest, rest, u64::MAX][self.dice.below(6)];
                Request {
                    page,
                    other,
                    a,
                    b,
                    ..request
                }
            }
            13 => {
                let length = [0, 2, 20, 60, 4_000][self.dice.below(5)];
                let second = self.dice.bytes(length, BYTES);
                Request {
                    a: slot,
                    second,
                    ..request
                }
            }
            16 => Request {
                a: self.dice.below(30) as u64,
                ..request
            },
            17 => Request {
                second: self.outer_key(),
                ..request
            },
            20 => Request {
                first: self.records(),
                ..request
            },
            _ => Request { a: slot, ..request },
        }
    }

    /// What begin is given: mostly the scene's fences.
    fn beginning(&mut self) -> Request {
        let (first, second) = match self.dice.below(8) {
            0 => (self.outer_key(), self.outer_key()),
            1 => {
                let (lower, upper) = FENCES[self.dice.below(3)];
                (lower.to_vec(), upper.to_vec())
            }
            _ => (self.lower.to_vec(), self.upper.to_vec()),
        };
        Request {
            width: self.dice.below(2) as u8,
            a: self.dice.below(65_536) as u64,
            b: self.dice.next(),
            c: self.dice.next(),
            first,
            second,
            ..Request::default()
        }
    }

    /// A slot number, mostly below the count or just at it.
    fn slot(&mut self, page: &[u8]) -> u64 {
        match self.dice.below(20) {
            0 => u64::MAX - self.dice.below(2) as u64,
            _ => self.dice.below(count(page) as usize + 2) as u64,
        }
    }

    /// A key, often the one of this slot, and the value there.
    fn key(&mut self, page: &[u8], slot: u64) -> (Vec<u8>, u64) {
        let entry = plain::entry(page, self.width, slot);
        match (self.dice.below(10), entry) {
            (0..=3, Ok(entry)) => (entry.key, entry.value),
            (4, Ok(mut entry)) => {
                entry.key.push(BYTES[self.dice.below(BYTES.len())]);
                (entry.key, entry.value)
            }
            (9, _) => (self.outer_key(), 0),
            _ => (self.inner_key(), 0),
        }
    }

    /// A key that mostly lies within the fences.
    fn inner_key(&mut self) -> Vec<u8> {
        let start = match self.dice.below(10) {
            0 => &self.lower[..self.lower.len().saturating_sub(1)],
            _ => self.lower,
        };
        let length = self.dice.below(self.longest);
        [start, &self.dice.bytes(length, BYTES)].concat()
    }

    /// Any key: none at all, too long a one, one that takes the page alone.
    fn outer_key(&mut self) -> Vec<u8> {
        let length = [0, 1, 3, 17, 40, 9_000, 16_300, 65_535, 65_536][self.dice.below(9)];
        let mut key = self.lower.to_vec();
        key.resize(length, BYTES[self.dice.below(BYTES.len())]);
        key
    }

    /// A value, mostly one that the width can hold.
    fn value(&mut self) -> u64 {
        match self.dice.below(10) {
            0 => self.dice.next(),
            1 => 255 + self.dice.below(2) as u64,
            _ => value_for(self.width, self.dice.next()),
        }
    }

    /// The records of a batch, now and then cut short, and no longer than a request may be.
    fn records(&mut self) -> Vec<u8> {
        let mut records = Vec::new();
        for _ in 0..self.dice.below(4) {
            let key = if self.dice.below(12) == 0 {
                self.outer_key()
            } else {
                self.inner_key()
            };
            records.extend((key.len() as u32).to_le_bytes());
            records.extend(&key);
            records.extend(self.value().to_le_bytes());
        }
        if self.dice.below(10) == 0 {
            records.pop();
        }
        records.truncate(MOST);
        records
    }
}

/// The count on a page, 0 where there is none.
fn count(page: &[u8]) -> u64 {
    page.get(COUNT..COUNT + 2)
        .map_or(0, |_| u16_at(page, COUNT).into())
}
