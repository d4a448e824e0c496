//! What the tests share: a small generator of numbers, pages to begin with.

use plain::{begin, insert, Refused, PAGE};

/// A small generator of numbers (xorshift), the same run for the same seed.
pub struct Dice(u64);

impl Dice {
    pub fn new(seed: u64) -> Dice {
        Dice(seed.wrapping_mul(0x9E37_79B9_7F4A_7C15) | 1)
    }

    pub fn next(&mut self) -> u64 {
        self.0 ^= self.0 << 13;
        self.0 ^= self.0 >> 7;
        self.0 ^= self.0 << 17;
        self.0.wrapping_mul(0x2545_F491_4F6C_DD1D)
    }

    /// A number below `n`.
    pub fn below(&mut self, n: usize) -> usize {
        ((self.next() >> 33) as usize) % n
    }

    /// Bytes drawn from `alphabet`.
    pub fn bytes(&mut self, length: usize, alphabet: &[u8]) -> Vec<u8> {
        (0..length)
            .map(|_| alphabet[self.below(alphabet.len())])
            .collect()
    }

    pub fn shuffle<T>(&mut self, list: &mut [T]) {
        for i in (1..list.len()).rev() {
            list.swap(i, self.below(i + 1));
        }
    }
}

/// The refusal with this number that carries zero.
pub fn no<T>(number: u8) -> Result<T, Refused> {
    Err(Refused { number, carried: 0 })
}

/// The refusal with this number that carries a value.
pub fn no_with<T>(number: u8, carried: u64) -> Result<T, Refused> {
    Err(Refused { number, carried })
}

/// A page begun at height 0, timestamp 0, lower fence value 0 on zero bytes.
pub fn begun(lower: &[u8], upper: &[u8], hints: bool) -> Vec<u8> {
    let mut page = vec![0; PAGE];
    begin(&mut page, 0, 0, lower, 0, upper, hints).unwrap();
    page
}

/// A page with empty fences and these keys, each with its place as value (modulo the width).
pub fn filled(width: u8, hints: bool, keys: &[&[u8]]) -> Vec<u8> {
    let mut page = begun(b"", b"", hints);
    file_all(&mut page, width, keys);
    page
}

/// Files these keys, each with its place as value (modulo the width).
pub fn file_all(page: &mut [u8], width: u8, keys: &[&[u8]]) {
    for (i, key) in keys.iter().enumerate() {
        insert(page, width, key, value_for(width, i as u64)).unwrap();
    }
}

/// A value cut to what the width can hold.
pub fn value_for(width: u8, value: u64) -> u64 {
    match width {
        0 => 0,
        1 => value % 256,
        _ => value,
    }
}

/// The u16 at a place of the page.
pub fn u16_at(page: &[u8], at: usize) -> u16 {
    u16::from_le_bytes([page[at], page[at + 1]])
}

/// The u32 at a place of the page.
pub fn u32_at(page: &[u8], at: usize) -> u32 {
    u32::from_le_bytes(page[at..at + 4].try_into().unwrap())
}

/// Sets the u16 at a place of the page.
pub fn set_u16(page: &mut [u8], at: usize, number: u16) {
    page[at..at + 2].copy_from_slice(&number.to_le_bytes());
}

/// Sets the u32 at a place of the page.
pub fn set_u32(page: &mut [u8], at: usize, number: u32) {
    page[at..at + 4].copy_from_slice(&number.to_le_bytes());
}

/// A copy of the page with some bytes changed.
pub fn changed(page: &[u8], change: impl FnOnce(&mut Vec<u8>)) -> Vec<u8> {
    let mut copy = page.to_vec();
    change(&mut copy);
    copy
}

/// Places of header fields.
pub const COUNT: usize = 2;
pub const START: usize = 4;
pub const END: usize = 6;
pub const LOWER: usize = 16;
pub const UPPER: usize = 32;
pub const EFFECTIVE: usize = 40;
pub const INITIALIZED: usize = 44;
pub const FLAG: usize = 45;
pub const PREFIX_LENGTH: usize = 46;
pub const INLINE_PREFIX: usize = 48;
pub const HINTS: usize = 64;

/// The place of slot `index`.
pub fn slot_at(index: usize) -> usize {
    96 + 8 * index
}
