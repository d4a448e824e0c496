//! The page: prefix, fences, heads, order.
//!
//! Keys are compared as Rust compares byte slices: "Keys are in unsigned byte order; a proper prefix
//! is smaller."

use crate::page::{body, slots, suffix, Header, Slot, BODY, INLINE, INLINE_AT, SHORT};
use std::cmp::Ordering;

/// "A prefix of up to 16 bytes is inline. A longer one fills the body's last bytes."
pub fn prefix(page: &[u8]) -> &[u8] {
    let length = Header::read(page).prefix_length;
    if length <= INLINE {
        &page[INLINE_AT..INLINE_AT + length]
    } else {
        &body(page)[BODY - length..]
    }
}

/// A slot's key: the page's prefix, then the slot's suffix.
pub fn key(page: &[u8], slot: Slot) -> Vec<u8> {
    [prefix(page), &suffix(page, slot)].concat()
}

/// Every slot's key, in slot order.
pub fn keys(page: &[u8]) -> Vec<Vec<u8>> {
    slots(page).iter().map(|&slot| key(page, slot)).collect()
}

/// The fences' keys; no upper one where the upper slot is empty ("an empty one bounds nothing").
pub struct Fences {
    pub lower: Vec<u8>,
    pub upper: Option<Vec<u8>>,
}

impl Fences {
    /// The fences of the page.
    pub fn read(page: &[u8]) -> Fences {
        let header = Header::read(page);
        let bounded = header.upper.length != 0;
        Fences {
            lower: key(page, header.lower),
            upper: bounded.then(|| key(page, header.upper)),
        }
    }

    /// Lower < upper where the upper slot isn't empty.
    pub fn rise(&self) -> bool {
        self.upper.iter().all(|upper| self.lower < *upper)
    }

    /// "Lower fence included, upper excluded."
    pub fn hold(&self, key: &[u8]) -> bool {
        self.lower.as_slice() <= key && self.upper.iter().all(|upper| key < upper.as_slice())
    }
}

/// "The head is the suffix's first four bytes, zero padded, read big-endian".
pub fn head(suffix: &[u8]) -> u32 {
    let mut four = [0; SHORT];
    for (place, &byte) in four.iter_mut().zip(suffix) {
        *place = byte;
    }
    u32::from_be_bytes(four)
}

/// The length of the longest common prefix of two keys.
pub fn common_prefix(one: &[u8], other: &[u8]) -> usize {
    one.iter().zip(other).take_while(|(a, b)| a == b).count()
}

/// "A slot meets a probe by heads; if equal and either suffix is within 4 bytes, by lengths; else by
/// suffix bytes." The head is the stored one; long suffixes are compared whole.
pub fn meet(page: &[u8], slot: Slot, probe_suffix: &[u8]) -> Ordering {
    let probe_head = head(probe_suffix);
    if slot.head != probe_head {
        slot.head.cmp(&probe_head)
    } else if slot.length <= SHORT || probe_suffix.len() <= SHORT {
        slot.length.cmp(&probe_suffix.len())
    } else {
        suffix(page, slot).as_slice().cmp(probe_suffix)
    }
}
