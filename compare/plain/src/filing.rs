//! Filing rules: needs and space, begin, insert, change key.
//!
//! The writers here want every refusal of their call tested: what they write has room.

use crate::keys::{common_prefix, head};
use crate::page::{
    body_mut, prefix_bytes, put, put_slot, slot, slot_place, suffix_bytes, value, value_offset,
    Header, Slot, BODY, HEADER, INLINE, INLINE_AT, SHORT, SLOT, USABLE,
};

/// "Need of an entry: 8 + width + (suffix length if above 4)."
pub fn need(width: usize, suffix_length: usize) -> usize {
    SLOT + width + suffix_bytes(suffix_length)
}

/// "Free = end - start."
pub fn free(header: &Header) -> usize {
    header.end - header.start
}

/// "Used = 16,352 - free."
pub fn used(header: &Header) -> usize {
    USABLE - free(header)
}

/// The body bytes of a page's prefix and fences.
pub fn fence_bytes(prefix_length: usize, lower_suffix: usize, upper_suffix: usize) -> usize {
    prefix_bytes(prefix_length) + suffix_bytes(lower_suffix) + suffix_bytes(upper_suffix)
}

/// "prefix = the fences' longest common prefix": its length, and the body bytes of prefix and fences.
pub fn plan(lower: &[u8], upper: &[u8]) -> (usize, usize) {
    let length = common_prefix(lower, upper);
    (
        length,
        fence_bytes(length, lower.len() - length, upper.len() - length),
    )
}

/// What begin is given besides the page.
pub struct Beginning<'a> {
    pub height: u16,
    pub timestamp: u64,
    pub lower: &'a [u8],
    pub lower_value: u64,
    pub upper: &'a [u8],
    pub hints: bool,
}

/// "Begin: initialized 1, count and start 0, end 16,256, the given values stored, prefix = …"
pub fn begin(page: &mut [u8], given: &Beginning) {
    let (prefix_length, bytes) = plan(given.lower, given.upper);
    let mut end = BODY;
    let prefix = &given.lower[..prefix_length];
    if prefix_length <= INLINE {
        put(page, INLINE_AT, prefix);
    } else {
        place(page, &mut end, prefix);
    }
    let lower = place_fence(page, &mut end, &given.lower[prefix_length..]);
    let upper = place_fence(page, &mut end, &given.upper[prefix_length..]);
    let header = Header {
        height: given.height,
        count: 0,
        start: 0,
        end,
        timestamp: given.timestamp,
        lower,
        lower_value: given.lower_value,
        upper,
        effective: HEADER + bytes,
        initialized: 1,
        flag: u8::from(given.hints),
        prefix_length,
    };
    header.write(page);
}

/// Places bytes downward: the end falls by their length, they stand from the new end.
fn place(page: &mut [u8], end: &mut usize, bytes: &[u8]) {
    *end -= bytes.len();
    put(&mut body_mut(page)[*end..], 0, bytes);
}

/// A fence's slot; a long suffix is placed downward. "A short fence has offset 0."
fn place_fence(page: &mut [u8], end: &mut usize, suffix: &[u8]) -> Slot {
    let mut offset = 0;
    if suffix.len() > SHORT {
        place(page, end, suffix);
        offset = *end;
    }
    Slot {
        length: suffix.len(),
        offset,
        head: head(suffix),
    }
}

/// The payload of an entry: the suffix if it is long, then the value.
fn payload(width: usize, suffix: &[u8], value: u64) -> Vec<u8> {
    let long = if suffix.len() > SHORT { suffix } else { &[] };
    [long, &value.to_le_bytes()[..width]].concat()
}

/// "payload is written only at the part of the body from the new end offset"; the slot that names it.
fn place_entry(page: &mut [u8], end: &mut usize, width: usize, suffix: &[u8], value: u64) -> Slot {
    place(page, end, &payload(width, suffix, value));
    Slot {
        length: suffix.len(),
        offset: *end,
        head: head(suffix),
    }
}

/// "later slots move up one; count, start, end and effective follow."
pub fn file(page: &mut [u8], width: usize, index: usize, suffix: &[u8], value: u64) {
    let mut header = Header::read(page);
    let new = place_entry(page, &mut header.end, width, suffix, value);
    let later = slot_place(index)..slot_place(header.count);
    page.copy_within(later, slot_place(index + 1));
    put_slot(page, slot_place(index), new);
    header.count += 1;
    header.start += SLOT;
    header.effective += need(width, suffix.len());
    header.write(page);
}

/// Writes an entry's value where it stands.
pub fn put_value(page: &mut [u8], slot: Slot, width: usize, value: u64) {
    let value = &value.to_le_bytes()[..width];
    put(body_mut(page), value_offset(slot), value);
}

/// "Longer than the old one and above 4 bytes: new payload"; "Otherwise in place".
pub fn wants_new_payload(old: Slot, suffix: &[u8]) -> bool {
    suffix.len() > old.length && suffix.len() > SHORT
}

/// What a key change adds: "for a key change only its new payload", nothing in place.
pub fn key_change_adds(old: Slot, width: usize, suffix: &[u8]) -> usize {
    if wants_new_payload(old, suffix) {
        suffix_bytes(suffix.len()) + width
    } else {
        0
    }
}

/// "Change key: as the branches of `update_key` and `update_key_in_place`."
pub fn rekey(page: &mut [u8], width: usize, index: usize, suffix: &[u8]) {
    let mut header = Header::read(page);
    let old = slot(page, index);
    let value = value(page, old, width);
    let new = if wants_new_payload(old, suffix) {
        place_entry(page, &mut header.end, width, suffix, value)
    } else {
        rewrite_entry(page, old, width, suffix, value)
    };
    put_slot(page, slot_place(index), new);
    // The slot and the value stay: only the bytes of a long suffix come or go ("effective falling by
    // the bytes dropped").
    header.effective += suffix_bytes(suffix.len());
    header.effective -= suffix_bytes(old.length);
    header.write(page);
}

/// In place, all branches alike: the new payload stands at the old offset; bytes past it stay.
fn rewrite_entry(page: &mut [u8], old: Slot, width: usize, suffix: &[u8], value: u64) -> Slot {
    let payload = payload(width, suffix, value);
    put(body_mut(page), old.offset, &payload);
    Slot {
        length: suffix.len(),
        offset: old.offset,
        head: head(suffix),
    }
}
