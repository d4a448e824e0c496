//! Calls: every call, its refusals in its order ("Lowest number first, save as noted").
//!
//! Each call reads like its line in 01: the refusals from left to right, then what it does. All
//! refusals come before the first write.

use crate::filing::{self, free, key_change_adds, plan, put_value, used, Beginning};
use crate::hints::refresh;
use crate::keys::{key as key_of, keys};
use crate::page::{slot as slot_of, slots, value as value_of, Header, Slot, BODY, HEADER, USABLE};
use crate::refusals::{
    refuse, refuse_1, refuse_10, refuse_13, refuse_2, refuse_3, refuse_4, refuse_5, refuse_7,
    refuse_8, refuse_9, refuse_carrying, Answer,
};
use crate::search::{bound, compare, visit, Bound};
use crate::verdict::{fit_verdict, layout_verdict};
use std::cmp::Ordering;

/// What find answers: "The equal key's slot, or the number of smaller keys."
#[derive(Clone, Copy, Debug, PartialEq, Eq)]
pub struct Found {
    pub slot: usize,
    pub equal: bool,
}

/// An entry as read: its whole key and its value (0 at width 0).
#[derive(Clone, Debug, PartialEq, Eq)]
pub struct Entry {
    pub key: Vec<u8>,
    pub value: u64,
}

/// The space numbers.
#[derive(Clone, Copy, Debug, PartialEq, Eq)]
pub struct Space {
    pub start: u64,
    pub end: u64,
    pub free: u64,
    pub used: u64,
    pub effective: u64,
    pub reclaimable: u64,
    pub free_after_compaction: u64,
}

/// "Begin 1, 3, 6, 13 (13: prefix and fences exceed the body)."
pub fn begin(
    page: &mut [u8],
    height: u16,
    timestamp: u64,
    lower: &[u8],
    lower_value: u64,
    upper: &[u8],
    hints: bool,
) -> Answer<()> {
    refuse_1(page)?;
    refuse_3(lower)?;
    refuse_3(upper)?;
    refuse(6, !upper.is_empty() && lower >= upper)?;
    let (_, bytes) = plan(lower, upper);
    refuse(13, bytes > BODY)?;

    let given = Beginning {
        height,
        timestamp,
        lower,
        lower_value,
        upper,
        hints,
    };
    filing::begin(page, &given);
    Ok(())
}

/// "Insert 1, 2, 3, 5, 7, 8, 9, 11, 13. Answers the slot number."
pub fn insert(page: &mut [u8], width: u8, key: &[u8], value: u64) -> Answer<usize> {
    refuse_1(page)?;
    let width = refuse_2(width)?;
    refuse_3(key)?;
    refuse_5(page, width)?;
    refuse_7(width, value)?;
    let suffix = refuse_8(page, key)?;
    refuse_9(page, key)?;
    let keys = keys(page);
    refuse(11, keys.iter().any(|there| there == key))?;
    refuse_13(page, filing::need(width, suffix.len()))?;

    let index = keys.iter().filter(|there| there.as_slice() < key).count();
    filing::file(page, width, index, suffix, value);
    refresh(page);
    Ok(index)
}

/// "Set value (key, expected, new) 1, 2, 3, 5, 7, 8, 17, 18. Answers the old value. 7 looks at both
/// values."
pub fn set_value(page: &mut [u8], width: u8, key: &[u8], expected: u64, new: u64) -> Answer<u64> {
    refuse_1(page)?;
    let width = refuse_2(width)?;
    refuse_3(key)?;
    refuse_5(page, width)?;
    refuse_7(width, expected)?;
    refuse_7(width, new)?;
    refuse_8(page, key)?;
    let index = keys(page).iter().position(|there| there == key);
    refuse(17, index.is_none())?;
    let slot = slot_of(page, index.unwrap_or(0));
    let stored = value_of(page, slot, width);
    refuse_carrying(18, stored, stored != expected)?;

    put_value(page, slot, width, new);
    Ok(stored)
}

/// "Change key 1, 2, 3, 5, 8, 9, 10, 12, 13. The same key again is accepted."
pub fn change_key(page: &mut [u8], width: u8, slot: u64, key: &[u8]) -> Answer<()> {
    refuse_1(page)?;
    let width = refuse_2(width)?;
    refuse_3(key)?;
    refuse_5(page, width)?;
    let suffix = refuse_8(page, key)?;
    refuse_9(page, key)?;
    let index = refuse_10(page, slot)?;
    refuse(12, !between_neighbours(&keys(page), index, key))?;
    let old = slot_of(page, index);
    refuse_13(page, key_change_adds(old, width, suffix))?;

    filing::rekey(page, width, index, suffix);
    refresh(page);
    Ok(())
}

/// "12: key not strictly between its neighbours"; a neighbour that isn't there bounds nothing.
fn between_neighbours(keys: &[Vec<u8>], index: usize, key: &[u8]) -> bool {
    let (before, after) = (&keys[..index], &keys[index + 1..]);
    let above = before.last().is_none_or(|last| last.as_slice() < key);
    let below = after.first().is_none_or(|next| key < next.as_slice());
    above && below
}

/// "Run copy 1, 2, 5 (destination before source), 10, then entry by entry 8, 9, then 12 for the first
/// entry against the destination's last, then 13 for the whole run."
pub fn run_copy(
    destination: &mut [u8],
    source: &[u8],
    width: u8,
    first: u64,
    n: u64,
) -> Answer<()> {
    refuse_1(destination)?;
    refuse_1(source)?;
    let width = refuse_2(width)?;
    refuse_5(destination, width)?;
    refuse_5(source, width)?;
    let count = Header::read(source).count as u64;
    let last = first.checked_add(n).filter(|&last| last <= count);
    refuse(10, last.is_none())?;
    let from_first = entries(source, width).into_iter().skip(first as usize);
    let run: Vec<Entry> = from_first.take(n as usize).collect();
    for entry in &run {
        refuse_8(destination, &entry.key)?;
        refuse_9(destination, &entry.key)?;
    }
    refuse(12, !run_continues(&keys(destination), &run))?;
    let prefix_length = Header::read(destination).prefix_length;
    let needs = run
        .iter()
        .map(|entry| filing::need(width, entry.key.len() - prefix_length))
        .sum();
    refuse_13(destination, needs)?;

    for entry in &run {
        let index = Header::read(destination).count;
        let suffix = &entry.key[prefix_length..];
        filing::file(destination, width, index, suffix, entry.value);
    }
    refresh(destination);
    Ok(())
}

/// The run's first entry is above the destination's last, where there are both.
fn run_continues(keys: &[Vec<u8>], run: &[Entry]) -> bool {
    match (keys.last(), run.first()) {
        (Some(last), Some(first)) => *last < first.key,
        _ => true,
    }
}

/// "Find 1, 2, 3, 4, 8, 14. … It takes the lower bound, then tests that slot."
pub fn find(page: &[u8], width: u8, key: &[u8]) -> Answer<Found> {
    refuse_1(page)?;
    let width = refuse_2(width)?;
    refuse_3(key)?;
    refuse_4(page)?;
    refuse_8(page, key)?;
    let slot = bound(page, width, key, Bound::Lower)?;
    let equal =
        slot < Header::read(page).count && compare(page, width, slot, key)? == Ordering::Equal;
    Ok(Found { slot, equal })
}

/// "Lower and upper bound 1, 2, 3, 4, 14": the lower one.
pub fn lower_bound(page: &[u8], width: u8, probe: &[u8]) -> Answer<usize> {
    either_bound(page, width, probe, Bound::Lower)
}

/// "Lower and upper bound 1, 2, 3, 4, 14": the upper one.
pub fn upper_bound(page: &[u8], width: u8, probe: &[u8]) -> Answer<usize> {
    either_bound(page, width, probe, Bound::Upper)
}

/// "Lower and upper bound 1, 2, 3, 4, 14."
fn either_bound(page: &[u8], width: u8, probe: &[u8], which: Bound) -> Answer<usize> {
    refuse_1(page)?;
    let width = refuse_2(width)?;
    refuse_3(probe)?;
    refuse_4(page)?;
    bound(page, width, probe, which)
}

/// "Compare slot with probe 1, 2, 3, 4, 10, 14: -1, 0 or 1 for a slot below, at or above the probe."
pub fn compare_slot(page: &[u8], width: u8, slot: u64, probe: &[u8]) -> Answer<i8> {
    refuse_1(page)?;
    let width = refuse_2(width)?;
    refuse_3(probe)?;
    refuse_4(page)?;
    let index = refuse_10(page, slot)?;
    Ok(match compare(page, width, index, probe)? {
        Ordering::Less => -1,
        Ordering::Equal => 0,
        Ordering::Greater => 1,
    })
}

/// "Child number (width 8, any height) 1, 3, 5, 8, 9: the highest slot whose key is at most the probe,
/// or -1 where the lower fence's own child serves; with that child's value."
pub fn child(page: &[u8], probe: &[u8]) -> Answer<(i64, u64)> {
    let width = 8;
    refuse_1(page)?;
    refuse_3(probe)?;
    refuse_5(page, width)?;
    refuse_8(page, probe)?;
    refuse_9(page, probe)?;
    let highest = keys(page).iter().rposition(|key| key.as_slice() <= probe);
    Ok(match highest {
        Some(index) => (index as i64, value_of(page, slot_of(page, index), width)),
        None => (-1, Header::read(page).lower_value),
    })
}

/// "Entry 1, 2, 4, 10, 14".
pub fn entry(page: &[u8], width: u8, slot: u64) -> Answer<Entry> {
    refuse_1(page)?;
    let width = refuse_2(width)?;
    refuse_4(page)?;
    let index = refuse_10(page, slot)?;
    let slot = visit(page, width, index)?;
    Ok(entry_of(page, width, slot))
}

/// The entry of a slot whose payload is inside.
fn entry_of(page: &[u8], width: usize, slot: Slot) -> Entry {
    Entry {
        key: key_of(page, slot),
        value: value_of(page, slot, width),
    }
}

/// Every entry of a page whose payloads are all inside, in slot order.
fn entries(page: &[u8], width: usize) -> Vec<Entry> {
    slots(page)
        .iter()
        .map(|&slot| entry_of(page, width, slot))
        .collect()
}

/// "Copy of a key: also 15; it writes the key's bytes and no others." Answers the key's length.
pub fn copy_key(page: &[u8], width: u8, slot: u64, out: &mut [u8]) -> Answer<usize> {
    let key = entry(page, width, slot)?.key;
    refuse(15, out.len() < key.len())?;

    out[..key.len()].copy_from_slice(&key);
    Ok(key.len())
}

/// "Trailing id 1, 2, 4, 10, 14, 16: the key's last 8 bytes, big-endian."
pub fn trailing_id(page: &[u8], width: u8, slot: u64) -> Answer<u64> {
    let key = entry(page, width, slot)?.key;
    refuse(16, key.len() < 8)?;
    let last = key.iter().skip(key.len() - 8);
    Ok(last.fold(0, |above, &byte| above << 8 | u64::from(byte)))
}

/// "Space numbers 1, 4, and 5 (with 8) where effective exceeds used."
pub fn space(page: &[u8]) -> Answer<Space> {
    refuse_1(page)?;
    refuse_4(page)?;
    let header = Header::read(page);
    refuse_carrying(5, 8, header.effective > used(&header))?;
    Ok(Space {
        start: header.start as u64,
        end: header.end as u64,
        free: free(&header) as u64,
        used: used(&header) as u64,
        effective: header.effective as u64,
        reclaimable: (used(&header) - header.effective) as u64,
        free_after_compaction: (USABLE - header.effective) as u64,
    })
}

/// "Need of an entry 2, 3, 8, from a key and a prefix length (8: key shorter)."
pub fn need(width: u8, prefix_len: u64, key: &[u8]) -> Answer<u64> {
    let width = refuse_2(width)?;
    refuse_3(key)?;
    refuse(8, (key.len() as u64) < prefix_len)?;
    Ok(filing::need(width, key.len() - prefix_len as usize) as u64)
}

/// "Forecast from two fences (`PackedNodeSpace`) 3: common prefix length, and 96 plus the body bytes
/// of prefix and fences."
pub fn forecast(lower: &[u8], upper: &[u8]) -> Answer<(u64, u64)> {
    refuse_3(lower)?;
    refuse_3(upper)?;
    let (prefix_length, bytes) = plan(lower, upper);
    Ok((prefix_length as u64, (HEADER + bytes) as u64))
}

/// "Layout and fit verdict 1, 2": the layout.
pub fn layout(page: &[u8], width: u8) -> Answer<bool> {
    refuse_1(page)?;
    let width = refuse_2(width)?;
    Ok(layout_verdict(page, width))
}

/// "Layout and fit verdict 1, 2": the fit, 0 or the first rule broken.
pub fn fit(page: &[u8], width: u8) -> Answer<u8> {
    refuse_1(page)?;
    let width = refuse_2(width)?;
    Ok(fit_verdict(page, width))
}
