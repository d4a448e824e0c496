//! Calls: a slot visited, a slot against a probe, halving.
//!
//! Every function here wants a page that keeps the header rules.

use crate::hints::slots_to_search;
use crate::keys::{head, meet, prefix};
use crate::page::{payload_inside, slot, Header, Slot};
use crate::refusals::{refuse, Answer};
use std::cmp::Ordering;

/// "14: a slot visited has payload outside end..16,256"; else the slot.
pub fn visit(page: &[u8], width: usize, index: usize) -> Answer<Slot> {
    let slot = slot(page, index);
    refuse(14, !payload_inside(page, slot, width))?;
    Ok(slot)
}

/// Where a probe stands to the page's prefix; "the suffix handed back is part of the probe".
pub enum Class<'a> {
    Before,
    Within(&'a [u8]),
    After,
}

/// "A probe before the prefix …, after it …. Where the prefix matches, …"; a proper prefix is before.
pub fn class<'a>(page: &[u8], probe: &'a [u8]) -> Class<'a> {
    let prefix = prefix(page);
    match probe.strip_prefix(prefix) {
        Some(suffix) => Class::Within(suffix),
        None if probe < prefix => Class::Before,
        None => Class::After,
    }
}

/// "Compare slot with probe": the slot is visited, then stands above a probe before the prefix.
pub fn compare(page: &[u8], width: usize, index: usize, probe: &[u8]) -> Answer<Ordering> {
    let slot = visit(page, width, index)?;
    Ok(match class(page, probe) {
        Class::Before => Ordering::Greater,
        Class::After => Ordering::Less,
        Class::Within(suffix) => meet(page, slot, suffix),
    })
}

/// Which of the two bounds: the first slot not below the probe, or the first above it.
#[derive(Clone, Copy, PartialEq, Eq)]
pub enum Bound {
    Lower,
    Upper,
}

/// "A probe before the prefix gives 0, after it count"; else the halving of the slots to search.
pub fn bound(page: &[u8], width: usize, probe: &[u8], which: Bound) -> Answer<usize> {
    match class(page, probe) {
        Class::Before => Ok(0),
        Class::After => Ok(Header::read(page).count),
        Class::Within(suffix) => halve(page, width, suffix, which),
    }
}

/// "Then halve as `persisted_lower_bound` does": every middle slot is visited.
fn halve(page: &[u8], width: usize, suffix: &[u8], which: Bound) -> Answer<usize> {
    let range = slots_to_search(page, head(suffix));
    let (mut low, mut high) = (range.start, range.end);
    while low < high {
        let middle = low + (high - low) / 2;
        let slot = visit(page, width, middle)?;
        let passes = match meet(page, slot, suffix) {
            Ordering::Less => true,
            Ordering::Equal => which == Bound::Upper,
            Ordering::Greater => false,
        };
        if passes {
            low = middle + 1;
        } else {
            high = middle;
        }
    }
    Ok(low)
}
