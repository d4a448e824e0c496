//! Filing rules: hints, their window, the slots they leave to search.

use crate::page::{put, slot, u32_at, Header, HINTS_AT};
use std::array;
use std::ops::Range;

/// "Hints are in use when the flag is 1 and count >= 64."
pub fn in_use(page: &[u8]) -> bool {
    let header = Header::read(page);
    header.flag == 1 && header.count >= 64
}

/// "Window = count / 9."
pub fn window(page: &[u8]) -> usize {
    Header::read(page).count / 9
}

/// The eight hints as they stand on the page: "64 hints (8 x u32)".
pub fn stored(page: &[u8]) -> [u32; 8] {
    array::from_fn(|i| u32_at(page, HINTS_AT + 4 * i))
}

/// "Fresh: hint i is the head of slot (i+1) x window."
pub fn fresh(page: &[u8]) -> [u32; 8] {
    array::from_fn(|i| slot(page, (i + 1) * window(page)).head)
}

/// "Insert, change key and run copy then refresh all hints in use."
pub fn refresh(page: &mut [u8]) {
    if in_use(page) {
        let hints = fresh(page);
        for (i, hint) in hints.iter().enumerate() {
            put(page, HINTS_AT + 4 * i, &hint.to_le_bytes());
        }
    }
}

/// "Search slots lo x window to (up+1) x window, or to count if up is 8"; all slots without hints.
///
/// A hint above the head is not below it, so lo <= up; up+1 <= 8 and window = count / 9, so
/// (up+1) x window <= count. The range never falls and never passes count.
pub fn slots_to_search(page: &[u8], head: u32) -> Range<usize> {
    let count = Header::read(page).count;
    if !in_use(page) {
        return 0..count;
    }
    let hints = stored(page);
    let lo = hints.iter().position(|&hint| hint >= head).unwrap_or(8);
    let up = hints.iter().position(|&hint| hint > head).unwrap_or(8);
    let last = if up == 8 {
        count
    } else {
        (up + 1) * window(page)
    };
    lo * window(page)..last
}
