//! Two verdicts: header rules, U1 to U9, layout and fit.
//!
//! Every function here wants a page of 16,384 bytes; every rule wants those before it unbroken.

use crate::filing::{fence_bytes, need};
use crate::hints;
use crate::keys::{head, keys, Fences};
use crate::page::{
    payload_inside, payload_length, prefix_bytes, slots, suffix, suffix_bytes, Header, Slot, BODY,
    HEADER, SHORT, SLOT, USABLE,
};
use std::ops::Range;

/// "Header rules: initialized 1; flag 0 or 1; start = 8 x count; start <= end <= 16,256; …"
pub fn header_rules(page: &[u8]) -> bool {
    let header = Header::read(page);
    header.initialized == 1
        && header.flag <= 1
        && header.start == SLOT * header.count
        && header.start <= header.end
        && header.end <= BODY
        && HEADER <= header.effective
        && header.effective <= USABLE
        && header.prefix_length <= BODY
        && prefix_starts_from_end(&header)
        && fence_inside(&header, header.lower)
        && fence_inside(&header, header.upper)
}

/// "a long one starts at or above end".
fn prefix_starts_from_end(header: &Header) -> bool {
    let bytes = prefix_bytes(header.prefix_length);
    bytes == 0 || header.end <= BODY - bytes
}

/// "long fences within end..16,256".
fn fence_inside(header: &Header, fence: Slot) -> bool {
    fence.length <= SHORT || header.end <= fence.offset && fence.offset + fence.length <= BODY
}

/// "U2 every entry's payload lies in end..16,256."
fn keeps_u2(page: &[u8], width: usize) -> bool {
    slots(page)
        .iter()
        .all(|&slot| payload_inside(page, slot, width))
}

/// The "non-empty pieces (long prefix, long fence suffixes, payloads)".
fn pieces(page: &[u8], width: usize) -> Vec<Range<usize>> {
    let header = Header::read(page);
    let mut pieces = Vec::new();
    pieces.push(BODY - prefix_bytes(header.prefix_length)..BODY);
    for fence in [header.lower, header.upper] {
        pieces.push(fence.offset..fence.offset + suffix_bytes(fence.length));
    }
    for slot in slots(page) {
        pieces.push(slot.offset..slot.offset + payload_length(slot, width));
    }
    pieces.retain(|piece| !piece.is_empty());
    pieces
}

/// "U3 non-empty pieces … are disjoint; the overlap search stops at the first clash."
fn keeps_u3(page: &[u8], width: usize) -> bool {
    let pieces = pieces(page, width);
    for (i, one) in pieces.iter().enumerate() {
        for other in &pieces[..i] {
            if one.start < other.end && other.start < one.end {
                return false;
            }
        }
    }
    true
}

/// "U4 heads of fences and entries are faithful, padding included."
fn keeps_u4(page: &[u8]) -> bool {
    let header = Header::read(page);
    let faithful = |slot: &Slot| slot.head == head(&suffix(page, *slot));
    [header.lower, header.upper].iter().all(faithful) && slots(page).iter().all(faithful)
}

/// "U5 an empty upper slot only with prefix 0; otherwise lower < upper."
fn keeps_u5(page: &[u8]) -> bool {
    let header = Header::read(page);
    if header.upper.length == 0 {
        header.prefix_length == 0
    } else {
        Fences::read(page).rise()
    }
}

/// "U6 entries within fences."
fn keeps_u6(page: &[u8]) -> bool {
    let fences = Fences::read(page);
    keys(page).iter().all(|key| fences.hold(key))
}

/// "U7 keys strictly rising."
fn keeps_u7(page: &[u8]) -> bool {
    keys(page).windows(2).all(|pair| pair[0] < pair[1])
}

/// "U8 effective = 96 + body bytes of prefix and fences + needs of all entries."
fn keeps_u8(page: &[u8], width: usize) -> bool {
    let header = Header::read(page);
    let fences = fence_bytes(
        header.prefix_length,
        header.lower.length,
        header.upper.length,
    );
    let needs: usize = slots(page)
        .iter()
        .map(|slot| need(width, slot.length))
        .sum();
    header.effective == HEADER + fences + needs
}

/// "U9 hints in use are fresh."
fn keeps_u9(page: &[u8]) -> bool {
    !hints::in_use(page) || hints::stored(page) == hints::fresh(page)
}

/// "Layout verdict (yes or no), as `validate_persisted_layout`: the header rules with an empty leaf
/// refused, U2, U3, lower < upper where the upper slot isn't empty …, U6 and U7".
pub fn layout_verdict(page: &[u8], width: usize) -> bool {
    header_rules(page)
        && !empty_leaf(page)
        && keeps_u2(page, width)
        && keeps_u3(page, width)
        && Fences::read(page).rise()
        && keeps_u6(page)
        && keeps_u7(page)
}

/// A leaf ("leaf means height 0") without an entry.
fn empty_leaf(page: &[u8]) -> bool {
    let header = Header::read(page);
    header.height == 0 && header.count == 0
}

/// "Fit verdict: 0, or the first rule broken."
pub fn fit_verdict(page: &[u8], width: usize) -> u8 {
    if !header_rules(page) {
        1
    } else if !keeps_u2(page, width) {
        2
    } else if !keeps_u3(page, width) {
        3
    } else if !keeps_u4(page) {
        4
    } else if !keeps_u5(page) {
        5
    } else if !keeps_u6(page) {
        6
    } else if !keeps_u7(page) {
        7
    } else if !keeps_u8(page, width) {
        8
    } else if !keeps_u9(page) {
        9
    } else {
        0
    }
}
