//! Calls of doradb to be timed, at width 8, each behind one call as a library
//! has it: reads alone, and after `validate_persisted_header`, which every
//! read of document 01 includes; edits alone, with the `update_hints` that
//! document 01 asks for.

use crate::index::btree::{BTreeU64, BTreeUpdate, LookupChild, PackedNodeSpace};
use crate::oracle::Page;

macro_rules! reads {
    ($name:ident, $admit:expr) => {
        pub mod $name {
            use crate::index::btree::BTreeU64;
            use crate::oracle::Page;
            use std::cmp::Ordering;

            /// Find: `search_key`.
            #[inline(never)]
            pub fn find(page: &Page, key: &[u8]) -> Option<Result<usize, usize>> {
                admit(page)?;
                Some(page.node().search_key(key))
            }

            /// Lower bound: `persisted_lower_bound`.
            #[inline(never)]
            pub fn lower_bound(page: &Page, key: &[u8]) -> Option<usize> {
                admit(page)?;
                page.node().persisted_lower_bound::<BTreeU64>(key, false)
            }

            /// Upper bound: `persisted_lower_bound`.
            #[inline(never)]
            pub fn upper_bound(page: &Page, key: &[u8]) -> Option<usize> {
                admit(page)?;
                page.node().persisted_lower_bound::<BTreeU64>(key, true)
            }

            /// Compare: `compare_persisted_key`.
            #[inline(never)]
            pub fn compare(page: &Page, slot: usize, key: &[u8]) -> Option<Ordering> {
                admit(page)?;
                page.node().compare_persisted_key::<BTreeU64>(slot, key)
            }

            /// Entry: `entry_view_checked`, its value.
            #[inline(never)]
            pub fn entry(page: &Page, slot: usize) -> Option<u64> {
                admit(page)?;
                let entry = page.node().entry_view_checked::<BTreeU64>(slot)?;
                Some(entry.value.to_u64())
            }

            /// Key copy into a buffer that is long enough: `copy_slot_key`; the key's length.
            #[inline(never)]
            pub fn copy_key(page: &Page, slot: usize, out: &mut [u8]) -> Option<usize> {
                admit(page)?;
                let node = page.node();
                let length = node.key_view_checked(slot)?.len();
                node.copy_slot_key(node.slot(slot), &mut out[..length]);
                Some(length)
            }

            /// Trailing id: `unpack_value`.
            #[inline(never)]
            pub fn trailing_id(page: &Page, slot: usize) -> Option<u64> {
                admit(page)?;
                let node = page.node();
                Some(node.unpack_value::<BTreeU64>(node.slot(slot)).to_u64())
            }

            /// Space: the five numbers that doradb shows, added.
            #[inline(never)]
            pub fn space(page: &Page) -> Option<usize> {
                admit(page)?;
                let node = page.node();
                Some(
                    node.free_space()
                        + node.used_space()
                        + node.effective_space()
                        + node.reclaimable_space()
                        + node.free_space_after_compaction(),
                )
            }

            fn admit(page: &Page) -> Option<()> {
                (!$admit || page.node().validate_persisted_header()).then_some(())
            }
        }
    };
}

reads!(alone, false);
reads!(admitted, true);

/// Need: `PackedNodeSpace::entry_space`.
#[inline(never)]
pub fn need(prefix_len: usize, key: &[u8]) -> Option<usize> {
    PackedNodeSpace::entry_space::<BTreeU64>(key, prefix_len)
}

/// Forecast: `PackedNodeSpace::with_fences`.
#[inline(never)]
pub fn forecast(lower: &[u8], upper: &[u8]) -> Option<(usize, usize)> {
    let space = PackedNodeSpace::with_fences(lower, upper)?;
    Some((space.prefix_len(), space.total_space()))
}

/// Layout verdict: `validate_persisted_layout`.
#[inline(never)]
pub fn layout(page: &Page) -> bool {
    page.node().validate_persisted_layout::<BTreeU64>()
}

/// Child: `lookup_child`, on a page whose lower fence has a child. The slot, or
/// the highest number for the lower fence's own child, and the value.
#[inline(never)]
pub fn child(page: &Page, key: &[u8]) -> Option<(u64, u64)> {
    match page.node().lookup_child(key) {
        LookupChild::Slot(slot, id) => Some((slot as u64, id.as_u64())),
        LookupChild::LowerFence(id) => Some((u64::MAX, id.as_u64())),
        LookupChild::NotFound => None,
    }
}

/// Begin at height 0, timestamp 7 and lower fence value 0: `init`.
#[inline(never)]
pub fn begin(page: &mut Page, lower: &[u8], upper: &[u8], hints: bool) {
    let node = page.node_mut();
    node.init(0, 7.into(), lower, BTreeU64::from(0), upper, hints);
}

/// Insert: `insert`, then `update_hints`. Gives the slot number.
#[inline(never)]
pub fn insert(page: &mut Page, key: &[u8], value: u64) -> usize {
    let node = page.node_mut();
    let slot = node.insert(key, BTreeU64::from(value));
    node.update_hints();
    slot
}

/// `insert` without the `update_hints` that document 01 asks for.
#[inline(never)]
pub fn insert_alone(page: &mut Page, key: &[u8], value: u64) -> usize {
    page.node_mut().insert(key, BTreeU64::from(value))
}

/// Set value: `update`; the old value where it was the expected one.
#[inline(never)]
pub fn set_value(page: &mut Page, key: &[u8], expected: u64, new: u64) -> Option<u64> {
    let (expected, new) = (BTreeU64::from(expected), BTreeU64::from(new));
    match page.node_mut().update(key, expected, new) {
        BTreeUpdate::Ok(old) => Some(old.to_u64()),
        _ => None,
    }
}

/// Change key: `update_key`, then `update_hints`.
#[inline(never)]
pub fn change_key(page: &mut Page, slot: usize, key: &[u8]) {
    let node = page.node_mut();
    node.update_key::<BTreeU64>(slot, key);
    node.update_hints();
}

/// Run copy: `extend_slots_from`, then `update_hints`.
#[inline(never)]
pub fn run_copy(destination: &mut Page, source: &Page, first: usize, n: usize) {
    let node = destination.node_mut();
    node.extend_slots_from::<BTreeU64>(source.node(), first, n);
    node.update_hints();
}
