//! The calls of document 01 as doradb answers them, over pages as bytes.
//!
//! Every function calls doradb and nothing else; after an edit of the keys it
//! calls `update_hints`, as document 01 asks. Outside 01's domain doradb may
//! panic: callers that go there catch it.

use crate::index::btree::{
    BTreeNode, BTreeU64, BTreeUpdate, BTreeValue, LookupChild, PackedNodeSpace,
};
use crate::layout;
use std::cmp::Ordering;
use std::mem::size_of_val;

/// Bytes of a page.
pub const PAGE_SIZE: usize = crate::buffer::page::PAGE_SIZE;

/// A page's bytes, placed as doradb's `BTreeNode` must lie.
#[derive(Clone)]
#[repr(C, align(32))]
pub struct Page([u8; PAGE_SIZE]);

impl Page {
    /// The page with these bytes; none if they are not a page's number.
    pub fn of(bytes: &[u8]) -> Option<Box<Page>> {
        Some(Box::new(Page(bytes.try_into().ok()?)))
    }

    /// The page's bytes.
    pub fn bytes(&self) -> &[u8] {
        &self.0
    }

    /// The page's bytes, to be written.
    pub fn bytes_mut(&mut self) -> &mut [u8] {
        &mut self.0
    }

    pub(crate) fn node(&self) -> &BTreeNode {
        layout::ref_from_bytes(&self.0)
    }

    pub(crate) fn node_mut(&mut self) -> &mut BTreeNode {
        layout::mut_from_bytes(&mut self.0)
    }
}

/// The three value types of doradb by the bytes that they take.
#[derive(Clone, Copy, Debug, PartialEq, Eq)]
pub enum Width {
    /// `BTreeNil`, no byte.
    Zero,
    /// `BTreeByte`, one byte.
    One,
    /// `BTreeU64`, eight bytes.
    Eight,
}

impl Width {
    /// The width of this many bytes, if doradb has it.
    pub fn of(bytes: u8) -> Option<Width> {
        match bytes {
            0 => Some(Width::Zero),
            1 => Some(Width::One),
            8 => Some(Width::Eight),
            _ => None,
        }
    }
}

/// Evaluates an expression with the value type `$V` of a width.
macro_rules! at_width {
    ($width:expr, $V:ident => $body:expr) => {
        match $width {
            Width::Zero => {
                type $V = crate::index::btree::BTreeNil;
                $body
            }
            Width::One => {
                type $V = crate::index::btree::BTreeByte;
                $body
            }
            Width::Eight => {
                type $V = BTreeU64;
                $body
            }
        }
    };
}

/// The value of a width that has this number, cut to the width.
fn value<V: BTreeValue>(number: u64) -> V {
    V::decode_le(&number.to_le_bytes()[..V::ENCODED_LEN])
}

/// The number of a value.
fn number<V: BTreeValue>(value: V) -> u64 {
    let mut bytes = [0; 8];
    value.encode_le(&mut bytes[..V::ENCODED_LEN]);
    u64::from_le_bytes(bytes)
}

/// Begin: `init`.
pub fn begin(
    page: &mut Page,
    height: u16,
    timestamp: u64,
    lower: &[u8],
    lower_value: u64,
    upper: &[u8],
    hints: bool,
) {
    let lower_value = BTreeU64::from(lower_value);
    page.node_mut()
        .init(height, timestamp.into(), lower, lower_value, upper, hints);
}

/// Insert: `insert`, then `update_hints`. Gives the slot number.
pub fn insert(page: &mut Page, width: Width, key: &[u8], value: u64) -> usize {
    let slot = insert_alone(page, width, key, value);
    page.node_mut().update_hints();
    slot
}

/// `insert` without the `update_hints` that document 01 asks for.
pub fn insert_alone(page: &mut Page, width: Width, key: &[u8], number: u64) -> usize {
    at_width!(width, V => page.node_mut().insert::<V>(key, value(number)))
}

/// What `update` answers.
#[derive(Debug, PartialEq, Eq)]
pub enum Update {
    /// The value was replaced; the old one.
    Old(u64),
    /// The key is not there.
    NotFound,
    /// Another value is stored; that one.
    Differs(u64),
}

/// Set value: `update`.
pub fn set_value(page: &mut Page, width: Width, key: &[u8], expected: u64, new: u64) -> Update {
    at_width!(width, V => match page.node_mut().update::<V>(key, value(expected), value(new)) {
        BTreeUpdate::Ok(old) => Update::Old(number(old)),
        BTreeUpdate::NotFound => Update::NotFound,
        BTreeUpdate::ValueMismatch(stored) => Update::Differs(number(stored)),
    })
}

/// Change key: `update_key`, then `update_hints`.
pub fn change_key(page: &mut Page, width: Width, slot: usize, key: &[u8]) {
    change_key_alone(page, width, slot, key);
    page.node_mut().update_hints();
}

/// `update_key` without the `update_hints` that document 01 asks for.
pub fn change_key_alone(page: &mut Page, width: Width, slot: usize, key: &[u8]) {
    at_width!(width, V => page.node_mut().update_key::<V>(slot, key))
}

/// `update_hint_if_needed`, which sets the hint slot / window.
pub fn update_hint_if_needed(page: &mut Page, slot: usize, key: &[u8]) {
    page.node_mut().update_hint_if_needed(slot, key);
}

/// Run copy: `extend_slots_from`, then `update_hints`.
pub fn run_copy(destination: &mut Page, source: &Page, width: Width, first: usize, n: usize) {
    let node = destination.node_mut();
    at_width!(width, V => node.extend_slots_from::<V>(source.node(), first, n));
    node.update_hints();
}

/// Find: `search_key`. The equal key's slot, or else the place for it.
pub fn find(page: &Page, key: &[u8]) -> Result<usize, usize> {
    page.node().search_key(key)
}

/// Lower bound: `persisted_lower_bound`; none where it meets a bad payload.
pub fn lower_bound(page: &Page, width: Width, probe: &[u8]) -> Option<usize> {
    at_width!(width, V => page.node().persisted_lower_bound::<V>(probe, false))
}

/// Upper bound: `persisted_lower_bound` with `upper`; none where it meets a bad payload.
pub fn upper_bound(page: &Page, width: Width, probe: &[u8]) -> Option<usize> {
    at_width!(width, V => page.node().persisted_lower_bound::<V>(probe, true))
}

/// Compare slot with probe: `compare_persisted_key`.
pub fn compare_slot(page: &Page, width: Width, slot: usize, probe: &[u8]) -> Option<Ordering> {
    at_width!(width, V => page.node().compare_persisted_key::<V>(slot, probe))
}

/// What `lookup_child` answers.
#[derive(Debug, PartialEq, Eq)]
pub enum Child {
    /// A slot with its value.
    Slot(usize, u64),
    /// The lower fence's own child.
    LowerFence(u64),
    /// No child.
    NotFound,
}

/// Child: `lookup_child`.
pub fn child(page: &Page, probe: &[u8]) -> Child {
    match page.node().lookup_child(probe) {
        LookupChild::Slot(slot, id) => Child::Slot(slot, id.as_u64()),
        LookupChild::LowerFence(id) => Child::LowerFence(id.as_u64()),
        LookupChild::NotFound => Child::NotFound,
    }
}

/// Entry: `entry_view_checked`, key and value.
pub fn entry(page: &Page, width: Width, slot: usize) -> Option<(Vec<u8>, u64)> {
    at_width!(width, V => {
        let entry = page.node().entry_view_checked::<V>(slot)?;
        Some((entry.key.to_vec(), number(entry.value)))
    })
}

/// Key copy: `btree_key_checked`.
pub fn copy_key(page: &Page, slot: usize) -> Option<Vec<u8>> {
    page.node().btree_key_checked(slot).map(|key| key.to_vec())
}

/// Key copy by doradb's other way: `key_view_checked`.
pub fn copy_key_view(page: &Page, slot: usize) -> Option<Vec<u8>> {
    page.node().key_view_checked(slot).map(|key| key.to_vec())
}

/// Trailing id: `unpack_value`.
pub fn trailing_id(page: &Page, slot: usize) -> u64 {
    let node = page.node();
    node.unpack_value::<BTreeU64>(node.slot(slot)).to_u64()
}

/// Trailing id by doradb's other way: `copy_tail` of a key view.
pub fn trailing_id_view(page: &Page, slot: usize) -> Option<u64> {
    let mut tail = [0; 8];
    page.node().key_view_checked(slot)?.copy_tail(&mut tail)?;
    Some(u64::from_be_bytes(tail))
}

/// Space numbers of a page.
#[derive(Debug, PartialEq, Eq)]
pub struct Space {
    /// Bytes of the slots.
    pub start: usize,
    /// The slots and the free bytes after them.
    pub end: usize,
    /// `free_space`.
    pub free: usize,
    /// `used_space`.
    pub used: usize,
    /// `effective_space`.
    pub effective: usize,
    /// `reclaimable_space`.
    pub reclaimable: usize,
    /// `free_space_after_compaction`.
    pub free_after_compaction: usize,
}

/// Space numbers. doradb shows start and end only through its slots and its
/// free space.
pub fn space(page: &Page) -> Space {
    let node = page.node();
    let start = size_of_val(node.slots());
    Space {
        start,
        end: start + node.free_space(),
        free: node.free_space(),
        used: node.used_space(),
        effective: node.effective_space(),
        reclaimable: node.reclaimable_space(),
        free_after_compaction: node.free_space_after_compaction(),
    }
}

/// Need of an entry: `PackedNodeSpace::entry_space`.
pub fn need(width: Width, prefix_len: usize, key: &[u8]) -> Option<usize> {
    at_width!(width, V => PackedNodeSpace::entry_space::<V>(key, prefix_len))
}

/// Forecast: `PackedNodeSpace::with_fences`, prefix length and space.
pub fn forecast(lower: &[u8], upper: &[u8]) -> Option<(usize, usize)> {
    PackedNodeSpace::with_fences(lower, upper)
        .map(|forecast| (forecast.prefix_len(), forecast.total_space()))
}

/// Header rules: `validate_persisted_header`, which refuses an empty leaf.
pub fn header(page: &Page) -> bool {
    page.node().validate_persisted_header()
}

/// Layout verdict: `validate_persisted_layout`, which only a debug build has.
#[cfg(debug_assertions)]
pub fn layout(page: &Page, width: Width) -> bool {
    at_width!(width, V => page.node().validate_persisted_layout::<V>())
}

/// `within_boundary`.
pub fn within_boundary(page: &Page, key: &[u8]) -> bool {
    page.node().within_boundary(key)
}
