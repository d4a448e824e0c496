//! The page: integers at their places, the header, slots and their payloads.
//!
//! Every function here wants a page of 16,384 bytes (refusal 1 has been tested). Those that read a
//! payload want it inside the body (header rules for fences, U2 or refusal 14 for entries).

/// "page 16,384 bytes".
pub const PAGE: usize = 16_384;
/// "header 96".
pub const HEADER: usize = 96;
/// "body 16,256".
pub const BODY: usize = 16_256;
/// "footer 32, never touched".
pub const FOOTER: usize = 32;
/// Header and body together: the 16,352 of the space numbers.
pub const USABLE: usize = HEADER + BODY;

/// A slot is 8 bytes: length u16, offset u16, head u32.
pub const SLOT: usize = 8;
/// "A suffix of up to 4 bytes lives in its head".
pub const SHORT: usize = 4;
/// "A prefix of up to 16 bytes is inline".
pub const INLINE: usize = 16;

/// Place of the inline prefix in the page.
pub const INLINE_AT: usize = 48;
/// Place of the eight hints in the page.
pub const HINTS_AT: usize = 64;

/// The little-endian number in these bytes ("Integers are little-endian"); 0 for no byte.
pub fn number(bytes: &[u8]) -> u64 {
    bytes
        .iter()
        .rev()
        .fold(0, |above, &byte| above << 8 | u64::from(byte))
}

/// The u16 at a place of the page.
pub fn u16_at(page: &[u8], at: usize) -> u16 {
    number(&page[at..at + 2]) as u16
}

/// The u32 at a place of the page.
pub fn u32_at(page: &[u8], at: usize) -> u32 {
    number(&page[at..at + 4]) as u32
}

/// The u64 at a place of the page.
pub fn u64_at(page: &[u8], at: usize) -> u64 {
    number(&page[at..at + 8])
}

/// Writes bytes at a place of the page.
pub fn put(page: &mut [u8], at: usize, bytes: &[u8]) {
    page[at..at + bytes.len()].copy_from_slice(bytes);
}

/// "Body offsets count from page byte 96."
pub fn body(page: &[u8]) -> &[u8] {
    &page[HEADER..HEADER + BODY]
}

/// The body, to be written.
pub fn body_mut(page: &mut [u8]) -> &mut [u8] {
    &mut page[HEADER..HEADER + BODY]
}

/// "A slot is length u16, offset u16, head u32."
#[derive(Clone, Copy)]
pub struct Slot {
    pub length: usize,
    pub offset: usize,
    pub head: u32,
}

/// The slot that stands at a place of the page.
pub fn slot_at(page: &[u8], at: usize) -> Slot {
    Slot {
        length: usize::from(u16_at(page, at)),
        offset: usize::from(u16_at(page, at + 2)),
        head: u32_at(page, at + 4),
    }
}

/// Writes a slot at a place of the page; the head is "stored little-endian".
pub fn put_slot(page: &mut [u8], at: usize, slot: Slot) {
    put(page, at, &(slot.length as u16).to_le_bytes());
    put(page, at + 2, &(slot.offset as u16).to_le_bytes());
    put(page, at + 4, &slot.head.to_le_bytes());
}

/// "Slots fill the body from 0": the place of slot `index` in the page.
pub fn slot_place(index: usize) -> usize {
    HEADER + SLOT * index
}

/// Slot `index` of the page.
pub fn slot(page: &[u8], index: usize) -> Slot {
    slot_at(page, slot_place(index))
}

/// Every slot of the page, in slot order.
pub fn slots(page: &[u8]) -> Vec<Slot> {
    (0..Header::read(page).count)
        .map(|index| slot(page, index))
        .collect()
}

/// The header's fields, all but the inline prefix and the hints.
#[derive(Clone, Copy)]
pub struct Header {
    pub height: u16,
    pub count: usize,
    pub start: usize,
    pub end: usize,
    pub timestamp: u64,
    pub lower: Slot,
    pub lower_value: u64,
    pub upper: Slot,
    pub effective: usize,
    pub initialized: u8,
    pub flag: u8,
    pub prefix_length: usize,
}

impl Header {
    /// "0 height u16, 2 count u16, 4 start u16, 6 end u16, 8 timestamp u64, 16 lower fence slot, …"
    pub fn read(page: &[u8]) -> Header {
        Header {
            height: u16_at(page, 0),
            count: usize::from(u16_at(page, 2)),
            start: usize::from(u16_at(page, 4)),
            end: usize::from(u16_at(page, 6)),
            timestamp: u64_at(page, 8),
            lower: slot_at(page, 16),
            lower_value: u64_at(page, 24),
            upper: slot_at(page, 32),
            effective: u32_at(page, 40) as usize,
            initialized: page[44],
            flag: page[45],
            prefix_length: usize::from(u16_at(page, 46)),
        }
    }

    /// "the header is read once, edited field by field and written back".
    pub fn write(&self, page: &mut [u8]) {
        put(page, 0, &self.height.to_le_bytes());
        put(page, 2, &(self.count as u16).to_le_bytes());
        put(page, 4, &(self.start as u16).to_le_bytes());
        put(page, 6, &(self.end as u16).to_le_bytes());
        put(page, 8, &self.timestamp.to_le_bytes());
        put_slot(page, 16, self.lower);
        put(page, 24, &self.lower_value.to_le_bytes());
        put_slot(page, 32, self.upper);
        put(page, 40, &(self.effective as u32).to_le_bytes());
        put(page, 44, &[self.initialized]);
        put(page, 45, &[self.flag]);
        put(page, 46, &(self.prefix_length as u16).to_le_bytes());
    }
}

/// Body bytes of a prefix: none up to 16 bytes ("inline"), else its length.
pub fn prefix_bytes(length: usize) -> usize {
    if length <= INLINE {
        0
    } else {
        length
    }
}

/// Body bytes of a suffix: none up to 4 bytes ("lives in its head"), else its length.
pub fn suffix_bytes(length: usize) -> usize {
    if length <= SHORT {
        0
    } else {
        length
    }
}

/// A payload is the long suffix and the value: "The value follows it, or stands at the offset itself".
pub fn payload_length(slot: Slot, width: usize) -> usize {
    suffix_bytes(slot.length) + width
}

/// The entry's payload lies in end..16,256, at both ends, an empty payload's offset too.
pub fn payload_inside(page: &[u8], slot: Slot, width: usize) -> bool {
    let end = Header::read(page).end;
    end <= slot.offset && slot.offset + payload_length(slot, width) <= BODY
}

/// "A suffix of up to 4 bytes lives in its head; a longer one at its offset."
pub fn suffix(page: &[u8], slot: Slot) -> Vec<u8> {
    if slot.length <= SHORT {
        slot.head.to_be_bytes()[..slot.length].to_vec()
    } else {
        body(page)[slot.offset..slot.offset + slot.length].to_vec()
    }
}

/// The body offset of an entry's value.
pub fn value_offset(slot: Slot) -> usize {
    slot.offset + suffix_bytes(slot.length)
}

/// An entry's value, "Widths: 8 (u64), 1 (byte), 0 (none)"; 0 at width 0.
pub fn value(page: &[u8], slot: Slot, width: usize) -> u64 {
    let at = value_offset(slot);
    number(&body(page)[at..at + width])
}
