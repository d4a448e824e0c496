//! The static library's calls, at width 8.

/// An answer: 0 and the call's values, or the number of a refusal.
#[repr(C)]
pub struct Answer {
    pub number: u8,
    pub a: u64,
    pub b: u64,
}

/// The answer of the space numbers.
#[repr(C)]
pub struct SpaceAnswer {
    pub number: u8,
    pub carried: u64,
    pub start: u64,
    pub end: u64,
    pub free: u64,
    pub used: u64,
    pub effective: u64,
    pub reclaimable: u64,
    pub compacted: u64,
}

// A test of `bindings/rust` holds these declarations, and the two structs, against the header.
mod c {
    use super::{Answer, SpaceAnswer};

    #[rustfmt::skip] // a line for each function
    extern "C" {
        pub fn dorgumanna_find(page: *const u8, page_len: usize, width: u8, key: *const u8, key_len: usize) -> Answer;
        pub fn dorgumanna_lower_bound(page: *const u8, page_len: usize, width: u8, key: *const u8, key_len: usize) -> Answer;
        pub fn dorgumanna_upper_bound(page: *const u8, page_len: usize, width: u8, key: *const u8, key_len: usize) -> Answer;
        pub fn dorgumanna_compare(page: *const u8, page_len: usize, width: u8, slot: usize, key: *const u8, key_len: usize) -> Answer;
        pub fn dorgumanna_child(page: *const u8, page_len: usize, key: *const u8, key_len: usize) -> Answer;
        pub fn dorgumanna_entry(page: *const u8, page_len: usize, width: u8, slot: usize) -> Answer;
        pub fn dorgumanna_copy_key(page: *const u8, page_len: usize, width: u8, slot: usize, out: *mut u8, out_len: usize) -> Answer;
        pub fn dorgumanna_trailing_id(page: *const u8, page_len: usize, width: u8, slot: usize) -> Answer;
        pub fn dorgumanna_space(page: *const u8, page_len: usize) -> SpaceAnswer;
        pub fn dorgumanna_need(width: u8, prefix_len: usize, key: *const u8, key_len: usize) -> Answer;
        pub fn dorgumanna_forecast(lower: *const u8, lower_len: usize, upper: *const u8, upper_len: usize) -> Answer;
        pub fn dorgumanna_layout(page: *const u8, page_len: usize, width: u8) -> Answer;
        pub fn dorgumanna_fit(page: *const u8, page_len: usize, width: u8) -> Answer;
        pub fn dorgumanna_begin(page: *mut u8, page_len: usize, height: u16, timestamp: u64, lower: *const u8, lower_len: usize, lower_value: u64, upper: *const u8, upper_len: usize, hints: bool) -> Answer;
        pub fn dorgumanna_insert(page: *mut u8, page_len: usize, width: u8, key: *const u8, key_len: usize, value: u64) -> Answer;
        pub fn dorgumanna_set_value(page: *mut u8, page_len: usize, width: u8, key: *const u8, key_len: usize, expected: u64, new_value: u64) -> Answer;
        pub fn dorgumanna_change_key(page: *mut u8, page_len: usize, width: u8, slot: usize, key: *const u8, key_len: usize) -> Answer;
        pub fn dorgumanna_copy_run(page: *mut u8, page_len: usize, source: *const u8, source_len: usize, width: u8, first: usize, n: usize) -> Answer;
        pub fn dorgumanna_file_batch(page: *mut u8, page_len: usize, width: u8, records: *const u8, records_len: usize) -> Answer;
    }
}

// SAFETY, of every call below: a slice's pointer and length are handed on as C takes a lent slice, and the functions
// are proved to stay inside.

#[inline(always)]
pub fn find(page: &[u8], key: &[u8]) -> Answer {
    unsafe { c::dorgumanna_find(page.as_ptr(), page.len(), 8, key.as_ptr(), key.len()) }
}

#[inline(always)]
pub fn lower_bound(page: &[u8], key: &[u8]) -> Answer {
    unsafe { c::dorgumanna_lower_bound(page.as_ptr(), page.len(), 8, key.as_ptr(), key.len()) }
}

#[inline(always)]
pub fn upper_bound(page: &[u8], key: &[u8]) -> Answer {
    unsafe { c::dorgumanna_upper_bound(page.as_ptr(), page.len(), 8, key.as_ptr(), key.len()) }
}

#[inline(always)]
pub fn compare(page: &[u8], slot: usize, key: &[u8]) -> Answer {
    unsafe { c::dorgumanna_compare(page.as_ptr(), page.len(), 8, slot, key.as_ptr(), key.len()) }
}

#[inline(always)]
pub fn entry(page: &[u8], slot: usize) -> Answer {
    unsafe { c::dorgumanna_entry(page.as_ptr(), page.len(), 8, slot) }
}

#[inline(always)]
pub fn copy_key(page: &[u8], slot: usize, out: &mut [u8]) -> Answer {
    unsafe {
        c::dorgumanna_copy_key(
            page.as_ptr(),
            page.len(),
            8,
            slot,
            out.as_mut_ptr(),
            out.len(),
        )
    }
}

#[inline(always)]
pub fn trailing_id(page: &[u8], slot: usize) -> Answer {
    unsafe { c::dorgumanna_trailing_id(page.as_ptr(), page.len(), 8, slot) }
}

#[inline(always)]
pub fn space(page: &[u8]) -> SpaceAnswer {
    unsafe { c::dorgumanna_space(page.as_ptr(), page.len()) }
}

#[inline(always)]
pub fn need(prefix_len: usize, key: &[u8]) -> Answer {
    unsafe { c::dorgumanna_need(8, prefix_len, key.as_ptr(), key.len()) }
}

#[inline(always)]
pub fn forecast(lower: &[u8], upper: &[u8]) -> Answer {
    unsafe { c::dorgumanna_forecast(lower.as_ptr(), lower.len(), upper.as_ptr(), upper.len()) }
}

#[inline(always)]
pub fn layout(page: &[u8]) -> Answer {
    unsafe { c::dorgumanna_layout(page.as_ptr(), page.len(), 8) }
}

#[inline(always)]
pub fn fit(page: &[u8]) -> Answer {
    unsafe { c::dorgumanna_fit(page.as_ptr(), page.len(), 8) }
}

#[inline(always)]
pub fn insert(page: &mut [u8], key: &[u8], value: u64) -> Answer {
    let (p, n) = (page.as_mut_ptr(), page.len());
    unsafe { c::dorgumanna_insert(p, n, 8, key.as_ptr(), key.len(), value) }
}

#[inline(always)]
pub fn set_value(page: &mut [u8], key: &[u8], expected: u64, new: u64) -> Answer {
    let (p, n) = (page.as_mut_ptr(), page.len());
    unsafe { c::dorgumanna_set_value(p, n, 8, key.as_ptr(), key.len(), expected, new) }
}

#[inline(always)]
pub fn change_key(page: &mut [u8], slot: usize, key: &[u8]) -> Answer {
    let (p, n) = (page.as_mut_ptr(), page.len());
    unsafe { c::dorgumanna_change_key(p, n, 8, slot, key.as_ptr(), key.len()) }
}

#[inline(always)]
pub fn child(page: &[u8], key: &[u8]) -> Answer {
    unsafe { c::dorgumanna_child(page.as_ptr(), page.len(), key.as_ptr(), key.len()) }
}

/// At height 0, timestamp 7 and lower fence value 0.
#[inline(always)]
pub fn begin(page: &mut [u8], lower: &[u8], upper: &[u8], hints: bool) -> Answer {
    let (p, n) = (page.as_mut_ptr(), page.len());
    let (l, u) = (lower.as_ptr(), upper.as_ptr());
    unsafe { c::dorgumanna_begin(p, n, 0, 7, l, lower.len(), 0, u, upper.len(), hints) }
}

#[inline(always)]
pub fn copy_run(page: &mut [u8], source: &[u8], first: usize, n: usize) -> Answer {
    let (p, m) = (page.as_mut_ptr(), page.len());
    unsafe { c::dorgumanna_copy_run(p, m, source.as_ptr(), source.len(), 8, first, n) }
}

#[inline(always)]
pub fn file_batch(page: &mut [u8], records: &[u8]) -> Answer {
    let (p, n) = (page.as_mut_ptr(), page.len());
    unsafe { c::dorgumanna_file_batch(p, n, 8, records.as_ptr(), records.len()) }
}
