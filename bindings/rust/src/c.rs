//! The C functions of `include/dorgumanna.h`, and a safe shell for each: a slice is handed on as its pointer and its
//! length. A test holds the declarations against the header.
//!
//! All that is unsafe is here. Every shell is sound for the same reasons: a slice's pointer is not null and good for as
//! many bytes as its length says; a slice that is written to is `&mut`, so that no other one overlaps it; and the
//! functions are proved to take every length and every byte, to stay inside what is lent, and to end.

/// An answer: 0 and the call's values, or the number of a refusal and what it carries.
#[repr(C)]
pub struct Answer {
    pub number: u8,
    pub a: u64,
    pub b: u64,
}

/// The answer of the space numbers.
#[repr(C)]
pub struct SpaceAnswer {
    pub number: u8,
    pub carried: u64,
    pub start: u64,
    pub end: u64,
    pub free: u64,
    pub used: u64,
    pub effective: u64,
    pub reclaimable: u64,
    pub compacted: u64,
}

#[rustfmt::skip] // a line for each function
extern "C" {
    fn dorgumanna_find(page: *const u8, page_len: usize, width: u8, key: *const u8, key_len: usize) -> Answer;
    fn dorgumanna_lower_bound(page: *const u8, page_len: usize, width: u8, key: *const u8, key_len: usize) -> Answer;
    fn dorgumanna_upper_bound(page: *const u8, page_len: usize, width: u8, key: *const u8, key_len: usize) -> Answer;
    fn dorgumanna_compare(page: *const u8, page_len: usize, width: u8, slot: usize, key: *const u8, key_len: usize) -> Answer;
    fn dorgumanna_child(page: *const u8, page_len: usize, key: *const u8, key_len: usize) -> Answer;
    fn dorgumanna_entry(page: *const u8, page_len: usize, width: u8, slot: usize) -> Answer;
    fn dorgumanna_copy_key(page: *const u8, page_len: usize, width: u8, slot: usize, out: *mut u8, out_len: usize) -> Answer;
    fn dorgumanna_trailing_id(page: *const u8, page_len: usize, width: u8, slot: usize) -> Answer;
    fn dorgumanna_space(page: *const u8, page_len: usize) -> SpaceAnswer;
    fn dorgumanna_need(width: u8, prefix_len: usize, key: *const u8, key_len: usize) -> Answer;
    fn dorgumanna_forecast(lower: *const u8, lower_len: usize, upper: *const u8, upper_len: usize) -> Answer;
    fn dorgumanna_layout(page: *const u8, page_len: usize, width: u8) -> Answer;
    fn dorgumanna_fit(page: *const u8, page_len: usize, width: u8) -> Answer;
    fn dorgumanna_begin(page: *mut u8, page_len: usize, height: u16, timestamp: u64, lower: *const u8, lower_len: usize, lower_value: u64, upper: *const u8, upper_len: usize, hints: bool) -> Answer;
    fn dorgumanna_insert(page: *mut u8, page_len: usize, width: u8, key: *const u8, key_len: usize, value: u64) -> Answer;
    fn dorgumanna_set_value(page: *mut u8, page_len: usize, width: u8, key: *const u8, key_len: usize, expected: u64, new_value: u64) -> Answer;
    fn dorgumanna_change_key(page: *mut u8, page_len: usize, width: u8, slot: usize, key: *const u8, key_len: usize) -> Answer;
    fn dorgumanna_copy_run(page: *mut u8, page_len: usize, source: *const u8, source_len: usize, width: u8, first: usize, n: usize) -> Answer;
    fn dorgumanna_file_batch(page: *mut u8, page_len: usize, width: u8, records: *const u8, records_len: usize) -> Answer;
}

pub fn find(page: &[u8], width: u8, key: &[u8]) -> Answer {
    unsafe { dorgumanna_find(page.as_ptr(), page.len(), width, key.as_ptr(), key.len()) }
}

pub fn lower_bound(page: &[u8], width: u8, key: &[u8]) -> Answer {
    unsafe { dorgumanna_lower_bound(page.as_ptr(), page.len(), width, key.as_ptr(), key.len()) }
}

pub fn upper_bound(page: &[u8], width: u8, key: &[u8]) -> Answer {
    unsafe { dorgumanna_upper_bound(page.as_ptr(), page.len(), width, key.as_ptr(), key.len()) }
}

pub fn compare(page: &[u8], width: u8, slot: usize, key: &[u8]) -> Answer {
    let (k, k_len) = (key.as_ptr(), key.len());
    unsafe { dorgumanna_compare(page.as_ptr(), page.len(), width, slot, k, k_len) }
}

pub fn child(page: &[u8], key: &[u8]) -> Answer {
    unsafe { dorgumanna_child(page.as_ptr(), page.len(), key.as_ptr(), key.len()) }
}

pub fn entry(page: &[u8], width: u8, slot: usize) -> Answer {
    unsafe { dorgumanna_entry(page.as_ptr(), page.len(), width, slot) }
}

pub fn copy_key(page: &[u8], width: u8, slot: usize, out: &mut [u8]) -> Answer {
    let (o, o_len) = (out.as_mut_ptr(), out.len());
    unsafe { dorgumanna_copy_key(page.as_ptr(), page.len(), width, slot, o, o_len) }
}

pub fn trailing_id(page: &[u8], width: u8, slot: usize) -> Answer {
    unsafe { dorgumanna_trailing_id(page.as_ptr(), page.len(), width, slot) }
}

pub fn space(page: &[u8]) -> SpaceAnswer {
    unsafe { dorgumanna_space(page.as_ptr(), page.len()) }
}

pub fn need(width: u8, prefix_len: usize, key: &[u8]) -> Answer {
    unsafe { dorgumanna_need(width, prefix_len, key.as_ptr(), key.len()) }
}

pub fn forecast(lower: &[u8], upper: &[u8]) -> Answer {
    unsafe { dorgumanna_forecast(lower.as_ptr(), lower.len(), upper.as_ptr(), upper.len()) }
}

pub fn layout(page: &[u8], width: u8) -> Answer {
    unsafe { dorgumanna_layout(page.as_ptr(), page.len(), width) }
}

pub fn fit(page: &[u8], width: u8) -> Answer {
    unsafe { dorgumanna_fit(page.as_ptr(), page.len(), width) }
}

pub fn begin(
    page: &mut [u8],
    height: u16,
    timestamp: u64,
    lower: &[u8],
    lower_value: u64,
    upper: &[u8],
    hints: bool,
) -> Answer {
    unsafe {
        dorgumanna_begin(
            page.as_mut_ptr(),
            page.len(),
            height,
            timestamp,
            lower.as_ptr(),
            lower.len(),
            lower_value,
            upper.as_ptr(),
            upper.len(),
            hints,
        )
    }
}

pub fn insert(page: &mut [u8], width: u8, key: &[u8], value: u64) -> Answer {
    let (k, k_len) = (key.as_ptr(), key.len());
    unsafe { dorgumanna_insert(page.as_mut_ptr(), page.len(), width, k, k_len, value) }
}

pub fn set_value(page: &mut [u8], width: u8, key: &[u8], expected: u64, new: u64) -> Answer {
    let (p, p_len) = (page.as_mut_ptr(), page.len());
    unsafe { dorgumanna_set_value(p, p_len, width, key.as_ptr(), key.len(), expected, new) }
}

pub fn change_key(page: &mut [u8], width: u8, slot: usize, key: &[u8]) -> Answer {
    let (k, k_len) = (key.as_ptr(), key.len());
    unsafe { dorgumanna_change_key(page.as_mut_ptr(), page.len(), width, slot, k, k_len) }
}

pub fn copy_run(page: &mut [u8], source: &[u8], width: u8, first: usize, n: usize) -> Answer {
    let (p, p_len) = (page.as_mut_ptr(), page.len());
    unsafe { dorgumanna_copy_run(p, p_len, source.as_ptr(), source.len(), width, first, n) }
}

pub fn file_batch(page: &mut [u8], width: u8, records: &[u8]) -> Answer {
    let (r, r_len) = (records.as_ptr(), records.len());
    unsafe { dorgumanna_file_batch(page.as_mut_ptr(), page.len(), width, r, r_len) }
}
