//! Every call takes every input: random bytes as pages, damaged pages, random calls. None panics, and
//! a refused call changes no byte.

#[allow(dead_code)]
mod common;

use common::*;
use plain::*;

/// A page: random bytes, random bytes under a clean header, or a filled page with some bytes damaged.
fn some_page(dice: &mut Dice) -> Vec<u8> {
    let every: Vec<u8> = (0..=255).collect();
    match dice.below(4) {
        0 => {
            let length = [0, 1, 96, PAGE - 1, PAGE, PAGE + 1, 2 * PAGE, 81_920][dice.below(8)];
            dice.bytes(length, &every)
        }
        1 => {
            let mut page = dice.bytes(PAGE, &every);
            let count = [0, 1, 63, 64, 100, 1_016, 2_032][dice.below(7)];
            let end = 8 * count + dice.below(BODY - 8 * count + 1);
            set_u16(&mut page, COUNT, count as u16);
            set_u16(&mut page, START, 8 * count as u16);
            set_u16(&mut page, END, end as u16);
            set_u32(&mut page, EFFECTIVE, 96 + dice.below(16_257) as u32);
            page[INITIALIZED] = 1;
            page[FLAG] = dice.below(2) as u8;
            for fence in [LOWER, UPPER] {
                set_u16(&mut page, fence, dice.below(6) as u16);
                set_u16(&mut page, fence + 2, end as u16);
            }
            set_u16(&mut page, PREFIX_LENGTH, dice.below(20) as u16);
            for slot in 0..count {
                if dice.below(10) < 9 {
                    let offset = end + dice.below(BODY - end + 1);
                    set_u16(&mut page, slot_at(slot), dice.below(9) as u16);
                    set_u16(&mut page, slot_at(slot) + 2, offset as u16);
                }
            }
            page
        }
        _ => {
            let width = [0, 1, 8][dice.below(3)];
            let mut page = begun(b"aa", b"ac", dice.below(2) == 0);
            for _ in 0..dice.below(100) {
                let length = dice.below(9);
                let suffix = dice.bytes(length, b"abc\0\xff");
                let _ = insert(&mut page, width, &[b"a", suffix.as_slice()].concat(), 0);
            }
            for _ in 0..dice.below(4) {
                let at = match dice.below(3) {
                    0 => dice.below(HEADER),
                    1 => HEADER + dice.below(200),
                    _ => dice.below(PAGE),
                };
                page[at] = match dice.below(3) {
                    0 => dice.below(256) as u8,
                    1 => page[at].wrapping_add(1),
                    _ => page[at].wrapping_sub(1),
                };
            }
            page
        }
    }
}

fn some_number(dice: &mut Dice) -> u64 {
    match dice.below(6) {
        0 => u64::MAX - dice.below(3) as u64,
        1 => 250 + dice.below(10) as u64,
        2 => 65_530 + dice.below(10) as u64,
        3 => dice.next(),
        _ => dice.below(100) as u64,
    }
}

fn some_key(dice: &mut Dice) -> Vec<u8> {
    match dice.below(20) {
        0 => vec![b'a'; 65_535 + dice.below(2)],
        1 => vec![b'a'; dice.below(20_000)],
        2 => b"".to_vec(),
        _ => {
            let length = dice.below(9);
            [b"a", dice.bytes(length, b"abc\0\xff").as_slice()].concat()
        }
    }
}

/// A call that edits: a refused one leaves every byte.
fn edit<T>(page: &mut [u8], call: impl FnOnce(&mut [u8]) -> Answer<T>) {
    let before = page.to_vec();
    let length = page.len();
    match call(page) {
        Ok(_) => assert!(page[length - FOOTER..] == before[length - FOOTER..]),
        Err(_) => assert!(page == before),
    }
}

#[test]
fn nothing_panics_and_refusals_leave_every_byte() {
    let mut dice = Dice::new(11);
    let mut accepted = 0;
    for _ in 0..1_500 {
        let mut page = some_page(&mut dice);
        let mut other = some_page(&mut dice);
        let width = [0, 1, 8, 8, 2, 255][dice.below(6)];
        let verdict = fit(&page, width);
        let _ = layout(&page, width);
        let _ = list(&[&[width], page.as_slice()].concat());
        let _ = listing(&page, width);
        let _ = space(&page);
        for _ in 0..6 {
            let (key, slot) = (some_key(&mut dice), some_number(&mut dice));
            let (a, b) = (some_number(&mut dice), some_number(&mut dice));
            let _ = find(&page, width, &key);
            let _ = lower_bound(&page, width, &key);
            let _ = upper_bound(&page, width, &key);
            let _ = compare_slot(&page, width, slot, &key);
            let _ = child(&page, &key);
            let _ = entry(&page, width, slot);
            let mut buffer = vec![0xCD; dice.below(12)];
            let copied = copy_key(&page, width, slot, &mut buffer).unwrap_or(0);
            assert!(buffer[copied..].iter().all(|&byte| byte == 0xCD));
            let _ = trailing_id(&page, width, slot);
            let _ = need(width, a, &key);
            let _ = forecast(&key, &some_key(&mut dice));
            let upper = some_key(&mut dice);
            edit(&mut page.clone(), |page| {
                begin(page, a as u16, b, &key, slot, &upper, b % 2 == 0)
            });
            edit(&mut page, |page| set_value(page, width, &key, a, b));
            edit(&mut page, |page| change_key(page, width, slot, &key));
            edit(&mut page, |page| insert(page, width, &key, a));
            let n = a.wrapping_sub(dice.below(4) as u64);
            edit(&mut other, |other| run_copy(other, &page, width, slot, n));
        }
        if verdict == Ok(0) {
            accepted += 1;
            assert_eq!(fit(&page, width), Ok(0));
        }
    }
    assert!(accepted > 100, "{accepted}");
}
