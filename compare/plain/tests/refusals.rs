//! Each call's refusals, each once and in its order.
//!
//! A call starts with everything wrong that can be wrong together, then one thing after another is put
//! right: the answers walk through the call's numbers. Every step also shows that no byte changed.

#[allow(dead_code)]
mod common;

use common::*;
use plain::*;
use std::fmt::Debug;

const TOO_LONG: &[u8] = &[b'h'; 65_536];

/// An edit refused with this number, that leaves every byte.
fn refused<T: Debug + PartialEq>(
    answer: Answer<T>,
    page: &mut [u8],
    call: impl FnOnce(&mut [u8]) -> Answer<T>,
) {
    let before = page.to_vec();
    assert_eq!(call(page), answer);
    assert!(page == before);
}

/// Fences "hub/b" and "hub/m"; entries "hub/c" (a short suffix) and "hub/east1" (a long one).
fn hub(width: u8) -> Vec<u8> {
    let mut page = begun(b"hub/b", b"hub/m", false);
    insert(&mut page, width, b"hub/c", 0).unwrap();
    insert(&mut page, width, b"hub/east1", 0).unwrap();
    page
}

/// The same page with "hub/fz" and a key that leaves 8 bytes free, less than any need.
fn full_hub(width: u8) -> Vec<u8> {
    let mut page = hub(width);
    insert(&mut page, width, b"hub/fz", 0).unwrap();
    let free = space(&page).unwrap().free as usize;
    let suffix = vec![b'f'; free - 8 - 8 - usize::from(width)];
    insert(&mut page, width, &[b"hub/", suffix.as_slice()].concat(), 0).unwrap();
    assert_eq!(space(&page).unwrap().free, 8);
    page
}

/// The page with effective off by one: not fit by U8, header rules kept.
fn unfit(page: &[u8]) -> Vec<u8> {
    changed(page, |page| page[EFFECTIVE] ^= 1)
}

/// The page with its initialized byte wrong: header rules broken.
fn broken(page: &[u8]) -> Vec<u8> {
    changed(page, |page| page[INITIALIZED] = 2)
}

/// A page one byte short.
fn short(page: &[u8]) -> Vec<u8> {
    page[..PAGE - 1].to_vec()
}

/// The page with slot `index`'s offset one below end, and with its payload one above 16,256.
fn strayed(page: &[u8], index: usize, width: usize) -> [Vec<u8>; 2] {
    let below = u16_at(page, END) - 1;
    let length = usize::from(u16_at(page, slot_at(index)));
    let payload = width + if length > 4 { length } else { 0 };
    let above = (BODY - payload + 1) as u16;
    [below, above].map(|offset| changed(page, |page| set_u16(page, slot_at(index) + 2, offset)))
}

#[test]
fn begin_1_3_6_13() {
    let given =
        |page: &mut [u8], lower: &[u8], upper: &[u8]| begin(page, 1, 2, lower, 3, upper, true);
    let mut page = vec![0x5A; PAGE];
    let at_most = vec![b'z'; 65_535];
    refused(no(1), &mut short(&page), |page| given(page, TOO_LONG, b"a"));
    refused(no(1), &mut [], |page| given(page, b"", b""));
    refused(no(1), &mut vec![0; 16_384 + 65_536], |page| {
        given(page, b"", b"")
    });
    refused(no(3), &mut page, |page| given(page, TOO_LONG, b"a"));
    refused(no(3), &mut page, |page| given(page, b"a", TOO_LONG));
    refused(no(6), &mut page, |page| given(page, &at_most, b"a"));
    refused(no(6), &mut page, |page| given(page, b"a", b"a"));
    refused(no(6), &mut page, |page| given(page, b"a\0", b"a"));
    refused(no(13), &mut page, |page| given(page, &at_most, b""));
    refused(no(13), &mut page, |page| given(page, &[b'a'; 16_257], b""));
    refused(no(13), &mut page, |page| given(page, b"a", &[b'b'; 16_257]));
    // A shared prefix counts once: 16,251 + 5 bytes are the whole body.
    let shared = |last: &[u8]| [&vec![b'a'; 16_251], last].concat();
    refused(no(13), &mut page, |page| {
        given(page, &shared(b""), &shared(b"123456"))
    });
    assert_eq!(given(&mut page, &shared(b""), &shared(b"12345")), Ok(()));
    assert_eq!(u16_at(&page, END), 0);
    assert_eq!((fit(&page, 8), layout(&page, 8)), (Ok(0), Ok(true)));
    assert_eq!(insert(&mut page, 0, &shared(b""), 0), no(13));
    assert_eq!(given(&mut page, &[b'a'; 16_256], b""), Ok(()));
    assert_eq!(given(&mut page, b"", b""), Ok(()));
}

#[test]
fn insert_1_2_3_5_7_8_9_11_13() {
    let full = full_hub(1);
    refused(no(1), &mut short(&full), |page| {
        insert(page, 2, TOO_LONG, 256)
    });
    refused(no(2), &mut broken(&full), |page| {
        insert(page, 2, TOO_LONG, 256)
    });
    refused(no(3), &mut broken(&full), |page| {
        insert(page, 1, TOO_LONG, 256)
    });
    refused(no_with(5, 1), &mut broken(&full), |page| {
        insert(page, 1, b"x", 256)
    });
    refused(no_with(5, 8), &mut unfit(&full), |page| {
        insert(page, 1, b"x", 256)
    });
    refused(no(7), &mut full.clone(), |page| insert(page, 1, b"x", 256));
    refused(no(8), &mut full.clone(), |page| insert(page, 1, b"x", 255));
    refused(no(8), &mut full.clone(), |page| {
        insert(page, 1, b"hub", 255)
    });
    refused(no(9), &mut full.clone(), |page| {
        insert(page, 1, b"hub/", 255)
    });
    refused(no(9), &mut full.clone(), |page| {
        insert(page, 1, b"hub/m", 255)
    });
    refused(no(9), &mut full.clone(), |page| {
        insert(page, 1, b"hub/z", 255)
    });
    refused(no(11), &mut full.clone(), |page| {
        insert(page, 1, b"hub/c", 255)
    });
    refused(no(11), &mut full.clone(), |page| {
        insert(page, 1, b"hub/east1", 255)
    });
    refused(no(13), &mut full.clone(), |page| {
        insert(page, 1, b"hub/b", 255)
    });
    assert_eq!(insert(&mut hub(1), 1, b"hub/b", 255), Ok(0));
    // 7 at width 0; none at width 8.
    refused(no(7), &mut hub(0), |page| insert(page, 0, b"hub/b", 1));
    assert_eq!(insert(&mut hub(8), 8, b"hub/d", u64::MAX), Ok(1));
}

#[test]
fn insert_13_is_exact() {
    // One entry of need 16 + 16,240 = 16,256 fills an empty page; one byte more does not fit.
    let mut page = begun(b"", b"", false);
    refused(no(13), &mut page, |page| insert(page, 8, &[7; 16_241], 1));
    assert_eq!(insert(&mut page, 8, &[7; 16_240], 1), Ok(0));
    assert_eq!((fit(&page, 8), space(&page).unwrap().free), (Ok(0), 0));
}

#[test]
fn set_value_1_2_3_5_7_8_17_18() {
    let page = {
        let mut page = hub(1);
        set_value(&mut page, 1, b"hub/c", 0, 77).unwrap();
        page
    };
    let set = set_value;
    refused(no(1), &mut short(&page), |page| {
        set(page, 9, TOO_LONG, 256, 256)
    });
    refused(no(2), &mut broken(&page), |page| {
        set(page, 9, TOO_LONG, 256, 256)
    });
    refused(no(3), &mut broken(&page), |page| {
        set(page, 1, TOO_LONG, 256, 256)
    });
    refused(no_with(5, 1), &mut broken(&page), |page| {
        set(page, 1, b"x", 256, 256)
    });
    refused(no_with(5, 8), &mut unfit(&page), |page| {
        set(page, 1, b"x", 256, 256)
    });
    refused(no(7), &mut page.clone(), |page| set(page, 1, b"x", 256, 0));
    refused(no(7), &mut page.clone(), |page| set(page, 1, b"x", 0, 256));
    refused(no(8), &mut page.clone(), |page| set(page, 1, b"x", 255, 0));
    refused(no(17), &mut page.clone(), |page| {
        set(page, 1, b"hub/d", 255, 0)
    });
    refused(no(17), &mut page.clone(), |page| {
        set(page, 1, b"hub/z", 255, 0)
    });
    refused(no_with(18, 77), &mut page.clone(), |page| {
        set(page, 1, b"hub/c", 255, 0)
    });
    assert_eq!(set(&mut page.clone(), 1, b"hub/c", 77, 0), Ok(77));
    refused(no(7), &mut hub(0), |page| set(page, 0, b"hub/c", 1, 0));
    refused(no(7), &mut hub(0), |page| set(page, 0, b"hub/c", 0, 1));
}

#[test]
fn change_key_1_2_3_5_8_9_10_12_13() {
    let full = full_hub(1);
    let change = change_key;
    let far = u64::MAX;
    refused(no(1), &mut short(&full), |page| {
        change(page, 3, far, TOO_LONG)
    });
    refused(no(2), &mut broken(&full), |page| {
        change(page, 3, far, TOO_LONG)
    });
    refused(no(3), &mut broken(&full), |page| {
        change(page, 1, far, TOO_LONG)
    });
    refused(no_with(5, 1), &mut broken(&full), |page| {
        change(page, 1, far, b"x")
    });
    refused(no_with(5, 8), &mut unfit(&full), |page| {
        change(page, 1, far, b"x")
    });
    refused(no(8), &mut full.clone(), |page| change(page, 1, far, b"x"));
    refused(no(9), &mut full.clone(), |page| {
        change(page, 1, far, b"hub/z")
    });
    let count = u64::from(u16_at(&full, COUNT));
    let long = b"hub/ggggggggggggggggggg";
    refused(no(10), &mut full.clone(), |page| change(page, 1, far, long));
    refused(no(10), &mut full.clone(), |page| {
        change(page, 1, count, long)
    });
    refused(no(12), &mut full.clone(), |page| change(page, 1, 0, long));
    refused(no(12), &mut full.clone(), |page| {
        change(page, 1, 0, b"hub/east1")
    });
    refused(no(12), &mut full.clone(), |page| {
        change(page, 1, 1, b"hub/c")
    });
    refused(no(13), &mut full.clone(), |page| {
        change(page, 1, count - 1, long)
    });
    refused(no(13), &mut full.clone(), |page| {
        change(page, 1, 0, b"hub/cccccccccccc")
    });
    assert_eq!(change(&mut full.clone(), 1, 0, b"hub/dddd"), Ok(()));
    assert_eq!(change(&mut full.clone(), 1, 1, b"hub/east1"), Ok(()));
    assert_eq!(change(&mut full.clone(), 1, 1, b"hub/d"), Ok(()));
    assert_eq!(change(&mut hub(1), 1, 1, long), Ok(()));
}

#[test]
fn change_key_13_is_exact() {
    // A key change adds its new payload alone: 6 + 8 bytes, no slot.
    let mut page = begun(b"", b"", false);
    insert(&mut page, 8, b"a", 1).unwrap();
    let free = space(&page).unwrap().free as usize;
    insert(&mut page, 8, &vec![b'z'; free - 16 - 13], 1).unwrap();
    assert_eq!(space(&page).unwrap().free, 13);
    refused(no(13), &mut page, |page| change_key(page, 8, 0, b"parcel"));
    assert_eq!(change_key(&mut page, 8, 0, b"parce"), Ok(()));
    assert_eq!((fit(&page, 8), space(&page).unwrap().free), (Ok(0), 0));
    assert_eq!(change_key(&mut page, 8, 0, b"pa"), Ok(()));
    refused(no(13), &mut page, |page| change_key(page, 8, 0, b"parce"));
}

#[test]
fn run_copy_1_2_5_10_8_9_12_13() {
    let destination = full_hub(1);
    let mut source = begun(b"hub", b"i", false);
    let keys: [&[u8]; 6] = [b"hub", b"hub/a", b"hub/c", b"hub/f", b"hub/g", b"hub/m"];
    file_all(&mut source, 1, &keys);
    let far = u64::MAX;
    let copy = |page: &mut [u8], source: &[u8], width, first, n| {
        let before = source.to_vec();
        let answer = run_copy(page, source, width, first, n);
        assert!(source == before);
        answer
    };
    refused(no(1), &mut short(&destination), |page| {
        copy(page, &source, 4, 2, far)
    });
    refused(no(1), &mut destination.clone(), |page| {
        copy(page, &short(&source), 4, 2, far)
    });
    refused(no(2), &mut broken(&destination), |page| {
        copy(page, &broken(&source), 4, 2, far)
    });
    refused(no_with(5, 8), &mut unfit(&destination), |page| {
        copy(page, &broken(&source), 1, 2, far)
    });
    refused(no_with(5, 1), &mut destination.clone(), |page| {
        copy(page, &broken(&source), 1, 2, far)
    });
    // Past the source's count; the sum wraps.
    refused(no(10), &mut destination.clone(), |page| {
        copy(page, &source, 1, 0, 7)
    });
    refused(no(10), &mut destination.clone(), |page| {
        copy(page, &source, 1, 7, 0)
    });
    refused(no(10), &mut destination.clone(), |page| {
        copy(page, &source, 1, 2, far)
    });
    refused(no(10), &mut destination.clone(), |page| {
        copy(page, &source, 1, far, 2)
    });
    // Entry by entry: "hub" lacks the prefix before "hub/a" is outside the fences, …
    refused(no(8), &mut destination.clone(), |page| {
        copy(page, &source, 1, 0, 6)
    });
    // … and "hub/a" is outside before a later entry lacks the prefix.
    refused(no(9), &mut destination.clone(), |page| {
        copy(page, &source, 1, 1, 5)
    });
    let mut later = begun(b"hub/", b"", false);
    file_all(&mut later, 1, &[b"hub/a", b"x"]);
    refused(no(9), &mut destination.clone(), |page| {
        copy(page, &later, 1, 0, 2)
    });
    // The last entry of the run is outside though the first is below the destination's last.
    refused(no(9), &mut destination.clone(), |page| {
        copy(page, &source, 1, 2, 4)
    });
    refused(no(12), &mut destination.clone(), |page| {
        copy(page, &source, 1, 2, 3)
    });
    refused(no(12), &mut hub(1), |page| copy(page, &source, 1, 2, 1));
    refused(no(13), &mut destination.clone(), |page| {
        copy(page, &source, 1, 4, 1)
    });
    assert_eq!(copy(&mut hub(1), &source, 1, 3, 2), Ok(()));
    assert_eq!(copy(&mut destination.clone(), &source, 1, 6, 0), Ok(()));
}

#[test]
fn run_copy_13_is_exact() {
    // "x" needs 16, "yarcel" 22: both want 38.
    let source = filled(8, false, &[b"x", b"yarcel"]);
    for (free, answer) in [(38, Ok(())), (37, no(13))] {
        let mut page = begun(b"", b"", false);
        insert(&mut page, 8, &vec![b'a'; 16_256 - 16 - free], 1).unwrap();
        assert_eq!(space(&page).unwrap().free, free as u64);
        assert_eq!(run_copy(&mut page, &source, 8, 0, 2), answer);
        assert_eq!(fit(&page, 8), Ok(0));
    }
}

#[test]
fn find_1_2_3_4_8_14() {
    let page = hub(1);
    let strays = strayed(&page, 1, 1);
    assert_eq!(find(&short(&page), 7, TOO_LONG), no(1));
    assert_eq!(find(&broken(&strays[0]), 7, TOO_LONG), no(2));
    assert_eq!(find(&broken(&strays[0]), 1, TOO_LONG), no(3));
    assert_eq!(find(&broken(&strays[0]), 1, b"x"), no(4));
    assert_eq!(find(&strays[0], 1, b"x"), no(8));
    for stray in strays {
        assert_eq!(find(&stray, 1, b"hub/east1"), no(14));
        // The middle slot of two is slot 1: every search visits it.
        assert_eq!(find(&stray, 1, b"hub/a"), no(14));
    }
    // Slot 0 is visited only by searches that turn left, or that end there.
    for stray in strayed(&page, 0, 1) {
        assert_eq!(find(&stray, 1, b"hub/c"), no(14));
        assert_eq!(
            find(&stray, 1, b"hub/f"),
            Ok(Found {
                slot: 2,
                equal: false
            })
        );
    }
    assert_eq!(
        find(&page, 1, b"hub/east1"),
        Ok(Found {
            slot: 1,
            equal: true
        })
    );
    assert_eq!(
        find(&page, 1, b"hub/d"),
        Ok(Found {
            slot: 1,
            equal: false
        })
    );
    // An unfit page with clean header is searched.
    assert_eq!(
        find(&unfit(&page), 1, b"hub/c"),
        Ok(Found {
            slot: 0,
            equal: true
        })
    );
}

#[test]
fn find_visits_the_slot_it_tests() {
    let keys: Vec<[u8; 4]> = (0..64_u32).map(|n| n.to_be_bytes()).collect();
    let keys: Vec<&[u8]> = keys.iter().map(|key| key.as_slice()).collect();
    let page = filled(0, true, &keys);
    // All hints above the head: lo = up = 0, slots 0 to 7. The slot after them is tested, not halved.
    let page = changed(&page, |page| {
        (0..8).for_each(|i| set_u32(page, HINTS + 4 * i, u32::MAX))
    });
    let probe = 50_u32.to_be_bytes();
    assert_eq!(lower_bound(&page, 0, &probe), Ok(7));
    assert_eq!(
        find(&page, 0, &probe),
        Ok(Found {
            slot: 7,
            equal: false
        })
    );
    let page = changed(&page, |page| set_u16(page, slot_at(7) + 2, 0));
    assert_eq!(lower_bound(&page, 0, &probe), Ok(7));
    assert_eq!(find(&page, 0, &probe), no(14));
}

#[test]
fn falling_hints_are_taken_at_their_first_places() {
    let keys: Vec<[u8; 4]> = (0..64_u32).map(|n| n.to_be_bytes()).collect();
    let keys: Vec<&[u8]> = keys.iter().map(|key| key.as_slice()).collect();
    let page = filled(0, true, &keys);
    let page = changed(&page, |page| {
        for (i, hint) in [9_u32, 60, 3, 2, 1, 0, 0, 0].iter().enumerate() {
            set_u32(page, HINTS + 4 * i, *hint);
        }
    });
    // Head 20: the first hint not below it and the first above it are both hint 1: slots 7 to 14.
    assert_eq!(lower_bound(&page, 0, &20_u32.to_be_bytes()), Ok(14));
    // Head 9: lo is hint 0, up is hint 1: slots 0 to 14.
    assert_eq!(lower_bound(&page, 0, &9_u32.to_be_bytes()), Ok(9));
    // Head 61: no hint reaches it: slots 56 to 64.
    assert_eq!(upper_bound(&page, 0, &61_u32.to_be_bytes()), Ok(62));
}

#[test]
fn bounds_1_2_3_4_14() {
    for bound in [lower_bound, upper_bound] {
        let page = hub(8);
        let strays = strayed(&page, 1, 8);
        assert_eq!(bound(&short(&page), 7, TOO_LONG), no(1));
        assert_eq!(bound(&broken(&strays[0]), 7, TOO_LONG), no(2));
        assert_eq!(bound(&broken(&strays[0]), 8, TOO_LONG), no(3));
        assert_eq!(bound(&broken(&strays[0]), 8, b"x"), no(4));
        for stray in strays {
            assert_eq!(bound(&stray, 8, b"hub/c"), no(14));
            // Outside the prefix no slot is visited.
            for before in [&b""[..], b"hub", b"hub.", b"a", &TOO_LONG[1..]] {
                assert_eq!(bound(&stray, 8, before), Ok(0));
            }
            for after in [&b"hub0"[..], b"i", b"hub\xff\xff", &[b'i'; 65_535]] {
                assert_eq!(bound(&stray, 8, after), Ok(2));
            }
        }
    }
    let page = hub(8);
    assert_eq!(
        (
            lower_bound(&page, 8, b"hub/c"),
            upper_bound(&page, 8, b"hub/c")
        ),
        (Ok(0), Ok(1))
    );
    assert_eq!(
        (
            lower_bound(&page, 8, b"hub/"),
            upper_bound(&page, 8, b"hub/")
        ),
        (Ok(0), Ok(0))
    );
    // A bound past the fences is a bound all the same.
    assert_eq!(lower_bound(&page, 8, b"hub/zz"), Ok(2));
}

#[test]
fn compare_slot_1_2_3_4_10_14() {
    let page = hub(8);
    for stray in strayed(&page, 1, 8) {
        assert_eq!(compare_slot(&short(&stray), 7, 9, TOO_LONG), no(1));
        assert_eq!(compare_slot(&broken(&stray), 7, 9, TOO_LONG), no(2));
        assert_eq!(compare_slot(&broken(&stray), 8, 9, TOO_LONG), no(3));
        assert_eq!(compare_slot(&broken(&stray), 8, 9, b"x"), no(4));
        assert_eq!(compare_slot(&stray, 8, 2, b"x"), no(10));
        assert_eq!(compare_slot(&stray, 8, u64::MAX, b"x"), no(10));
        // The slot is visited before the prefix is looked at.
        assert_eq!(compare_slot(&stray, 8, 1, b"x"), no(14));
        assert_eq!(compare_slot(&stray, 8, 0, b"hub/c"), Ok(0));
    }
    assert_eq!(compare_slot(&page, 8, 0, b"hub"), Ok(1));
    assert_eq!(compare_slot(&page, 8, 0, b"a"), Ok(1));
    assert_eq!(compare_slot(&page, 8, 0, b"hub0"), Ok(-1));
    assert_eq!(compare_slot(&page, 8, 0, b"hub/c"), Ok(0));
    assert_eq!(compare_slot(&page, 8, 1, b"hub/east0"), Ok(1));
    assert_eq!(compare_slot(&page, 8, 1, b"hub/east12"), Ok(-1));
    assert_eq!(compare_slot(&page, 8, 1, b"hub/east1"), Ok(0));
}

#[test]
fn a_slot_meets_a_probe_by_its_stored_head() {
    let page = filled(0, false, &[b"parcel"]);
    // The head says "parb", the payload "parcel".
    let page = changed(&page, |page| page[slot_at(0) + 4] = b'b');
    assert_eq!(fit(&page, 0), Ok(4));
    assert_eq!(layout(&page, 0), Ok(true));
    assert_eq!(compare_slot(&page, 0, 0, b"parcel"), Ok(-1));
    assert_eq!(compare_slot(&page, 0, 0, b"parb"), Ok(1));
    // Equal heads and two long suffixes: by suffix bytes, whole, the first four included.
    assert_eq!(compare_slot(&page, 0, 0, b"parbel"), Ok(1));
    // Equal heads and a short probe: by lengths, whatever the long suffix says.
    let page = changed(&page, |page| {
        page[slot_at(0) + 4..slot_at(0) + 8].copy_from_slice(b"\0\0aq");
    });
    assert_eq!(compare_slot(&page, 0, 0, b"qa"), Ok(1));
    assert_eq!(compare_slot(&page, 0, 0, b"qa\0\0x"), Ok(-1));
    // Equal heads and a short slot: by lengths.
    let page = filled(0, false, &[b"ab"]);
    let page = changed(&page, |page| page[slot_at(0) + 4] = b'x');
    assert_eq!(compare_slot(&page, 0, 0, b"ab\0x"), Ok(-1));
    assert_eq!(compare_slot(&page, 0, 0, b"ab"), Ok(1));
    assert_eq!(entry(&page, 0, 0).unwrap().key, b"ab");
    assert_eq!(fit(&page, 0), Ok(4));
}

#[test]
fn child_1_3_5_8_9() {
    let page = hub(8);
    assert_eq!(child(&short(&page), TOO_LONG), no(1));
    assert_eq!(child(&broken(&page), TOO_LONG), no(3));
    assert_eq!(child(&broken(&page), b"x"), no_with(5, 1));
    assert_eq!(child(&unfit(&page), b"x"), no_with(5, 8));
    assert_eq!(child(&page, b"x"), no(8));
    assert_eq!(child(&page, b"hub/a"), no(9));
    assert_eq!(child(&page, b"hub/m"), no(9));
    assert_eq!(child(&page, b"hub/b"), Ok((-1, 0)));
    // Width 8: a page of width 1 is not fit here.
    assert_eq!(child(&hub(1), b"hub/b").unwrap_err().number, 5);
}

#[test]
fn entry_1_2_4_10_14_and_copy_15_and_id_16() {
    let page = hub(1);
    for stray in strayed(&page, 1, 1) {
        let mut none = [];
        for answer in [
            entry(&short(&stray), 7, 9).err(),
            copy_key(&short(&stray), 7, 9, &mut none).err(),
            trailing_id(&short(&stray), 7, 9).err(),
        ] {
            assert_eq!(answer, no::<()>(1).err());
        }
        for answer in [
            entry(&broken(&stray), 7, 9).err(),
            copy_key(&broken(&stray), 7, 9, &mut none).err(),
            trailing_id(&broken(&stray), 7, 9).err(),
        ] {
            assert_eq!(answer, no::<()>(2).err());
        }
        for answer in [
            entry(&broken(&stray), 1, 9).err(),
            copy_key(&broken(&stray), 1, 9, &mut none).err(),
            trailing_id(&broken(&stray), 1, 9).err(),
        ] {
            assert_eq!(answer, no::<()>(4).err());
        }
        for answer in [
            entry(&stray, 1, 2).err(),
            copy_key(&stray, 1, u64::MAX, &mut none).err(),
            trailing_id(&stray, 1, 1 << 63).err(),
        ] {
            assert_eq!(answer, no::<()>(10).err());
        }
        for answer in [
            entry(&stray, 1, 1).err(),
            copy_key(&stray, 1, 1, &mut none).err(),
            trailing_id(&stray, 1, 1).err(),
        ] {
            assert_eq!(answer, no::<()>(14).err());
        }
    }
    let mut out = [0xEE; 8];
    assert_eq!(copy_key(&page, 1, 1, &mut out), no(15));
    assert_eq!(out, [0xEE; 8]);
    assert_eq!(copy_key(&page, 1, 0, &mut out[..5]), Ok(5));
    assert_eq!(&out, b"hub/c\xEE\xEE\xEE");
    assert_eq!(copy_key(&page, 1, 0, &mut []), no(15));
    assert_eq!(trailing_id(&page, 1, 0), no(16));
    assert_eq!(
        trailing_id(&page, 1, 1),
        Ok(u64::from_be_bytes(*b"ub/east1"))
    );
    // A short suffix at width 0: its offset alone must lie in end..16,256, both included.
    let page = filled(0, false, &[b"a"]);
    assert_eq!(u16_at(&page, slot_at(0) + 2), 16_256);
    assert_eq!(entry(&page, 0, 0).unwrap().key, b"a");
    for offset in [0, 16_255, 16_257, 65_535] {
        let page = changed(&page, |page| set_u16(page, slot_at(0) + 2, offset));
        assert_eq!(entry(&page, 0, 0), no(14));
        assert_eq!(fit(&page, 0), Ok(2));
        assert_eq!(layout(&page, 0), Ok(false));
    }
    assert_eq!(entry(&page, 1, 0), no(14));
    assert_eq!(entry(&page, 8, 0), no(14));
}

#[test]
fn space_1_4_5() {
    let page = hub(8);
    assert_eq!(space(&short(&page)), no(1));
    assert_eq!(space(&broken(&page)), no(4));
    let used = space(&page).unwrap().used as u32;
    let with = |effective| changed(&page, |page| set_u32(page, EFFECTIVE, effective));
    assert_eq!(space(&with(used + 1)), no_with(5, 8));
    assert_eq!(space(&with(used)).unwrap().reclaimable, 0);
    assert_eq!(space(&with(96)).unwrap().free_after_compaction, 16_256);
    assert_eq!(space(&with(95)), no(4));
    assert_eq!(space(&with(16_353)), no(4));
    assert_eq!(space(&with(16_352)), no_with(5, 8));
    assert_eq!(
        space(&page),
        Ok(Space {
            start: 16,
            end: 16_235,
            free: 16_219,
            used: 133,
            effective: 133,
            reclaimable: 0,
            free_after_compaction: 16_219
        })
    );
}

#[test]
fn need_2_3_8_and_forecast_3() {
    assert_eq!(need(2, u64::MAX, TOO_LONG), no(2));
    assert_eq!(need(0, u64::MAX, TOO_LONG), no(3));
    assert_eq!(need(0, u64::MAX, b"abc"), no(8));
    assert_eq!(need(0, 4, b"abc"), no(8));
    assert_eq!(need(0, 3, b"abc"), Ok(8));
    assert_eq!(forecast(TOO_LONG, b""), no(3));
    assert_eq!(forecast(b"", TOO_LONG), no(3));
    // Neither 6 nor 13.
    let long = vec![b'z'; 65_535];
    assert_eq!(forecast(&long, b"a"), Ok((0, 96 + 65_535)));
    assert_eq!(forecast(&long, &long), Ok((65_535, 96 + 65_535)));
    assert_eq!(forecast(b"abcde", b"vwxyz"), Ok((0, 106)));
}

#[test]
fn verdicts_1_2() {
    let page = hub(8);
    assert_eq!(
        (layout(&short(&page), 2), fit(&short(&page), 2)),
        (no(1), no(1))
    );
    assert_eq!((layout(&page, 2), fit(&page, 2)), (no(2), no(2)));
    assert_eq!((layout(&page, 8), fit(&page, 8)), (Ok(true), Ok(0)));
}

/// Layout and fit verdict at width 8.
fn verdicts(page: &[u8]) -> (bool, u8) {
    (layout(page, 8).unwrap(), fit(page, 8).unwrap())
}

#[test]
fn header_rules() {
    let page = filled(8, false, &[b"parcel"]);
    let with16 = |at, number| changed(&page, |page| set_u16(page, at, number));
    for damaged in [
        changed(&page, |page| page[INITIALIZED] = 0),
        changed(&page, |page| page[INITIALIZED] = 2),
        changed(&page, |page| page[FLAG] = 2),
        with16(START, 0),
        with16(START, 16),
        with16(COUNT, 0),
        with16(COUNT, 2),
        with16(COUNT, 8_193), // 8 x 8,193 = 8 modulo 65,536
        with16(END, 7),
        with16(END, 16_257),
        with16(END, 65_535),
        changed(&page, |page| set_u32(page, EFFECTIVE, 95)),
        changed(&page, |page| set_u32(page, EFFECTIVE, 16_353)),
        changed(&page, |page| set_u32(page, EFFECTIVE, 118 + 65_536)),
        with16(PREFIX_LENGTH, 17),
        with16(PREFIX_LENGTH, 16_257),
        with16(PREFIX_LENGTH, 65_535),
        changed(&page, |page| set_u16(page, LOWER, 5)),
        changed(&page, |page| set_u16(page, UPPER, 5)),
        changed(&page, |page| {
            set_u16(page, UPPER, 5);
            set_u16(page, UPPER + 2, 16_252);
        }),
        changed(&page, |page| {
            set_u16(page, UPPER, 65_535);
            set_u16(page, UPPER + 2, 65_535);
        }),
    ] {
        assert_eq!(verdicts(&damaged), (false, 1));
        assert_eq!(entry(&damaged, 8, 0), no(4));
        assert_eq!(space(&damaged), no(4));
    }
    // A prefix of 16 is inline: no header rule, only U5 for want of an upper fence.
    assert_eq!(verdicts(&with16(PREFIX_LENGTH, 16)), (true, 5));
    // A long prefix may start just at end (then it clashes with the payload there: U3).
    let page = filled(8, false, &[b"parcel-22"]);
    let prefix = changed(&page, |page| set_u16(page, PREFIX_LENGTH, 17));
    assert_eq!(
        (u16_at(&page, END), verdicts(&prefix)),
        (16_239, (false, 3))
    );
    // A long fence may fill end..16,256.
    let fence = changed(&page, |page| {
        set_u16(page, LOWER, 17);
        set_u16(page, LOWER + 2, 16_239);
    });
    assert_eq!(verdicts(&fence), (false, 3));
}

#[test]
fn an_empty_leaf() {
    let leaf = begun(b"", b"", false);
    assert_eq!(verdicts(&leaf), (false, 0));
    assert_eq!(space(&leaf).unwrap().free, 16_256);
    let above = changed(&leaf, |page| page[1] = 1);
    assert_eq!(verdicts(&above), (true, 0));
    assert_eq!(
        find(&leaf, 8, b"a"),
        Ok(Found {
            slot: 0,
            equal: false
        })
    );
}

#[test]
fn u2_payloads_inside() {
    let page = filled(8, false, &[b"a", b"parcel"]);
    for slot in [0, 1] {
        for stray in strayed(&page, slot, 8) {
            assert_eq!(verdicts(&stray), (false, 2));
        }
    }
    let wrapping = changed(&page, |page| {
        set_u16(page, slot_at(1), 65_535);
        set_u16(page, slot_at(1) + 2, 65_535);
    });
    assert_eq!(verdicts(&wrapping), (false, 2));
    // The same page at another width.
    assert_eq!(fit(&page, 0), Ok(8));
    assert_eq!(fit(&page, 1), Ok(8));
    assert_eq!(fit(&filled(0, false, &[b"a"]), 8), Ok(2));
}

#[test]
fn u3_pieces_disjoint() {
    // Two payloads that share a byte.
    let page = filled(8, false, &[b"a", b"b"]);
    let clash = changed(&page, |page| set_u16(page, slot_at(0) + 2, 16_247));
    assert_eq!(verdicts(&clash), (false, 3));
    // Slots that are no neighbours.
    let page = filled(8, false, &[b"a", b"b", b"c"]);
    let clash = changed(&page, |page| set_u16(page, slot_at(0) + 2, 16_232));
    assert_eq!(verdicts(&clash), (false, 3));
    // The same payload twice, also at width 1.
    let page = filled(1, false, &[b"a", b"b"]);
    let clash = changed(&page, |page| set_u16(page, slot_at(0) + 2, 16_254));
    assert_eq!((layout(&clash, 1), fit(&clash, 1)), (Ok(false), Ok(3)));
    // Empty payloads are no pieces.
    let page = filled(0, false, &[b"a", b"b", b"parcel"]);
    assert_eq!(u16_at(&page, END), 16_250);
    let inside = changed(&page, |page| set_u16(page, slot_at(0) + 2, 16_252));
    assert_eq!((layout(&inside, 0), fit(&inside, 0)), (Ok(true), Ok(0)));
    // Fences with each other, an entry with a fence, the prefix with a fence.
    let mut page = begun(&[b'x'; 20], &[&[b'x'; 20][..], b"yyyyy"].concat(), false);
    insert(&mut page, 8, &[&[b'x'; 20][..], b"abcde"].concat(), 1).unwrap();
    assert_eq!(verdicts(&page), (true, 0));
    let upper = usize::from(u16_at(&page, UPPER + 2));
    assert_eq!(upper, 16_231);
    let clash = changed(&page, |page| set_u16(page, UPPER + 2, 16_232));
    assert_eq!(verdicts(&clash), (false, 3));
    let clash = changed(&page, |page| set_u16(page, slot_at(0) + 2, 16_219));
    assert_eq!(verdicts(&clash), (false, 3));
    let clash = changed(&page, |page| {
        set_u16(page, LOWER, 5);
        set_u16(page, LOWER + 2, 16_233);
    });
    assert_eq!(verdicts(&clash), (false, 3));
}

#[test]
fn u4_heads() {
    let mut page = begun(b"b1234", b"c1", false);
    file_all(&mut page, 8, &[b"b5", b"b6789"]);
    assert_eq!(verdicts(&page), (true, 0));
    for at in [
        LOWER + 4,
        UPPER + 4,
        UPPER + 5,
        slot_at(0) + 4,
        slot_at(0) + 5,
        slot_at(1) + 4,
    ] {
        let unfaithful = changed(&page, |page| page[at] ^= 1);
        assert_eq!(verdicts(&unfaithful), (true, 4), "{at}");
    }
    // An empty slot wants head 0.
    let mut page = begun(b"", b"", false);
    insert(&mut page, 8, b"", 1).unwrap();
    for at in [LOWER + 4, UPPER + 7, slot_at(0) + 6] {
        let unfaithful = changed(&page, |page| page[at] = 1);
        assert_eq!(verdicts(&unfaithful), (true, 4), "{at}");
    }
}

#[test]
fn u5_fences() {
    // An empty upper slot with a prefix: the layout lets it bound nothing.
    let page = filled(8, false, &[b"a"]);
    let page = changed(&page, |page| {
        set_u16(page, PREFIX_LENGTH, 1);
        page[INLINE_PREFIX] = b'h';
    });
    assert_eq!(verdicts(&page), (true, 5));
    // lower = upper, lower > upper.
    let mut page = begun(b"b", b"d", false);
    insert(&mut page, 8, b"c", 1).unwrap();
    let equal = changed(&page, |page| page[LOWER + 7] = b'd');
    assert_eq!(verdicts(&equal), (false, 5));
    let falling = changed(&page, |page| page[LOWER + 7] = b'e');
    assert_eq!(verdicts(&falling), (false, 5));
    // The bytes of a short fence's offset are nobody's.
    let offset = changed(&page, |page| set_u16(page, LOWER + 2, 65_535));
    assert_eq!(verdicts(&offset), (true, 0));
}

#[test]
fn u6_within_fences() {
    let mut page = begun(b"b", b"d", false);
    insert(&mut page, 8, b"c", 1).unwrap();
    for (byte, verdict) in [
        (b'a', (false, 6)),
        (b'b', (true, 0)),
        (b'c', (true, 0)),
        (b'd', (false, 6)),
        (b'e', (false, 6)),
    ] {
        let page = changed(&page, |page| page[slot_at(0) + 7] = byte);
        assert_eq!(verdicts(&page), verdict);
    }
    let mut page = begun(b"b", b"", false);
    insert(&mut page, 8, b"\xff", 1).unwrap();
    assert_eq!(verdicts(&page), (true, 0));
}

#[test]
fn u7_strictly_rising() {
    let page = filled(8, false, &[b"a", b"b", b"c"]);
    for (byte, verdict) in [(b'a', (false, 7)), (b'c', (false, 7)), (b'd', (false, 7))] {
        let page = changed(&page, |page| page[slot_at(1) + 7] = byte);
        assert_eq!(verdicts(&page), verdict);
    }
}

#[test]
fn u8_effective() {
    let mut page = begun(b"hub/bbbbbb", b"hub/mmmmmmm", false);
    file_all(&mut page, 8, &[b"hub/cccccc", b"hub/d"]);
    assert_eq!(u32_at(&page, EFFECTIVE), 96 + 6 + 7 + 22 + 16);
    for effective in [146, 148] {
        let wrong = changed(&page, |page| set_u32(page, EFFECTIVE, effective));
        assert_eq!(verdicts(&wrong), (true, 8));
    }
}

#[test]
fn the_first_rule_broken_is_named() {
    // Everything wrong at once, put right one after the other.
    let mut page = begun(b"b", b"y", true);
    let keys: Vec<Vec<u8>> = (0..70_u8).map(|n| vec![b'b', n]).collect();
    for key in &keys {
        insert(&mut page, 8, key, 0).unwrap();
    }
    let fixes: [(usize, u8); 9] = [
        (INITIALIZED, 7),
        (slot_at(3) + 3, 0xFF),
        (slot_at(4) + 2, page[slot_at(5) + 2]),
        (slot_at(6) + 4, 9),
        (LOWER + 7, b'z'),
        (slot_at(69) + 7, b'z'),
        (slot_at(2) + 6, 1),
        (EFFECTIVE, 1),
        (HINTS + 9, 1),
    ];
    let right: Vec<u8> = fixes.iter().map(|&(at, _)| page[at]).collect();
    for &(at, wrong) in &fixes {
        page[at] = wrong;
    }
    for (i, &(at, _)) in fixes.iter().enumerate() {
        assert_eq!(fit(&page, 8), Ok(i as u8 + 1));
        page[at] = right[i];
    }
    assert_eq!(fit(&page, 8), Ok(0));
}
