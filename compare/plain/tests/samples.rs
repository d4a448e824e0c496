//! Document 01's bench samples, and its errors that look right.

#[allow(dead_code)]
mod common;

use common::*;
use plain::*;

/// Begins with empty fences, files one key and answers the head stored in its slot.
fn stored_head(key: &[u8]) -> u32 {
    u32_at(&filled(8, false, &[key]), slot_at(0) + 4)
}

#[test]
fn heads() {
    assert_eq!(stored_head(b""), 0);
    assert_eq!(stored_head(b"a"), 0x6100_0000);
    assert_eq!(stored_head(b"a\0"), 0x6100_0000);
    assert_eq!(stored_head(b"parcel"), 0x7061_7263);
}

#[test]
fn order() {
    let pairs: [(&[u8], &[u8]); 4] = [
        (b"a", b"a\0"),
        (b"abcd", b"abcde"),
        (b"abcde", b"abcdf"),
        (b"\x7f", b"\x80"),
    ];
    for (smaller, greater) in pairs {
        let page = filled(8, false, &[greater, smaller]);
        assert_eq!(entry(&page, 8, 0).unwrap().key, smaller);
        assert_eq!(entry(&page, 8, 1).unwrap().key, greater);
        assert_eq!(compare_slot(&page, 8, 0, greater), Ok(-1));
        assert_eq!(compare_slot(&page, 8, 0, smaller), Ok(0));
        assert_eq!(compare_slot(&page, 8, 1, smaller), Ok(1));
        assert_eq!(layout(&page, 8), Ok(true));
        assert_eq!(fit(&page, 8), Ok(0));
    }
}

#[test]
fn common_prefixes() {
    assert_eq!(forecast(b"hub/A", b"hub/B"), Ok((4, 96)));
    assert_eq!(forecast(b"", b""), Ok((0, 96)));
}

#[test]
fn needs() {
    assert_eq!(need(8, 0, b"1234"), Ok(16));
    assert_eq!(need(8, 0, b"12345"), Ok(21));
    assert_eq!(need(0, 0, b""), Ok(8));
    assert_eq!(need(8, 3, b"abc1234"), Ok(16));
    assert_eq!(need(1, 3, b"abc12345"), Ok(14));
    assert_eq!(need(0, 65_535, &vec![7; 65_535]), Ok(8));
    assert_eq!(need(8, 0, &vec![7; 65_535]), Ok(16 + 65_535));
}

#[test]
fn fences_of_17_and_16() {
    let xs = |n: usize, last: &[u8]| [&vec![b'x'; n], last].concat();
    let page = begun(&xs(17, b"a"), &xs(17, b"b"), false);
    let numbers = space(&page).unwrap();
    assert_eq!((numbers.end, numbers.effective), (16_239, 113));
    assert_eq!(forecast(&xs(17, b"a"), &xs(17, b"b")), Ok((17, 113)));
    assert_eq!(&page[96 + 16_239..96 + 16_256], &[b'x'; 17]);
    assert_eq!(&page[48..64], &[0; 16]);
    assert_eq!(&page[16..24], &[1, 0, 0, 0, 0, 0, 0, b'a']);
    assert_eq!(&page[32..40], &[1, 0, 0, 0, 0, 0, 0, b'b']);

    let page = begun(&xs(16, b"a"), &xs(16, b"b"), false);
    let numbers = space(&page).unwrap();
    assert_eq!((numbers.end, numbers.effective), (16_256, 96));
    assert_eq!(&page[48..64], &[b'x'; 16]);
}

#[test]
fn begin_names_its_bytes_and_keeps_all_others() {
    let mut page = vec![0xAA; PAGE];
    let lower = b"hubs/north/lane-1";
    let upper = b"hubs/north/mile-22";
    assert_eq!(
        begin(
            &mut page,
            7,
            0x0102_0304_0506_0708,
            lower,
            0x1112_1314_1516_1718,
            upper,
            true
        ),
        Ok(())
    );
    let mut expected = vec![0xAA; PAGE];
    expected[0..8].copy_from_slice(&[7, 0, 0, 0, 0, 0, 0x73, 0x3F]);
    expected[8..16].copy_from_slice(&[8, 7, 6, 5, 4, 3, 2, 1]);
    expected[16..24].copy_from_slice(&[6, 0, 0x7A, 0x3F, b'e', b'n', b'a', b'l']);
    expected[24..32].copy_from_slice(&[0x18, 0x17, 0x16, 0x15, 0x14, 0x13, 0x12, 0x11]);
    expected[32..40].copy_from_slice(&[7, 0, 0x73, 0x3F, b'e', b'l', b'i', b'm']);
    expected[40..48].copy_from_slice(&[109, 0, 0, 0, 1, 1, 11, 0]);
    expected[48..59].copy_from_slice(b"hubs/north/");
    expected[96 + 0x3F7A..96 + 0x3F80].copy_from_slice(b"lane-1");
    expected[96 + 0x3F73..96 + 0x3F7A].copy_from_slice(b"mile-22");
    assert!(page == expected);
    assert_eq!(forecast(lower, upper), Ok((11, 109)));
}

#[test]
fn a_thousand_and_sixteen_keys_and_no_more() {
    let mut page = begun(b"", b"", true);
    for n in 0..1_016_u32 {
        assert_eq!(
            insert(&mut page, 8, &n.to_be_bytes(), n.into()),
            Ok(n as usize)
        );
    }
    let full = page.clone();
    assert_eq!(space(&page).unwrap().free, 0);
    assert_eq!(insert(&mut page, 8, &1_016_u32.to_be_bytes(), 0), no(13));
    assert_eq!(insert(&mut page, 8, b"", 0), no(13));
    assert_eq!(insert(&mut page, 8, &7_u32.to_be_bytes(), 0), no(11));
    assert!(page == full);
    assert_eq!(fit(&page, 8), Ok(0));
    assert_eq!(layout(&page, 8), Ok(true));
    for n in 0..1_016_u32 {
        let found = find(&page, 8, &n.to_be_bytes()).unwrap();
        assert_eq!((found.slot, found.equal), (n as usize, true));
    }
    assert_eq!(child(&page, &1_016_u32.to_be_bytes()), Ok((1_015, 1_015)));
}

#[test]
fn sixty_three_keys_use_no_hints_and_sixty_four_do() {
    let mut page = begun(b"", b"", true);
    for n in 0..63_u32 {
        insert(&mut page, 8, &(n * 4).to_be_bytes(), 0).unwrap();
    }
    assert_eq!(&page[HINTS..96], &[0; 32]);
    let mut off = page.clone();
    off[FLAG] = 0;
    insert(&mut page, 8, &(63_u32 * 4).to_be_bytes(), 0).unwrap();
    for i in 0..8 {
        // Window 64 / 9 = 7: hint i is the head of slot 7 (i + 1).
        assert_eq!(u32_at(&page, HINTS + 4 * i), 28 * (i as u32 + 1));
    }
    insert(&mut off, 8, &(63_u32 * 4).to_be_bytes(), 0).unwrap();
    assert_eq!(&off[HINTS..96], &[0; 32]);

    // A stale hint is U9 only while hints are in use.
    let stale = changed(&page, |page| page[HINTS] ^= 1);
    assert_eq!((fit(&stale, 8), layout(&stale, 8)), (Ok(9), Ok(true)));
    let stale = changed(&page, |page| page[HINTS + 31] ^= 1);
    assert_eq!(fit(&stale, 8), Ok(9));
    assert_eq!(fit(&changed(&stale, |page| page[FLAG] = 0), 8), Ok(0));
}

#[test]
fn parcel_to_par_and_to_parcels() {
    let mut page = begun(b"", b"", false);
    insert(&mut page, 8, b"parcel", 0x0102_0304_0506_0708).unwrap();
    let before = space(&page).unwrap();
    let old = page.clone();

    let mut par = page.clone();
    assert_eq!(change_key(&mut par, 8, 0, b"par"), Ok(()));
    let after = space(&par).unwrap();
    assert_eq!(after.effective + 6, before.effective);
    assert_eq!((after.end, after.start), (before.end, before.start));
    assert_eq!(after.reclaimable, 6);
    let expected = changed(&old, |page| {
        page[40] -= 6;
        page[slot_at(0)] = 3;
        page[slot_at(0) + 4..slot_at(0) + 8].copy_from_slice(b"\0rap");
        let at = 96 + before.end as usize;
        page[at..at + 8].copy_from_slice(&[8, 7, 6, 5, 4, 3, 2, 1]);
    });
    assert!(par == expected);
    assert_eq!(fit(&par, 8), Ok(0));

    let mut parcels = page.clone();
    assert_eq!(change_key(&mut parcels, 8, 0, b"parcels"), Ok(()));
    let after = space(&parcels).unwrap();
    assert_eq!(after.end + 15, before.end);
    assert_eq!(after.effective, before.effective + 1);
    assert_eq!(after.reclaimable, 14);
    assert_eq!(fit(&parcels, 8), Ok(0));
    assert_eq!(
        listing(&parcels, 8),
        [Entry {
            key: b"parcels".to_vec(),
            value: 0x0102_0304_0506_0708
        }]
    );

    // The other branches: equal length, shorter but above 4, short to short, the same key again.
    let mut same = page.clone();
    assert_eq!(change_key(&mut same, 8, 0, b"parcel"), Ok(()));
    assert!(same == old);
    for (from, to, effective, end) in [
        (&b"parcel"[..], &b"porcel"[..], 0_i64, 0_i64),
        (b"parcel", b"parce", -1, 0),
        (b"parcel", b"parc", -6, 0),
        (b"parcel", b"", -6, 0),
        (b"p", b"parc", 0, 0),
        (b"parc", b"", 0, 0),
        (b"parc", b"parce", 5, -13),
        (b"", b"parce", 5, -13),
    ] {
        let mut page = filled(8, false, &[from]);
        let before = space(&page).unwrap();
        assert_eq!(change_key(&mut page, 8, 0, to), Ok(()));
        let after = space(&page).unwrap();
        assert_eq!(
            after.effective as i64 - before.effective as i64,
            effective,
            "{from:?} {to:?}"
        );
        assert_eq!(after.end as i64 - before.end as i64, end);
        assert_eq!(fit(&page, 8), Ok(0));
        assert_eq!(entry(&page, 8, 0).unwrap().key, to);
    }
}

#[test]
fn the_listing_program() {
    let mut page = begun(b"", b"", false);
    insert(&mut page, 8, b"a", 1).unwrap();
    insert(&mut page, 8, b"parcel", 2).unwrap();
    let input = [&[8], page.as_slice()].concat();
    assert_eq!(
        list(&input),
        "verdict 1 0\n\
         space 16 16234 16218 134 0\n\
         0 61 1\n\
         1 70617263656c 2\n"
    );
    assert_eq!(list(&input[1..]), "refused 1\n");
    assert_eq!(list(&[input.as_slice(), &[0]].concat()), "refused 1\n");
    assert_eq!(list(b""), "refused 1\n");
    assert_eq!(list(b"\x02"), "refused 1\n");
    assert_eq!(list(&changed(&input, |input| input[0] = 2)), "refused 2\n");
    let unfit = changed(&input, |input| input[1 + EFFECTIVE] ^= 1);
    assert_eq!(list(&unfit), "verdict 1 8\n");
    assert_eq!(
        list(&[&[0], vec![0; PAGE].as_slice()].concat()),
        "verdict 0 1\n"
    );

    // An empty leaf: layout no, fit yes. The empty key, and the value 0 at width 0.
    let mut page = begun(b"", b"", false);
    assert_eq!(
        list(&[&[0], page.as_slice()].concat()),
        "verdict 0 0\nspace 0 16256 16256 96 0\n"
    );
    insert(&mut page, 0, b"", 0).unwrap();
    insert(&mut page, 0, b"\x0f\xf0", 0).unwrap();
    assert_eq!(
        list(&[&[0], page.as_slice()].concat()),
        "verdict 1 0\nspace 16 16256 16240 112 0\n0 - 0\n1 0ff0 0\n"
    );
}

#[test]
fn inline_bytes_are_stored_reversed_and_read_back() {
    let page = filled(1, false, &[b"abc"]);
    assert_eq!(&page[slot_at(0)..slot_at(1)], b"\x03\0\x7f\x3f\0cba");
    assert_eq!(entry(&page, 1, 0).unwrap().key, b"abc");
    // The inline prefix stands in page order.
    let page = begun(b"hub/A", b"hub/B", false);
    assert_eq!(&page[48..52], b"hub/");
}

#[test]
fn a_rekeyed_slot_refreshes_its_own_hint() {
    let keys: Vec<[u8; 4]> = (0..64_u32).map(|n| (n * 16).to_be_bytes()).collect();
    let keys: Vec<&[u8]> = keys.iter().map(|key| key.as_slice()).collect();
    let page = filled(8, true, &keys);
    for slot in [7_u32, 56, 63] {
        let mut page = page.clone();
        let new = (slot * 16 + 5).to_be_bytes();
        assert_eq!(change_key(&mut page, 8, slot.into(), &new), Ok(()));
        assert_eq!(fit(&page, 8), Ok(0));
        for n in 0..64_u32 {
            let key = if n == slot {
                new
            } else {
                (n * 16).to_be_bytes()
            };
            assert_eq!(
                find(&page, 8, &key),
                Ok(Found {
                    slot: n as usize,
                    equal: true
                })
            );
        }
    }
    // A long new key: a new payload, and its head as the hint.
    let mut long = page.clone();
    assert_eq!(change_key(&mut long, 8, 14, b"\0\0\0\xe3-long"), Ok(()));
    assert_eq!(u32_at(&long, HINTS + 4), 14 * 16 + 3);
    assert_eq!(fit(&long, 8), Ok(0));
    // "for slot 7 of 64 it is hint 0".
    let mut page = page.clone();
    change_key(&mut page, 8, 7, &(7_u32 * 16 + 5).to_be_bytes()).unwrap();
    assert_eq!(u32_at(&page, HINTS), 7 * 16 + 5);
    assert_eq!(u32_at(&page, HINTS + 4), 14 * 16);
}

#[test]
fn run_copy_looks_at_the_prefix_bytes() {
    let mut destination = begun(b"ba", b"bz", false);
    let mut source = begun(b"aa", b"az", false);
    insert(&mut source, 8, b"aab", 5).unwrap();
    let before = destination.clone();
    assert_eq!(run_copy(&mut destination, &source, 8, 0, 1), no(8));
    assert!(destination == before);
}

#[test]
fn run_copy_appends_in_order() {
    let mut source = begun(b"hub/a", b"hub/z", false);
    let keys: [&[u8]; 4] = [b"hub/a", b"hub/bbbbbb", b"hub/c", b"hub/dddddddd"];
    file_all(&mut source, 8, &keys);
    let mut destination = begun(b"hub", b"huz", false);
    insert(&mut destination, 8, b"hub/", 77).unwrap();
    assert_eq!(run_copy(&mut destination, &source, 8, 1, 3), Ok(()));
    assert_eq!(fit(&destination, 8), Ok(0));
    let expected: Vec<(&[u8], u64)> = vec![(b"hub/", 77), (keys[1], 1), (keys[2], 2), (keys[3], 3)];
    let listed = listing(&destination, 8);
    let listed: Vec<(&[u8], u64)> = listed.iter().map(|e| (e.key.as_slice(), e.value)).collect();
    assert_eq!(listed, expected);
    // Payloads downward: "b/" lives in no head; suffixes under "hu" are "b/bbbbbb", "b/c", "b/dddddddd".
    let ends: Vec<u16> = (0..4)
        .map(|i| u16_at(&destination, slot_at(i) + 2))
        .collect();
    assert_eq!(ends, [16_248, 16_232, 16_224, 16_206]);
}

#[test]
fn run_copy_of_none_changes_nothing() {
    let source = filled(8, true, &[b"a", b"b"]);
    for n in [0_u64, 1, 2] {
        let mut destination = filled(8, true, &[b"c"]);
        let before = destination.clone();
        assert_eq!(run_copy(&mut destination, &source, 8, n, 0), Ok(()));
        assert!(destination == before);
        assert_eq!(run_copy(&mut destination, &source, 8, 3, 0), no(10));
        assert_eq!(run_copy(&mut destination, &source, 8, u64::MAX, 0), no(10));
    }
    // The source's run lacks nothing while it is empty: prefix and fences are not looked at.
    let mut destination = begun(b"x1", b"x2", false);
    assert_eq!(run_copy(&mut destination, &source, 8, 0, 0), Ok(()));
}

#[test]
fn run_copy_brings_hints_into_use() {
    let keys: Vec<[u8; 4]> = (0..64_u32).map(|n| (n * 3).to_be_bytes()).collect();
    let mut source = begun(b"", b"", false);
    for key in &keys {
        insert(&mut source, 1, key, 1).unwrap();
    }
    let mut destination = begun(b"", b"", true);
    assert_eq!(run_copy(&mut destination, &source, 1, 0, 40), Ok(()));
    assert_eq!(&destination[HINTS..96], &[0; 32]);
    assert_eq!(run_copy(&mut destination, &source, 1, 40, 24), Ok(()));
    assert_eq!(u32_at(&destination, HINTS + 28), 56 * 3);
    assert_eq!(fit(&destination, 1), Ok(0));
}

#[test]
fn an_empty_payload_is_placed_at_the_new_end() {
    let page = filled(0, false, &[b"parcel", b"a", b"z"]);
    let offsets = [0, 1, 2].map(|index| u16_at(&page, slot_at(index) + 2));
    assert_eq!((u16_at(&page, END), offsets), (16_250, [16_250; 3]));
}

#[test]
fn keys_of_one_head_are_found_on_either_side_of_a_hint() {
    let keys: Vec<Vec<u8>> = (0..100_u8).map(|n| [&b"same"[..], &[n]].concat()).collect();
    let mut page = begun(b"", b"", true);
    for key in &keys {
        insert(&mut page, 8, key, 0).unwrap();
    }
    assert_eq!(u32_at(&page, HINTS), u32::from_be_bytes(*b"same"));
    for (slot, key) in keys.iter().enumerate() {
        assert_eq!(find(&page, 8, key), Ok(Found { slot, equal: true }));
        assert_eq!(upper_bound(&page, 8, key), Ok(slot + 1));
    }
    assert_eq!(lower_bound(&page, 8, b"same"), Ok(0));
    assert_eq!(lower_bound(&page, 8, b"samf"), Ok(100));
    assert_eq!(lower_bound(&page, 8, b"samd"), Ok(0));
}

#[test]
fn fences_bound_a_page() {
    let mut page = begun(b"b", b"d", false);
    assert_eq!(insert(&mut page, 8, b"b", 1), Ok(0));
    assert_eq!(insert(&mut page, 8, b"d", 1), no(9));
    assert_eq!(insert(&mut page, 8, b"a\xff", 1), no(9));
    assert_eq!(insert(&mut page, 8, b"c\xff", 1), Ok(1));
    assert_eq!(child(&page, b"b"), Ok((0, 1)));
    assert_eq!(child(&page, b"a"), no(9));
    assert_eq!(child(&page, b"d"), no(9));
    // No upper bound.
    let mut page = begun(b"b", b"", false);
    assert_eq!(insert(&mut page, 8, &[0xff; 9], 1), Ok(0));
    assert_eq!(child(&page, b"c"), Ok((-1, 0)));
}

#[test]
fn child_minus_one_has_the_lower_fence_value() {
    let mut page = vec![0; PAGE];
    begin(&mut page, 3, 0, b"k", u64::MAX, b"", false).unwrap();
    assert_eq!(child(&page, b"k"), Ok((-1, u64::MAX)));
    insert(&mut page, 8, b"m", 5).unwrap();
    assert_eq!(child(&page, b"lzz"), Ok((-1, u64::MAX)));
    assert_eq!(child(&page, b"m"), Ok((0, 5)));
    assert_eq!(child(&page, b"zzz"), Ok((0, 5)));
}

#[test]
fn views_of_an_entry() {
    let mut page = begun(b"hub/A", b"hub/B", false);
    insert(&mut page, 1, b"hub/A", 200).unwrap();
    insert(&mut page, 1, b"hub/A1234567", 201).unwrap();
    let mut out = [0xEE; 16];
    assert_eq!(copy_key(&page, 1, 1, &mut out), Ok(12));
    assert_eq!(&out, b"hub/A1234567\xEE\xEE\xEE\xEE");
    assert_eq!(
        trailing_id(&page, 1, 1),
        Ok(u64::from_be_bytes(*b"A1234567"))
    );
    assert_eq!(trailing_id(&page, 1, 0), no(16));
    assert_eq!(
        entry(&page, 1, 0),
        Ok(Entry {
            key: b"hub/A".to_vec(),
            value: 200
        })
    );
    // Eight bytes across prefix and suffix.
    insert(&mut page, 1, b"hub/A123", 9).unwrap();
    assert_eq!(
        trailing_id(&page, 1, 1),
        Ok(u64::from_be_bytes(*b"hub/A123"))
    );
}

#[test]
fn set_value_answers_the_old_one() {
    let mut page = filled(8, false, &[b"a", b"parcel"]);
    let before = page.clone();
    assert_eq!(set_value(&mut page, 8, b"parcel", 1, u64::MAX), Ok(1));
    assert_eq!(entry(&page, 8, 1).unwrap().value, u64::MAX);
    assert_eq!(
        set_value(&mut page, 8, b"parcel", u64::MAX, 1),
        Ok(u64::MAX)
    );
    assert!(page == before);
    let mut page = filled(0, false, &[b"a"]);
    let before = page.clone();
    assert_eq!(set_value(&mut page, 0, b"a", 0, 0), Ok(0));
    assert!(page == before);
}
