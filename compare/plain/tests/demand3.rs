//! Demand 3 of the order, on random records in random orders.

#[allow(dead_code)]
mod common;

use common::*;
use plain::*;
use std::collections::BTreeMap;

/// The fences to try: none, one, short and long prefixes, long suffixes.
fn fences() -> Vec<(Vec<u8>, Vec<u8>)> {
    let prefix = |n: usize, last: &[u8]| [&vec![b'b'; n], last].concat();
    vec![
        (b"".to_vec(), b"".to_vec()),
        (b"b".to_vec(), b"".to_vec()),
        (b"a".to_vec(), b"cc".to_vec()),
        (prefix(4, b"a"), prefix(4, b"c")),
        (prefix(16, b""), prefix(16, b"\xff")),
        (prefix(17, b"abcab"), prefix(17, b"cabcab")),
        (prefix(300, b""), prefix(300, b"c")),
    ]
}

/// A record's key inside the fences: the prefix, then a suffix over few letters (so that keys meet).
fn some_key(dice: &mut Dice, prefix: &[u8], long: bool) -> Vec<u8> {
    let length = match dice.below(8) {
        0 => dice.below(3),
        1..=3 => 4 + dice.below(3),
        _ if long => 5 + dice.below(40),
        _ => 4,
    };
    let alphabet: &[u8] = match dice.below(3) {
        0 => b"\0\xff",
        1 => b"abc",
        _ => b"\0abcdefghijklmnopqrstuvwxyz\xff",
    };
    [prefix, &dice.bytes(length, alphabet)].concat()
}

/// Each record's need summed up while it stays within the free space.
fn some_records(
    dice: &mut Dice,
    page: &[u8],
    width: u8,
    lower: &[u8],
    upper: &[u8],
) -> BTreeMap<Vec<u8>, u64> {
    let (prefix_length, _) = forecast(lower, upper).unwrap();
    let prefix = &lower[..prefix_length as usize];
    let present = listing(page, width);
    let most = [5, 30, 64, 130, 1_100][dice.below(5)];
    let long = dice.below(2) == 0;
    let mut free = space(page).unwrap().free;
    let mut records = BTreeMap::new();
    for _ in 0..2 * most {
        let key = some_key(dice, prefix, long);
        let inside = lower <= key.as_slice() && (upper.is_empty() || key.as_slice() < upper);
        let there = records.contains_key(&key) || present.iter().any(|entry| entry.key == key);
        let needs = need(width, prefix_length, &key).unwrap();
        if inside && !there && needs <= free && records.len() < most {
            free -= needs;
            records.insert(key, value_for(width, dice.next()));
        }
    }
    records
}

/// Every search on the page returns what a scan of its listing returns.
fn searches_are_scans(dice: &mut Dice, page: &[u8], width: u8, probes: &[Vec<u8>]) {
    let listed = listing(page, width);
    let lower_value = u64::from_le_bytes(page[24..32].try_into().unwrap());
    for probe in probes {
        let smaller = listed.iter().filter(|entry| entry.key < *probe).count();
        let at_most = listed.iter().filter(|entry| entry.key <= *probe).count();
        assert_eq!(lower_bound(page, width, probe), Ok(smaller));
        assert_eq!(upper_bound(page, width, probe), Ok(at_most));
        match find(page, width, probe) {
            Ok(found) => {
                assert_eq!(found.slot, smaller);
                assert_eq!(found.equal, at_most > smaller);
            }
            Err(refused) => assert_eq!((refused.number, at_most - smaller), (8, 0)),
        }
        if !listed.is_empty() {
            let slot = dice.below(listed.len());
            let order = listed[slot].key.cmp(probe) as i8;
            assert_eq!(compare_slot(page, width, slot as u64, probe), Ok(order));
        }
        if width == 8 {
            match child(page, probe) {
                Ok(answer) if at_most == 0 => assert_eq!(answer, (-1, lower_value)),
                Ok(answer) => assert_eq!(answer, (at_most as i64 - 1, listed[at_most - 1].value)),
                Err(refused) => assert!([8, 9].contains(&refused.number)),
            }
        }
    }
}

/// One page, its records, three orders.
fn one_page(dice: &mut Dice, width: u8, lower: &[u8], upper: &[u8], hints: bool) {
    let mut page = dice.bytes(PAGE, &[0, 0xAB, 0xFF]);
    let (height, lower_value) = (dice.below(3) as u16, dice.next());
    begin(&mut page, height, 9, lower, lower_value, upper, hints).unwrap();
    // A page that already holds something, now and then fragmented by re-keying.
    for (key, value) in some_records(dice, &page, width, lower, upper)
        .iter()
        .take(dice.below(60))
    {
        insert(&mut page, width, key, *value).unwrap();
    }
    for slot in 0..listing(&page, width).len() {
        if dice.below(3) == 0 {
            let shorter = entry(&page, width, slot as u64).unwrap().key;
            let shorter = &shorter[..shorter.len() - dice.below(3).min(shorter.len())];
            let _ = change_key(&mut page, width, slot as u64, shorter);
        }
    }
    assert_eq!(fit(&page, width), Ok(0));

    let records = some_records(dice, &page, width, lower, upper);
    let mut expected: Vec<Entry> = listing(&page, width);
    expected.extend(records.iter().map(|(key, value)| Entry {
        key: key.clone(),
        value: *value,
    }));
    expected.sort_by(|one, other| one.key.cmp(&other.key));

    let mut order: Vec<(&Vec<u8>, &u64)> = records.iter().collect();
    let mut headers = Vec::new();
    for _ in 0..3 {
        let mut filed = page.clone();
        for (key, value) in &order {
            let place = listing(&filed, width)
                .iter()
                .filter(|entry| entry.key < **key)
                .count();
            assert_eq!(insert(&mut filed, width, key, **value), Ok(place));
        }
        assert_eq!(fit(&filed, width), Ok(0));
        assert_eq!(
            layout(&filed, width),
            Ok(height != 0 || !expected.is_empty())
        );
        assert_eq!(listing(&filed, width), expected);
        assert_eq!(filed[PAGE - FOOTER..], page[PAGE - FOOTER..]);
        headers.push(filed[..HEADER].to_vec());

        let mut probes: Vec<Vec<u8>> = (0..40).map(|_| some_key(dice, b"", true)).collect();
        for _ in 0..40 {
            let (length, _) = forecast(lower, upper).unwrap();
            probes.push(some_key(dice, &lower[..length as usize], true));
        }
        for entry in &expected {
            probes.push(entry.key.clone());
            probes.push([entry.key.as_slice(), b"\0"].concat());
        }
        dice.shuffle(&mut probes);
        probes.truncate(200);
        searches_are_scans(dice, &filed, width, &probes);
        dice.shuffle(&mut order);
    }
    assert!(headers.iter().all(|header| *header == headers[0]));
}

#[test]
fn records_in_any_order() {
    let mut dice = Dice::new(3);
    for _ in 0..2 {
        for (lower, upper) in fences() {
            for width in [0, 1, 8] {
                one_page(&mut dice, width, &lower, &upper, true);
            }
        }
    }
    one_page(&mut dice, 8, b"", b"", false);
}
