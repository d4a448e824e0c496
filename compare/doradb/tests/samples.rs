//! The bench samples of document 01 on doradb: the stubs give the page its
//! size, and every call answers.

use doradb::oracle::{self, Page, Update, Width};

fn begun(lower: &[u8], upper: &[u8], hints: bool) -> Box<Page> {
    let mut page = Page::of(&[0; oracle::PAGE_SIZE]).unwrap();
    oracle::begin(&mut page, 0, 0, lower, 0, upper, hints);
    page
}

#[test]
fn fences_with_a_common_prefix() {
    let with = |length: usize, last: u8| [vec![b'x'; length], vec![last]].concat();
    let long = oracle::space(&begun(&with(17, b'a'), &with(17, b'b'), false));
    assert_eq!((long.end, long.effective), (16_239, 113));
    let inline = oracle::space(&begun(&with(16, b'a'), &with(16, b'b'), false));
    assert_eq!((inline.end, inline.effective), (16_256, 96));
}

#[test]
fn a_page_is_full_after_1016_short_keys() {
    let mut page = begun(b"", b"", false);
    for i in 0..1_016_u32 {
        assert_eq!(
            oracle::insert(&mut page, Width::Eight, &i.to_be_bytes(), 0),
            i as usize
        );
    }
    assert_eq!(oracle::space(&page).free, 0);
}

#[test]
fn a_key_changed() {
    let changed = |key: &[u8]| {
        let mut page = begun(b"", b"", false);
        oracle::insert(&mut page, Width::Eight, b"parcel", 2);
        let before = oracle::space(&page);
        oracle::change_key(&mut page, Width::Eight, 0, key);
        assert_eq!(
            oracle::entry(&page, Width::Eight, 0),
            Some((key.to_vec(), 2))
        );
        (before, oracle::space(&page))
    };
    let (before, after) = changed(b"par");
    assert_eq!(before.effective - after.effective, 6);
    let (before, after) = changed(b"parcels");
    assert_eq!(
        (before.end - after.end, after.effective - before.effective),
        (15, 1)
    );
}

#[test]
fn every_call_answers() {
    let mut page = begun(b"", b"", true);
    oracle::insert(&mut page, Width::One, b"a", 1);
    oracle::insert(&mut page, Width::One, b"parcel-1", 2);
    assert_eq!(oracle::find(&page, b"parcel-1"), Ok(1));
    assert_eq!(oracle::find(&page, b"b"), Err(1));
    assert_eq!(oracle::lower_bound(&page, Width::One, b"a"), Some(0));
    assert_eq!(oracle::upper_bound(&page, Width::One, b"a"), Some(1));
    assert!(oracle::compare_slot(&page, Width::One, 0, b"b")
        .unwrap()
        .is_lt());
    assert_eq!(oracle::copy_key(&page, 0), Some(b"a".to_vec()));
    assert_eq!(oracle::copy_key_view(&page, 0), Some(b"a".to_vec()));
    assert_eq!(
        oracle::trailing_id(&page, 1),
        u64::from_be_bytes(*b"parcel-1")
    );
    assert_eq!(
        oracle::trailing_id_view(&page, 1),
        Some(u64::from_be_bytes(*b"parcel-1"))
    );
    assert_eq!(
        oracle::set_value(&mut page, Width::One, b"a", 1, 9),
        Update::Old(1)
    );
    assert_eq!(
        oracle::set_value(&mut page, Width::One, b"a", 1, 9),
        Update::Differs(9)
    );
    assert_eq!(
        oracle::set_value(&mut page, Width::One, b"b", 1, 9),
        Update::NotFound
    );
    assert!(oracle::header(&page));
    assert!(oracle::within_boundary(&page, b"z"));
    let mut copy = begun(b"", b"", true);
    oracle::run_copy(&mut copy, &page, Width::One, 0, 2);
    assert_eq!(
        oracle::entry(&copy, Width::One, 0),
        Some((b"a".to_vec(), 9))
    );
}

#[test]
fn need_and_forecast() {
    assert_eq!(oracle::need(Width::Eight, 0, b"abcd"), Some(16));
    assert_eq!(oracle::need(Width::Eight, 0, b"abcde"), Some(21));
    assert_eq!(oracle::need(Width::Zero, 0, b""), Some(8));
    assert_eq!(oracle::forecast(b"hub/A", b"hub/B"), Some((4, 96)));
}
