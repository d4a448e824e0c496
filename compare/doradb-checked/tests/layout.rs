//! The layout verdict, which only doradb's debug build has.

use doradb_checked::oracle::{self, Page, Width};

#[test]
fn the_layout_of_good_and_bad_pages() {
    let mut page = Page::of(&[0; oracle::PAGE_SIZE]).unwrap();
    assert!(!oracle::layout(&page, Width::Eight));
    oracle::begin(&mut page, 0, 0, b"", 0, b"", false);
    assert!(!oracle::layout(&page, Width::Eight), "an empty leaf");
    oracle::insert(&mut page, Width::Eight, b"a", 1);
    oracle::insert(&mut page, Width::Eight, b"parcel", 2);
    assert!(oracle::layout(&page, Width::Eight));
    let mut bytes = page.bytes().to_vec();
    bytes.copy_within(96..104, 104);
    assert!(
        !oracle::layout(&Page::of(&bytes).unwrap(), Width::Eight),
        "one slot twice"
    );
}
