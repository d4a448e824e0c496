//! The departures, one after the other.

use super::scene::{
    begun, change_key, find, fit, hinted, insert, key, keyed, keys_by_rust, lost_by_rust, moved,
    numbered, page, run_copy, rust, slot, with,
};
use super::Departure;
use crate::calls;
use crate::script::{replay, Step};
use doradb::oracle::{self, Child, Width};
use doradb_checked::oracle as checked;
use plain::protocol::Request;

/// The first falling hint hides all others from 01's rule; the Rust's scalar
/// search bisects, its AVX2 search does as 01 says.
const FALLING: &str = if cfg!(target_feature = "avx2") {
    "answers slot 7"
} else {
    "answers slot 50"
};

/// Every departure that a run can show.
pub const TABLE: [Departure; 40] = [
    Departure {
        name: "re-keyed slot 7",
        says: "change key refreshes all hints in use; the Rust's `position_in_hints` answers slot / window",
        input: "64 keys \"00\" to \"63\", hints on; slot 7 becomes \"075\", then `update_hint_if_needed`",
        rust: "the 6 keys in slots 8 to 13 are not found",
        ours: "every key is found",
        run_rust: || {
            let mut page = rust(&hinted(64));
            oracle::change_key_alone(&mut page, Width::Eight, 7, b"075");
            oracle::update_hint_if_needed(&mut page, 7, b"075");
            lost_by_rust(&page, &rekeyed(7, b"075"))
        },
        run_ours: |scene| {
            scene.load(&hinted(64));
            scene.reply(change_key(7, b"075"));
            scene.lost(&rekeyed(7, b"075"))
        },
    },
    Departure {
        name: "the sender filed twice",
        says: "11",
        input: "as above, then insert \"10\", which is there",
        rust: "files it in slot 14, and slot 10 holds it too",
        ours: "refused 11",
        run_rust: || {
            let mut page = rust(&hinted(64));
            oracle::change_key_alone(&mut page, Width::Eight, 7, b"075");
            oracle::update_hint_if_needed(&mut page, 7, b"075");
            let slot = oracle::insert_alone(&mut page, Width::Eight, b"10", 0);
            let first = (0..64).find(|&i| oracle::copy_key(&page, i).as_deref() == Some(b"10"));
            format!("files it in slot {slot}, and slot {} holds it too", first.unwrap_or(slot))
        },
        run_ours: |scene| {
            scene.load(&hinted(64));
            scene.reply(change_key(7, b"075"));
            scene.ask(insert(b"10"))
        },
    },
    Departure {
        name: "re-keyed slot 56",
        says: "change key refreshes all hints in use",
        input: "64 keys, hints on; slot 56 becomes \"565\", then `update_hint_if_needed`",
        rust: "panics",
        ours: "every key is found",
        run_rust: || rekey_by_rust(56, b"565"),
        run_ours: |scene| {
            scene.load(&hinted(64));
            scene.reply(change_key(56, b"565"));
            scene.lost(&rekeyed(56, b"565"))
        },
    },
    Departure {
        name: "re-keyed slot 63",
        says: "change key refreshes all hints in use",
        input: "64 keys, hints on; slot 63 becomes \"635\", then `update_hint_if_needed`",
        rust: "panics",
        ours: "every key is found",
        run_rust: || rekey_by_rust(63, b"635"),
        run_ours: |scene| {
            scene.load(&hinted(64));
            scene.reply(change_key(63, b"635"));
            scene.lost(&rekeyed(63, b"635"))
        },
    },
    Departure {
        name: "insert without `update_hints`",
        says: "insert refreshes all hints in use",
        input: "63 keys, hints on, on a page of zeros; insert \"63\"",
        rust: "the 56 keys in slots 0 to 55 are not found",
        ours: "every key is found",
        run_rust: || {
            let mut page = rust(&hinted(63));
            oracle::insert_alone(&mut page, Width::Eight, b"63", 0);
            lost_by_rust(&page, &numbered(64))
        },
        run_ours: |scene| {
            scene.load(&hinted(63));
            scene.reply(insert(b"63"));
            scene.lost(&numbered(64))
        },
    },
    Departure {
        name: "falling hints",
        says: "lo and up are first positions; outside the domain",
        input: "64 keys, hints on, hint 0 set to ff ff ff ff; lower bound of \"50\"",
        rust: FALLING,
        ours: "answers slot 7",
        run_rust: || {
            let page = rust(&with(hinted(64), 64, &[255; 4]));
            answers_slot(oracle::lower_bound(&page, Width::Eight, b"50").map(|slot| slot as u64))
        },
        run_ours: |scene| {
            scene.load(&with(hinted(64), 64, &[255; 4]));
            let reply = scene.reply(keyed(calls::LOWER_BOUND, b"50"));
            answers_slot((reply.number == 0).then_some(reply.a))
        },
    },
    Departure {
        name: "`within_boundary` and the prefix",
        says: "8: the key lacks the page's prefix",
        input: "fences \"ba\" and \"bz\"; \"cm\"",
        rust: "within the boundary",
        ours: "refused 8",
        run_rust: || match oracle::within_boundary(&rust(&page(b"ba", b"bz", &[])), b"cm") {
            true => "within the boundary".into(),
            false => "outside".into(),
        },
        run_ours: |scene| scene.ask_on(&page(b"ba", b"bz", &[]), insert(b"cm")),
    },
    Departure {
        name: "insert under another prefix",
        says: "8",
        input: "fences \"ba\" and \"bz\"; insert \"cm\"",
        rust: "its keys are bm",
        ours: "refused 8",
        run_rust: || {
            let mut page = rust(&page(b"ba", b"bz", &[]));
            oracle::insert(&mut page, Width::Eight, b"cm", 0);
            keys_by_rust(&page)
        },
        run_ours: |scene| scene.ask_on(&page(b"ba", b"bz", &[]), insert(b"cm")),
    },
    Departure {
        name: "insert of a key shorter than the prefix",
        says: "8",
        input: "fences \"ba\" and \"bz\"; insert \"\"",
        rust: "panics",
        ours: "refused 8",
        run_rust: || {
            let mut page = rust(&page(b"ba", b"bz", &[]));
            oracle::insert(&mut page, Width::Eight, b"", 0);
            fit(&page)
        },
        run_ours: |scene| scene.ask_on(&page(b"ba", b"bz", &[]), insert(b"")),
    },
    Departure {
        name: "insert outside the fences",
        says: "9",
        input: "fences \"b\" and \"m\"; insert \"z\"",
        rust: "the page breaks U6",
        ours: "refused 9",
        run_rust: || {
            let mut page = rust(&page(b"b", b"m", &[]));
            oracle::insert(&mut page, Width::Eight, b"z", 0);
            fit(&page)
        },
        run_ours: |scene| scene.ask_on(&page(b"b", b"m", &[]), insert(b"z")),
    },
    Departure {
        name: "insert of a key that is there",
        says: "11",
        input: "\"a\" on the page; insert \"a\"",
        rust: "panics",
        ours: "refused 11",
        run_rust: || {
            let mut page = rust(&page(b"", b"", &[b"a"]));
            oracle::insert(&mut page, Width::Eight, b"a", 0);
            fit(&page)
        },
        run_ours: |scene| scene.ask_on(&page(b"", b"", &[b"a"]), insert(b"a")),
    },
    Departure {
        name: "insert without room",
        says: "13",
        input: "a lower fence of 16,241 bytes \"a\" leaves 15 bytes free; insert \"b\" at width 8",
        rust: "the page breaks U1",
        ours: "refused 13",
        run_rust: || {
            let mut page = rust(&page(&[b'a'; 16_241], b"", &[]));
            oracle::insert(&mut page, Width::Eight, b"b", 0);
            fit(&page)
        },
        run_ours: |scene| scene.ask_on(&page(&[b'a'; 16_241], b"", &[]), insert(b"b")),
    },
    Departure {
        name: "begin with falling fences",
        says: "6",
        input: "begin with lower \"b\" and upper \"a\"",
        rust: "the page breaks U5",
        ours: "refused 6",
        run_rust: || begin_by_rust(b"b", b"a"),
        run_ours: |scene| scene.ask_on(&[0; plain::PAGE], begin(b"b", b"a")),
    },
    Departure {
        name: "begin with fences beyond the body",
        says: "13",
        input: "begin with a lower fence of 16,257 bytes \"a\"",
        rust: "panics",
        ours: "refused 13",
        run_rust: || begin_by_rust(&[b'a'; 16_257], b""),
        run_ours: |scene| scene.ask_on(&[0; plain::PAGE], begin(&[b'a'; 16_257], b"")),
    },
    Departure {
        name: "begin with a fence too long",
        says: "3",
        input: "begin with a lower fence of 65,536 bytes \"a\"",
        rust: "panics",
        ours: "refused 3",
        run_rust: || begin_by_rust(&[b'a'; 65_536], b""),
        run_ours: |scene| scene.ask_on(&[0; plain::PAGE], begin(&[b'a'; 65_536], b"")),
    },
    Departure {
        name: "need of a key too long",
        says: "3",
        input: "a key of 65,536 bytes, prefix length 1, width 8",
        rust: "answers 65551",
        ours: "refused 3",
        run_rust: || match oracle::need(Width::Eight, 1, &[b'a'; 65_536]) {
            Some(need) => format!("answers {need}"),
            None => "none".into(),
        },
        run_ours: |scene| scene.ask(Request { a: 1, ..keyed(calls::NEED, &[b'a'; 65_536]) }),
    },
    Departure {
        name: "find under another prefix",
        says: "8",
        input: "fences \"ba\" and \"bz\", \"bm\" on the page; find \"cm\"",
        rust: "finds it in slot 0",
        ours: "refused 8",
        run_rust: || match oracle::find(&rust(&page(b"ba", b"bz", &[b"bm"])), b"cm") {
            Ok(slot) => format!("finds it in slot {slot}"),
            Err(_) => "does not find it".into(),
        },
        run_ours: |scene| scene.ask_on(&page(b"ba", b"bz", &[b"bm"]), find(b"cm")),
    },
    Departure {
        name: "change key out of order",
        says: "12",
        input: "\"a\" and \"c\" on the page; slot 0 becomes \"d\"",
        rust: "its keys are d, c",
        ours: "refused 12",
        run_rust: || {
            let mut page = rust(&page(b"", b"", &[b"a", b"c"]));
            oracle::change_key(&mut page, Width::Eight, 0, b"d");
            keys_by_rust(&page)
        },
        run_ours: |scene| scene.ask_on(&page(b"", b"", &[b"a", b"c"]), change_key(0, b"d")),
    },
    Departure {
        name: "change key to one outside the fences",
        says: "9",
        input: "fences \"b\" and \"m\", \"c\" on the page; slot 0 becomes \"z\"",
        rust: "the page breaks U6",
        ours: "refused 9",
        run_rust: || {
            let mut page = rust(&page(b"b", b"m", &[b"c"]));
            oracle::change_key(&mut page, Width::Eight, 0, b"z");
            fit(&page)
        },
        run_ours: |scene| scene.ask_on(&page(b"b", b"m", &[b"c"]), change_key(0, b"z")),
    },
    Departure {
        name: "change key to one under another prefix",
        says: "8",
        input: "fences \"ba\" and \"bz\", \"bm\" on the page; slot 0 becomes \"cn\"",
        rust: "its keys are bn",
        ours: "refused 8",
        run_rust: || {
            let mut page = rust(&page(b"ba", b"bz", &[b"bm"]));
            oracle::change_key(&mut page, Width::Eight, 0, b"cn");
            keys_by_rust(&page)
        },
        run_ours: |scene| scene.ask_on(&page(b"ba", b"bz", &[b"bm"]), change_key(0, b"cn")),
    },
    Departure {
        name: "change key of no slot",
        says: "10",
        input: "an empty page; slot 0 becomes \"a\"",
        rust: "panics",
        ours: "refused 10",
        run_rust: || {
            let mut page = rust(&page(b"", b"", &[]));
            oracle::change_key(&mut page, Width::Eight, 0, b"a");
            fit(&page)
        },
        run_ours: |scene| scene.ask_on(&page(b"", b"", &[]), change_key(0, b"a")),
    },
    Departure {
        name: "change key without room",
        says: "13: only the new payload counts",
        input: "a lower fence of 16,220 bytes \"a\", \"b\" on the page at width 8, 20 bytes free; slot 0 \
                becomes \"b\" and 15 \"x\"",
        rust: "the page breaks U1",
        ours: "refused 13",
        run_rust: || {
            let mut page = rust(&page(&[b'a'; 16_220], b"", &[b"b"]));
            oracle::change_key(&mut page, Width::Eight, 0, b"bxxxxxxxxxxxxxxx");
            fit(&page)
        },
        run_ours: |scene| {
            let page = page(&[b'a'; 16_220], b"", &[b"b"]);
            scene.ask_on(&page, change_key(0, b"bxxxxxxxxxxxxxxx"))
        },
    },
    Departure {
        name: "change key without room, debug build",
        says: "13: only the new payload counts",
        input: "one key of 4,000 bytes \"a\", made 4,001, 4,002 and 4,003 long at width 8, 210 bytes free; \
                it becomes 4,004 long",
        rust: "compacts inside a `debug_assert`, then changes the key: 8225 bytes free",
        ours: "refused 13",
        run_rust: || {
            let mut page = checked::Page::of(&grown()).expect("a page of 16,384 bytes");
            checked::change_key(&mut page, checked::Width::Eight, 0, &[b'a'; 4_004]);
            let free = checked::space(&page).free;
            format!("compacts inside a `debug_assert`, then changes the key: {free} bytes free")
        },
        run_ours: |scene| scene.ask_on(&grown(), change_key(0, &[b'a'; 4_004])),
    },
    Departure {
        name: "run copy under equal prefix lengths",
        says: "8",
        input: "fences \"ba\" and \"bz\"; from fences \"aa\" and \"az\" the entry \"aab\"",
        rust: "its keys are bab",
        ours: "refused 8",
        run_rust: || copy_by_rust(&page(b"ba", b"bz", &[]), &page(b"aa", b"az", &[b"aab"]), 1),
        run_ours: |scene| {
            scene.load_source(&page(b"aa", b"az", &[b"aab"]));
            scene.ask_on(&page(b"ba", b"bz", &[]), run_copy(0, 1))
        },
    },
    Departure {
        name: "run copy below the last entry",
        says: "12",
        input: "\"m\" on the page; the source's \"a\"",
        rust: "its keys are m, a",
        ours: "refused 12",
        run_rust: || copy_by_rust(&page(b"", b"", &[b"m"]), &page(b"", b"", &[b"a"]), 1),
        run_ours: |scene| {
            scene.load_source(&page(b"", b"", &[b"a"]));
            scene.ask_on(&page(b"", b"", &[b"m"]), run_copy(0, 1))
        },
    },
    Departure {
        name: "run copy outside the fences",
        says: "9",
        input: "fences \"b\" and \"m\"; the source's \"z\"",
        rust: "its keys are z",
        ours: "refused 9",
        run_rust: || copy_by_rust(&page(b"b", b"m", &[]), &page(b"", b"", &[b"z"]), 1),
        run_ours: |scene| {
            scene.load_source(&page(b"", b"", &[b"z"]));
            scene.ask_on(&page(b"b", b"m", &[]), run_copy(0, 1))
        },
    },
    Departure {
        name: "run copy past the source's count",
        says: "10",
        input: "an empty source; one entry from slot 0",
        rust: "panics",
        ours: "refused 10",
        run_rust: || copy_by_rust(&page(b"", b"", &[]), &page(b"", b"", &[]), 1),
        run_ours: |scene| {
            scene.load_source(&page(b"", b"", &[]));
            scene.ask_on(&page(b"", b"", &[]), run_copy(0, 1))
        },
    },
    Departure {
        name: "run copy without room",
        says: "13",
        input: "a lower fence of 16,241 bytes \"a\" leaves 15 bytes free; the source's \"b\" at width 8",
        rust: "the page breaks U1",
        ours: "refused 13",
        run_rust: || {
            let mut page_ = rust(&page(&[b'a'; 16_241], b"", &[]));
            oracle::run_copy(&mut page_, &rust(&page(b"", b"", &[b"b"])), Width::Eight, 0, 1);
            fit(&page_)
        },
        run_ours: |scene| {
            scene.load_source(&page(b"", b"", &[b"b"]));
            scene.ask_on(&page(&[b'a'; 16_241], b"", &[]), run_copy(0, 1))
        },
    },
    Departure {
        name: "key copy from free space",
        says: "14",
        input: "\"parcel\" on the page, its offset set to 100",
        rust: "answers 000000000000",
        ours: "refused 14",
        run_rust: || key(oracle::copy_key(&rust(&moved(page(b"", b"", &[b"parcel"]), 100)), 0)),
        run_ours: |scene| {
            scene.ask_on(&moved(page(b"", b"", &[b"parcel"]), 100), slot(calls::KEY_COPY))
        },
    },
    Departure {
        name: "key copy of a short suffix with any offset",
        says: "14",
        input: "\"a\" on the page, its offset set to 0",
        rust: "answers 61 (\"a\")",
        ours: "refused 14",
        run_rust: || key(oracle::copy_key(&rust(&moved(page(b"", b"", &[b"a"]), 0)), 0)),
        run_ours: |scene| scene.ask_on(&moved(page(b"", b"", &[b"a"]), 0), slot(calls::KEY_COPY)),
    },
    Departure {
        name: "key copy with the value past the body",
        says: "14",
        input: "\"parcel\" on the page at width 8, its offset set to 16,250",
        rust: "answers 000000000000",
        ours: "refused 14",
        run_rust: || key(oracle::copy_key(&rust(&moved(page(b"", b"", &[b"parcel"]), 16_250)), 0)),
        run_ours: |scene| {
            scene.ask_on(&moved(page(b"", b"", &[b"parcel"]), 16_250), slot(calls::KEY_COPY))
        },
    },
    Departure {
        name: "trailing id from free space",
        says: "14",
        input: "\"parcels!\" on the page, its offset set to 100",
        rust: "answers 0",
        ours: "refused 14",
        run_rust: || trailing_by_rust(&moved(page(b"", b"", &[b"parcels!"]), 100)),
        run_ours: |scene| {
            scene.ask_on(&moved(page(b"", b"", &[b"parcels!"]), 100), slot(calls::TRAILING_ID))
        },
    },
    Departure {
        name: "trailing id of a short suffix with any offset",
        says: "14",
        input: "fences \"parcel-a\" and \"parcel-z\", \"parcel-m\" on the page, its offset set to 0",
        rust: "answers 8097879376217779565",
        ours: "refused 14",
        run_rust: || trailing_by_rust(&moved(page(b"parcel-a", b"parcel-z", &[b"parcel-m"]), 0)),
        run_ours: |scene| {
            let page = moved(page(b"parcel-a", b"parcel-z", &[b"parcel-m"]), 0);
            scene.ask_on(&page, slot(calls::TRAILING_ID))
        },
    },
    Departure {
        name: "trailing id with the value past the body",
        says: "14",
        input: "\"parcels!\" with value 1 on the page at width 8, its offset set to 16,248",
        rust: "answers 72057594037927936",
        ours: "refused 14",
        run_rust: || trailing_by_rust(&moved(page(b"", b"", &[b"parcels!"]), 16_248)),
        run_ours: |scene| {
            scene.ask_on(&moved(page(b"", b"", &[b"parcels!"]), 16_248), slot(calls::TRAILING_ID))
        },
    },
    Departure {
        name: "trailing id of a key under 8 bytes",
        says: "16",
        input: "\"parcels\" on the page",
        rust: "panics",
        ours: "refused 16",
        run_rust: || trailing_by_rust(&page(b"", b"", &[b"parcels"])),
        run_ours: |scene| scene.ask_on(&page(b"", b"", &[b"parcels"]), slot(calls::TRAILING_ID)),
    },
    Departure {
        name: "child below the lower fence",
        says: "9",
        input: "an empty page with the lower fence \"b\" and value 0; probe \"a\"",
        rust: "answers the lower fence's child 0",
        ours: "refused 9",
        run_rust: || child_by_rust(&page(b"b", b"", &[]), b"a"),
        run_ours: |scene| scene.ask_on(&page(b"b", b"", &[]), keyed(calls::CHILD, b"a")),
    },
    Departure {
        name: "child with a marked lower value",
        says: "-1 with the header's lower fence value",
        input: "an empty page without fences, its lower fence value 2^63; probe \"a\"",
        rust: "no child",
        ours: "answers the lower fence's child 9223372036854775808",
        run_rust: || child_by_rust(&marked(), b"a"),
        run_ours: |scene| {
            scene.load(&marked());
            let reply = scene.reply(keyed(calls::CHILD, b"a"));
            match (reply.number, reply.a) {
                (0, u64::MAX) => format!("answers the lower fence's child {}", reply.b),
                (number, a) => format!("number {number}, slot {a}"),
            }
        },
    },
    Departure {
        name: "an empty leaf's header",
        says: "header rules: unlike the Rust, an empty leaf passes",
        input: "a page just begun at height 0",
        rust: "`validate_persisted_header` answers no",
        ours: "done",
        run_rust: || match oracle::header(&rust(&page(b"", b"", &[]))) {
            true => "`validate_persisted_header` answers yes".into(),
            false => "`validate_persisted_header` answers no".into(),
        },
        run_ours: |scene| scene.ask_on(&page(b"", b"", &[]), keyed(calls::SPACE, b"")),
    },
    Departure {
        name: "space numbers with effective above used",
        says: "5 with 8",
        input: "a page just begun, its effective space set to 97",
        rust: "panics",
        ours: "refused 5 with U8",
        run_rust: || format!("{:?}", oracle::space(&rust(&with(page(b"", b"", &[]), 40, &[97])))),
        run_ours: |scene| {
            scene.ask_on(&with(page(b"", b"", &[]), 40, &[97]), keyed(calls::SPACE, b""))
        },
    },
    Departure {
        name: "space numbers of a broken header",
        says: "4",
        input: "\"a\" on the page, its end set to 0",
        rust: "answers 65528 bytes free",
        ours: "refused 4",
        run_rust: || {
            let page = with(page(b"", b"", &[b"a"]), 6, &[0, 0]);
            format!("answers {} bytes free", oracle::space(&rust(&page)).free)
        },
        run_ours: |scene| {
            scene.ask_on(&with(page(b"", b"", &[b"a"]), 6, &[0, 0]), keyed(calls::SPACE, b""))
        },
    },
];

/// The numbered keys with one exchanged.
fn rekeyed(slot: usize, key: &[u8]) -> Vec<Vec<u8>> {
    let mut keys = numbered(64);
    keys[slot] = key.to_vec();
    keys
}

fn rekey_by_rust(slot: usize, key: &[u8]) -> String {
    let mut page = rust(&hinted(64));
    oracle::change_key_alone(&mut page, Width::Eight, slot, key);
    oracle::update_hint_if_needed(&mut page, slot, key);
    lost_by_rust(&page, &rekeyed(slot, key))
}

fn answers_slot(slot: Option<u64>) -> String {
    slot.map_or("none".into(), |slot| format!("answers slot {slot}"))
}

fn begin(lower: &[u8], upper: &[u8]) -> Request {
    Request {
        width: 0,
        second: upper.to_vec(),
        ..keyed(calls::BEGIN, lower)
    }
}

fn begin_by_rust(lower: &[u8], upper: &[u8]) -> String {
    let mut page = rust(&[0; plain::PAGE]);
    oracle::begin(&mut page, 0, 0, lower, 0, upper, false);
    fit(&page)
}

fn copy_by_rust(destination: &[u8], source: &[u8], n: usize) -> String {
    let mut page = rust(destination);
    oracle::run_copy(&mut page, &rust(source), Width::Eight, 0, n);
    keys_by_rust(&page)
}

fn trailing_by_rust(page: &[u8]) -> String {
    format!("answers {}", oracle::trailing_id(&rust(page), 0))
}

fn child_by_rust(page: &[u8], probe: &[u8]) -> String {
    match oracle::child(&rust(page), probe) {
        Child::Slot(slot, value) => format!("answers slot {slot} with {value}"),
        Child::LowerFence(value) => format!("answers the lower fence's child {value}"),
        Child::NotFound => "no child".into(),
    }
}

/// An empty page whose lower fence value has the mark bit.
fn marked() -> Vec<u8> {
    with(page(b"", b"", &[]), 24, &(1_u64 << 63).to_le_bytes())
}

/// A page with one key that grew three times.
fn grown() -> Vec<u8> {
    let mut script = begun(b"", b"", false);
    script.push(Step::Insert {
        width: 8,
        key: vec![b'a'; 4_000],
        value: 1,
    });
    for length in 4_001..4_004 {
        script.push(Step::ChangeKey {
            width: 8,
            slot: 0,
            key: vec![b'a'; length],
        });
    }
    replay(&script)
}
