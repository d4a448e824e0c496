//! The calls that read: beside doradb's call alone, and beside the call after `validate_persisted_header`, which
//! every read of ours includes.

use super::{answer, copy, number, pair, read, Against, Row, Side, REFUSED};
use crate::ours;
use crate::pages::{Case, Probe};
use doradb_timed::timed::{self, admitted, alone};
use std::cmp::Ordering;

/// The bound of the order for a read.
const TARGET: Option<f64> = Some(1.0);

fn call_alone(what: &str, side: Side) -> Against {
    Against {
        name: "doradb",
        what: what.into(),
        side,
        less: None,
        target: TARGET,
        asked: |_| true,
    }
}

/// doradb's call alone, and after the header's check.
fn both(what: &str, alone: Side, admitted: Side) -> Vec<Against> {
    let checked = Against {
        name: "checked",
        ..call_alone(
            &format!("{what} after `validate_persisted_header`"),
            admitted,
        )
    };
    vec![call_alone(what, alone), checked]
}

/// The reads of a page, and the sums.
pub fn reads() -> Vec<Row> {
    let mut rows = searches();
    rows.extend(slots());
    rows.extend(sums());
    rows
}

fn searches() -> Vec<Row> {
    vec![
        Row::reading(
            "find",
            read(|c, p| pair(ours::find(c.page.bytes(), &p.key), |a, b| 2 * a + b)),
            both(
                "`search_key`",
                read(|c, p| place(alone::find(&c.page, &p.key))),
                read(|c, p| place(admitted::find(&c.page, &p.key))),
            ),
        ),
        Row::reading(
            "lower bound",
            read(|c, p| answer(ours::lower_bound(c.page.bytes(), &p.key))),
            both(
                "`persisted_lower_bound`",
                read(|c, p| number(alone::lower_bound(&c.page, &p.key))),
                read(|c, p| number(admitted::lower_bound(&c.page, &p.key))),
            ),
        ),
        Row::reading(
            "upper bound",
            read(|c, p| answer(ours::upper_bound(c.page.bytes(), &p.key))),
            both(
                "`persisted_lower_bound`, upper",
                read(|c, p| number(alone::upper_bound(&c.page, &p.key))),
                read(|c, p| number(admitted::upper_bound(&c.page, &p.key))),
            ),
        ),
    ]
}

/// A place in a page as a number: a slot found, and one that was not, told apart.
fn place(found: Option<Result<usize, usize>>) -> u64 {
    match found {
        Some(Ok(slot)) => 2 * slot as u64 + 1,
        Some(Err(slot)) => 2 * slot as u64,
        None => REFUSED,
    }
}

fn slots() -> Vec<Row> {
    vec![
        Row::reading(
            "compare",
            read(|c, p| answer(ours::compare(c.page.bytes(), p.slot, &p.key))),
            both(
                "`compare_persisted_key`",
                read(|c, p| sign(alone::compare(&c.page, p.slot, &p.key))),
                read(|c, p| sign(admitted::compare(&c.page, p.slot, &p.key))),
            ),
        ),
        Row::reading(
            "entry",
            read(|c, p| answer(ours::entry(c.page.bytes(), p.slot))),
            both(
                "`entry_view_checked`",
                read(|c, p| number(alone::entry(&c.page, p.slot))),
                read(|c, p| number(admitted::entry(&c.page, p.slot))),
            ),
        ),
        Row::reading(
            "key copy",
            copy(|c, p, out| answer(ours::copy_key(c.page.bytes(), p.slot, out))),
            both(
                "`key_view_checked` and `copy_slot_key`",
                copy(|c, p, out| number(alone::copy_key(&c.page, p.slot, out))),
                copy(|c, p, out| number(admitted::copy_key(&c.page, p.slot, out))),
            ),
        ),
    ]
}

fn sign(order: Option<Ordering>) -> u64 {
    match order {
        Some(order) => order as i64 as u64,
        None => REFUSED,
    }
}

/// doradb has no trailing id of a key under 8 bytes.
pub fn trailing_ids() -> Vec<Row> {
    let long = |case: &Case| match case.probes[0].key.len() {
        0..8 => String::new(),
        _ => case.name.clone(),
    };
    vec![Row {
        line: long,
        ..Row::reading(
            "trailing id",
            read(|c, p| answer(ours::trailing_id(c.page.bytes(), p.slot))),
            both(
                "`unpack_value`",
                read(|c, p| number(alone::trailing_id(&c.page, p.slot))),
                read(|c, p| number(admitted::trailing_id(&c.page, p.slot))),
            ),
        )
    }]
}

fn sums() -> Vec<Row> {
    vec![
        Row::reading(
            "space",
            read(|c, _| {
                let s = ours::space(c.page.bytes());
                match s.number {
                    0 => s.free + s.used + s.effective + s.reclaimable + s.compacted,
                    _ => REFUSED,
                }
            }),
            both(
                "the five numbers that doradb has",
                read(|c, _| number(alone::space(&c.page))),
                read(|c, _| number(admitted::space(&c.page))),
            ),
        ),
        Row {
            line: |case| format!("keys of {}", case.shape),
            ..Row::reading(
                "need",
                read(|c, p| answer(ours::need(c.prefix_len, &p.key))),
                vec![call_alone(
                    "`PackedNodeSpace::entry_space`",
                    read(|c, p| number(timed::need(c.prefix_len, &p.key))),
                )],
            )
        },
        Row {
            line: fences,
            ..Row::reading(
                "forecast",
                read(|c, _| pair(ours::forecast(&c.fences.0, &c.fences.1), |a, b| a + b)),
                vec![call_alone(
                    "`PackedNodeSpace::with_fences`",
                    read(|c, _| {
                        let forecast = timed::forecast(&c.fences.0, &c.fences.1);
                        number(forecast.map(|(n, bytes)| n + bytes))
                    }),
                )],
            )
        },
    ]
}

/// The fences of a case, for calls that look at nothing else.
pub fn fences(case: &Case) -> String {
    match (case.fences.0.len(), case.fences.1.len()) {
        (0, 0) => "no fences".into(),
        (lower, upper) => format!("fences of {lower} and {upper} bytes"),
    }
}

/// The child, on branches: its search alone, and the whole call.
pub fn children() -> Vec<Row> {
    let ours = || {
        read(|c, p| {
            let answer = ours::child(c.page.bytes(), &p.key);
            pair(answer, u64::wrapping_add)
        })
    };
    let row = |name, note, ours, against| Row {
        note,
        ..Row::reading(name, ours, against)
    };
    vec![
        Row {
            less: Some(read(|c, _| fit(c)).at_most(|_| 64)),
            ..row(
                "child's search",
                SEARCH_NOTE,
                ours().at_most(|_| 64),
                child_searches(),
            )
        },
        row(
            "child",
            "The whole call, the test that the page is fit included.",
            ours().at_most(|_| 16),
            child_calls(),
        ),
    ]
}

const SEARCH_NOTE: &str = "\
Ours tests first that the page is fit, which `lookup_child` does not: *ours* is the child call less our fit verdict on the \
same page. Its time is the small difference of two large ones and wavers, and its search comes after a walk over the whole \
page, where doradb's runs in a loop of searches. *after fit* has doradb's search under the conditions of ours, and is such a \
difference too. Instructions do not waver.";

fn fit(c: &Case) -> u64 {
    answer(ours::fit(c.page.bytes()))
}

/// doradb's child in one number.
fn lookup(c: &Case, p: &Probe) -> u64 {
    let child = timed::child(&c.page, &p.key);
    number(child.map(|(slot, value)| slot.wrapping_add(value)))
}

fn validated(c: &Case, p: &Probe) -> u64 {
    assert!(timed::layout(&c.page));
    lookup(c, p)
}

fn child_searches() -> Vec<Against> {
    vec![
        call_alone("`lookup_child`", read(lookup)),
        Against {
            name: "after fit",
            less: Some(read(|c, _| fit(c)).at_most(|_| 64)),
            ..call_alone(
                "`lookup_child` after our fit verdict, less that verdict",
                read(|c, p| fit(c).wrapping_add(lookup(c, p))).at_most(|_| 64),
            )
        },
    ]
}

fn child_calls() -> Vec<Against> {
    vec![
        Against {
            target: None,
            ..call_alone("`lookup_child`", read(lookup))
        },
        Against {
            name: "validated",
            target: None,
            ..call_alone(
                "`lookup_child` after `validate_persisted_layout`",
                read(validated).at_most(|_| 16),
            )
        },
    ]
}
