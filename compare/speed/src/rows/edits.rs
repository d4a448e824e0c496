//! The calls that change a page. Ours tests that the page is fit; doradb's edit tests nothing, so it stands beside ours
//! alone and after `validate_persisted_layout`.

use super::reads::fences;
use super::{answer, back, edit, make, number, Against, Row, Side};
use crate::ours;
use crate::pages::{Case, Probe};
use doradb_timed::oracle::Page;
use doradb_timed::timed;

/// doradb's edit alone and after the validation, and the bound that was set against the second.
fn both(what: &str, alone: Side, validated: Side, target: Option<f64>) -> Vec<Against> {
    vec![
        Against {
            name: "doradb",
            what: what.into(),
            side: alone,
            less: None,
            target: None,
            asked: |_| true,
        },
        Against {
            name: "validated",
            what: format!("{what} after `validate_persisted_layout`"),
            side: validated,
            less: None,
            target,
            asked: |_| true,
        },
    ]
}

/// The bound of the order for an edit.
const TARGET: Option<f64> = Some(0.35);

/// Probes of an edit that tests the whole page before.
const FEW: usize = 16;

/// Insert, on pages that have room for it. The page is copied for every call.
pub fn inserts() -> Vec<Row> {
    let page: fn(&Case) -> &Page = |case| &case.page;
    let ours = edit(page, |page, _, p| {
        answer(ours::insert(page.bytes_mut(), &p.absent, 7))
    });
    let alone = edit(page, |page, _, p| timed::insert(page, &p.absent, 7) as u64);
    let validated = edit(page, |page, _, p| {
        assert!(timed::layout(page));
        timed::insert(page, &p.absent, 7) as u64
    });
    let what = "`insert` and `update_hints`";
    let against = both(
        what,
        alone.at_most(|_| 256),
        validated.at_most(|_| FEW),
        TARGET,
    );
    vec![Row {
        note: "Full pages lack the one entry that is inserted. The copy of the page before each call is taken off.",
        around: edit(page, |_, _, p| p.slot as u64).at_most(|_| 256),
        ..Row::reading("insert", ours.at_most(|_| FEW), against)
    }]
}

/// The other edits.
pub fn edits() -> Vec<Row> {
    vec![set_value(), change_key(), batch(), run_copy(), begin()]
}

/// An edit that is taken back by another of its kind; both are asked.
fn undone(
    name: &'static str,
    what: &str,
    ours: impl Fn(&mut [u8], &Probe, bool) -> u64 + Copy + 'static,
    doradb: impl Fn(&mut Page, &Probe, bool) -> u64 + Copy + 'static,
) -> Row {
    let validated = move |page: &mut Page, p: &Probe, on: bool| {
        assert!(timed::layout(page));
        doradb(page, p, on)
    };
    let ours = back(
        move |page, p| ours(page.bytes_mut(), p, true),
        move |page, p| ours(page.bytes_mut(), p, false),
    );
    let alone = back(
        move |page, p| doradb(page, p, true),
        move |page, p| doradb(page, p, false),
    );
    let validated = back(
        move |page, p| validated(page, p, true),
        move |page, p| validated(page, p, false),
    );
    let nothing = || back(|_, p| p.slot as u64, |_, p| p.value);
    let mut against = both(what, alone, validated.at_most(|_| FEW), TARGET);
    against[1].less = Some(nothing().at_most(|_| FEW));
    Row {
        note: "Each edit is taken back by a second one; the figures are for one.",
        around: nothing(),
        less: Some(nothing().at_most(|_| FEW)),
        parts: |_| 2,
        ..Row::reading(name, ours.at_most(|_| FEW), against)
    }
}

fn set_value() -> Row {
    let values = |p: &Probe, on: bool| if on { (p.value, 7) } else { (7, p.value) };
    undone(
        "set value",
        "`update`",
        move |page, p, on| {
            let (old, new) = values(p, on);
            answer(ours::set_value(page, &p.present, old, new))
        },
        move |page, p, on| {
            let (old, new) = values(p, on);
            number(timed::set_value(page, &p.present, old, new))
        },
    )
}

fn change_key() -> Row {
    let key: fn(&Probe, bool) -> &[u8] = |p, on| if on { &p.near } else { &p.own };
    undone(
        "change key",
        "`update_key` and `update_hints`",
        move |page, p, on| answer(ours::change_key(page, p.slot, key(p, on))),
        move |page, p, on| {
            timed::change_key(page, p.slot, key(p, on));
            0
        },
    )
}

/// A page filed at once, for each record.
fn batch() -> Row {
    let page: fn(&Case) -> &Page = |case| &case.begun;
    let ours = edit(page, |page, c, _| {
        answer(ours::file_batch(page.bytes_mut(), &c.records.bytes))
    });
    let inserts = edit(page, |page, c, _| filed(page, c, timed::insert));
    let alone = edit(page, |page, c, _| filed(page, c, timed::insert_alone));
    let against = vec![
        Against {
            name: "doradb",
            what: "`insert` and `update_hints` for each".into(),
            side: inserts.at_most(batches),
            less: None,
            target: Some(1.2),
            asked: |_| true,
        },
        Against {
            name: "no refresh",
            what: "`insert` for each, hints off".into(),
            side: alone.at_most(batches),
            less: None,
            target: Some(1.2),
            // its own search would go by stale hints
            asked: |case| !case.hints,
        },
    ];
    Row {
        note: "For each record of a batch that fills a begun page, in random order. Without `update_hints` doradb's own next \
               search would go by stale hints, so that side stands where the flag is off.",
        around: edit(page, |_, _, p| p.slot as u64).at_most(batches),
        parts: |case| case.count,
        ..Row::reading("batch", ours.at_most(batches), against)
    }
}

/// Batches of a round: as many as file some two thousand records.
fn batches(case: &Case) -> usize {
    2048 / case.count
}

/// Every record by one insert; how many there are.
fn filed(page: &mut Page, case: &Case, insert: fn(&mut Page, &[u8], u64) -> usize) -> u64 {
    case.records.each().fold(0, |n, (key, value)| {
        insert(page, key, value);
        n + 1
    })
}

/// The second half of a page's entries, copied onto a page that has the first.
fn run_copy() -> Row {
    let page: fn(&Case) -> &Page = |case| &case.half;
    let doradb = |page: &mut Page, c: &Case| {
        timed::run_copy(page, &c.page, c.count / 2, c.count - c.count / 2);
        0
    };
    let ours = edit(page, |page, c, _| {
        let (first, n) = (c.count / 2, c.count - c.count / 2);
        answer(ours::copy_run(page.bytes_mut(), c.page.bytes(), first, n))
    });
    let validated = edit(page, move |page, c, _| {
        assert!(timed::layout(page) && timed::layout(&c.page));
        doradb(page, c)
    });
    let alone = edit(page, move |page, c, _| doradb(page, c));
    let what = "`extend_slots_from` and `update_hints`";
    let against = both(what, alone.at_most(|_| 64), validated.at_most(|_| 8), None);
    Row {
        note: "The second half of a page's entries is copied onto a page that has the first half.",
        around: edit(page, |_, _, p| p.slot as u64).at_most(|_| 64),
        ..Row::reading("run copy", ours.at_most(|_| 8), against)
    }
}

fn begin() -> Row {
    let ours = make(|page, c| {
        answer(ours::begin(
            page.bytes_mut(),
            &c.fences.0,
            &c.fences.1,
            c.hints,
        ))
    });
    let doradb = Against {
        name: "doradb",
        what: "`init`".into(),
        side: make(|page, c| {
            timed::begin(page, &c.fences.0, &c.fences.1, c.hints);
            0
        }),
        less: None,
        target: None,
        asked: |_| true,
    };
    Row {
        line: fences,
        ..Row::reading("begin", ours, vec![doradb])
    }
}
