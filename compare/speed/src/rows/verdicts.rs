//! The verdicts: `validate_persisted_layout` is what stands beside both.

use super::{answer, read, Against, Row, Side};
use crate::ours;
use doradb_timed::timed;

pub fn verdicts() -> Vec<Row> {
    vec![
        row("layout", read(|c, _| answer(ours::layout(c.page.bytes())))),
        // the pages are fit, which the layout verdict tells as 1
        row(
            "fit",
            read(|c, _| 1_u64.wrapping_sub(answer(ours::fit(c.page.bytes())))),
        ),
    ]
}

fn row(name: &'static str, ours: Side) -> Row {
    let doradb = Against {
        name: "doradb",
        what: "`validate_persisted_layout`".into(),
        side: read(|c, _| u64::from(timed::layout(&c.page))).at_most(|_| 8),
        less: None,
        target: Some(0.25),
        asked: |_| true,
    };
    Row::reading(name, ours.at_most(|_| 8), vec![doradb])
}
