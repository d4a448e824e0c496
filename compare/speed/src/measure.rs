//! What a call costs on a case: nanoseconds are the best of many rounds in which the sides take turns.

use crate::pages::{Case, Pages};
use crate::rows::{self, Cells, Row, Side, CALLS, REFUSED, SIDES};
use crate::Want;
use std::hint::black_box;
use std::rc::Rc;
use std::time::{Duration, Instant};

/// The cost of each side of a row, for each probe.
pub type Costs = [Option<f64>; SIDES];

/// What a call costs: ours, and what stands beside it.
#[derive(Clone, Copy)]
pub struct Figures {
    pub ours: f64,
    pub against: [Option<f64>; 2],
}

impl Figures {
    /// The costs of the calls, each less what is taken off it, divided into a row's parts.
    pub fn new(costs: Costs, parts: usize) -> Figures {
        let around = costs[0].unwrap_or(0.0);
        let [ours, first, second] = CALLS.map(|at| {
            let off = costs[at + 1].unwrap_or(around);
            costs[at].map(|cost| (cost - off).max(0.0) / parts as f64)
        });
        Figures {
            ours: ours.unwrap_or(0.0),
            against: [first, second],
        }
    }

    /// Ours divided by what stands beside it.
    pub fn ratio(&self, at: usize) -> Option<f64> {
        let against = self.against[at].filter(|x| *x > 0.0)?;
        Some(self.ours / against)
    }
}

/// The rows that are wanted, with their cases, of at most so many probes.
pub fn cells(want: &Want, probes: usize) -> Result<Vec<Cells>, String> {
    let mut cells = rows::all(&Pages::new(probes, want.quick));
    if let Some(call) = &want.call {
        cells.retain(|cells| cells.row.name == call);
        if cells.is_empty() {
            return Err(format!("no call `{call}`: `speed list` names them"));
        }
    }
    Ok(cells)
}

/// Nanoseconds of every side of every cell. The sides must answer alike.
pub fn times(cells: &[Cells], quick: bool) -> Result<Vec<Vec<Costs>>, String> {
    let spent = Duration::from_millis(if quick { 20 } else { 200 });
    let clock = clock();
    let row_times = |Cells { row, cases }: &Cells| {
        eprintln!("timing: {}", row.name);
        let case_times = |case: &Rc<Case>| {
            agree(row, case)?;
            Ok(time(row, case, spent, clock))
        };
        cases.iter().map(case_times).collect()
    };
    cells.iter().map(row_times).collect()
}

/// All sides must answer alike, without a refusal, and leave the same bytes.
pub fn agree(row: &Row, case: &Case) -> Result<(), String> {
    let sides = row.sides(case);
    let [_, doradb @ ..] = CALLS;
    let shown = |side: &Side| (side.shown)(case, side.probes(case, 1));
    let ours = shown(&row.ours);
    if ours.iter().any(|(answer, _)| *answer == REFUSED) {
        return Err(format!("{}, {}: a call was refused", row.name, case.name));
    }
    for theirs in doradb.into_iter().filter_map(|at| sides[at].map(shown)) {
        let both = ours.len().min(theirs.len());
        if let Some(at) = (0..both).find(|&at| ours[at] != theirs[at]) {
            return Err(format!(
                "{}, {}: the answers to probe {at} differ: {:?} and {:?}",
                row.name, case.name, ours[at], theirs[at]
            ));
        }
    }
    Ok(())
}

/// The best of many rounds, in which the sides take turns.
fn time(row: &Row, case: &Case, spent: Duration, clock: f64) -> Costs {
    let mut best: Costs = [None; SIDES];
    let begun = Instant::now();
    let mut rounds = 0;
    while rounds < 10 || begun.elapsed() < spent {
        for (side, best) in row.sides(case).into_iter().zip(&mut best) {
            if let Some(side) = side {
                let now = once(side, case, clock);
                *best = Some(best.map_or(now, |before| before.min(now)));
            }
        }
        rounds += 1;
    }
    best
}

/// Nanoseconds a probe, all asked once.
fn once(side: &Side, case: &Case, clock: f64) -> f64 {
    let probes = side.probes(case, 1);
    let begun = Instant::now();
    black_box((side.ask)(black_box(case), black_box(probes)));
    (begun.elapsed().as_nanos() as f64 - clock) / probes.len() as f64
}

/// Nanoseconds between two looks at the clock, the best of many.
fn clock() -> f64 {
    let look = |_| Instant::now().elapsed().as_nanos();
    (0..10_000).map(look).min().unwrap_or(0) as f64
}
