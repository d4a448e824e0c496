//! The calls that are measured: each as ours, and as what doradb does in its place.

mod edits;
mod reads;
mod verdicts;

use crate::ours;
use crate::pages::{Case, Pages, Probe};
use doradb_timed::oracle::{self, Page};
use std::cell::RefCell;
use std::rc::Rc;

/// What is asked of a case with some of its probes.
type Ask<T> = Box<dyn Fn(&Case, &[Probe]) -> T>;

/// A call asked with probes of a case.
pub struct Side {
    /// How many probes, at most: few for a slow call, so that a round stays short.
    most: fn(&Case) -> usize,
    /// Asks, and adds the answers: what is timed.
    pub ask: Ask<u64>,
    /// Asks, and tells each answer with what it left in the bytes: what must be alike.
    pub shown: Ask<Vec<(u64, u64)>>,
}

/// What doradb does in place of a call of ours.
pub struct Against {
    /// The name of its column.
    pub name: &'static str,
    /// The same in words.
    pub what: String,
    pub side: Side,
    /// What is taken off it in place of what is around the calls.
    pub less: Option<Side>,
    /// The bound that was set for ours / doradb's.
    pub target: Option<f64>,
    /// The cases that it is asked on.
    pub asked: fn(&Case) -> bool,
}

/// A call of ours, and what stands beside it.
pub struct Row {
    pub name: &'static str,
    /// What is said above its table.
    pub note: &'static str,
    pub ours: Side,
    pub against: Vec<Against>,
    /// What the loop does besides the call: it is taken off every figure.
    pub around: Side,
    /// What is taken off ours in place of what is around the calls.
    pub less: Option<Side>,
    /// Into how many parts the figures are divided.
    pub parts: fn(&Case) -> usize,
    /// The name of a case in its table; one of each name is measured.
    pub line: fn(&Case) -> String,
}

/// How many sides a row has at most: what is around the calls, and three calls, each with what is taken off it.
pub const SIDES: usize = 7;

/// The places of the three calls; what is taken off each comes after it.
pub const CALLS: [usize; 3] = [1, 3, 5];

impl Row {
    /// The sides that are asked on a case, in the order above.
    pub fn sides(&self, case: &Case) -> [Option<&Side>; SIDES] {
        let against = |at: usize| self.against.get(at).filter(|other| (other.asked)(case));
        let [first, second] = [0, 1].map(against);
        [
            Some(&self.around),
            Some(&self.ours),
            self.less.as_ref(),
            first.map(|other| &other.side),
            first.and_then(|other| other.less.as_ref()),
            second.map(|other| &other.side),
            second.and_then(|other| other.less.as_ref()),
        ]
    }

    /// A row that reads a page: its loop does nothing, and its lines are the pages.
    fn reading(name: &'static str, ours: Side, against: Vec<Against>) -> Row {
        Row {
            name,
            note: "",
            ours,
            against,
            around: read(|_, p| p.slot as u64),
            less: None,
            parts: |_| 1,
            line: |case| case.name.clone(),
        }
    }
}

/// A row with the cases that it is asked on.
pub struct Cells {
    pub row: Row,
    pub cases: Vec<Rc<Case>>,
}

/// All rows with their cases.
pub fn all(pages: &Pages) -> Vec<Cells> {
    let groups = [
        (verdicts::verdicts(), &pages.leaves),
        (reads::reads(), &pages.leaves),
        (reads::trailing_ids(), &pages.leaves),
        (reads::children(), &pages.branches),
        (edits::inserts(), &pages.roomy),
        (edits::edits(), &pages.leaves),
    ];
    let rows = groups.into_iter().flat_map(|(rows, cases)| {
        rows.into_iter().map(|row| {
            let cases = once_each(&row, cases);
            Cells { row, cases }
        })
    });
    rows.collect()
}

/// The cases of a row, one for each line.
fn once_each(row: &Row, cases: &[Rc<Case>]) -> Vec<Rc<Case>> {
    let mut lines = Vec::new();
    let mut kept = Vec::new();
    for case in cases {
        let line = (row.line)(case);
        if !line.is_empty() && !lines.contains(&line) {
            lines.push(line);
            kept.push(case.clone());
        }
    }
    kept
}

/// Probes of a case.
pub const PROBES: usize = 1024;

/// A side by its call, and by the same call with what it leaves in the bytes.
fn side(
    call: impl Fn(&Case, &Probe) -> u64 + 'static,
    shown: impl Fn(&Case, &Probe) -> (u64, u64) + 'static,
) -> Side {
    Side {
        most: |_| PROBES,
        ask: Box::new(move |case, probes| {
            let answers = probes.iter().map(|probe| call(case, probe));
            answers.fold(0, u64::wrapping_add)
        }),
        shown: Box::new(move |case, probes| {
            let answers = probes.iter().map(|probe| shown(case, probe));
            answers.collect()
        }),
    }
}

/// A call that writes nothing.
fn read(call: impl Fn(&Case, &Probe) -> u64 + Copy + 'static) -> Side {
    side(call, move |case, probe| (call(case, probe), 0))
}

thread_local! {
    static SCRATCH: RefCell<Box<Page>> = RefCell::new(Page::of(&[0; oracle::PAGE_SIZE]).expect("a page's bytes"));
    static OUT: RefCell<[u8; 256]> = const { RefCell::new([0; 256]) };
}

/// A call that writes to a buffer.
fn copy(call: impl Fn(&Case, &Probe, &mut [u8]) -> u64 + Copy + 'static) -> Side {
    side(
        move |case, probe| OUT.with_borrow_mut(|out| call(case, probe, out)),
        move |case, probe| {
            let mut out = [170; 256];
            (call(case, probe, &mut out), digest(&out))
        },
    )
}

/// A call that edits a page and takes the edit back: the page is copied once for all probes.
fn back(
    there: impl Fn(&mut Page, &Probe) -> u64 + Copy + 'static,
    back: impl Fn(&mut Page, &Probe) -> u64 + Copy + 'static,
) -> Side {
    let each = move |page: &mut Page, probe: &Probe| {
        let answer = there(page, probe);
        answer.wrapping_add(back(page, probe))
    };
    let shown = move |page: &mut Page, probe: &Probe| {
        let (first, edited) = (there(page, probe), digest(page.bytes()));
        let second = back(page, probe);
        let answer = match [first, second].contains(&REFUSED) {
            true => REFUSED,
            false => first.wrapping_add(second),
        };
        (answer, edited.wrapping_add(digest(page.bytes())))
    };
    Side {
        most: |_| PROBES,
        ask: Box::new(move |case, probes| {
            SCRATCH.with_borrow_mut(|page| {
                page.bytes_mut().copy_from_slice(case.page.bytes());
                let answers = probes.iter().map(|probe| each(page, probe));
                answers.fold(0, u64::wrapping_add)
            })
        }),
        shown: Box::new(move |case, probes| {
            let mut page = case.page.clone();
            let answers = probes.iter().map(|probe| shown(&mut page, probe));
            answers.collect()
        }),
    }
}

/// A call that edits a page: for each probe the page is copied first.
fn edit(
    page: fn(&Case) -> &Page,
    call: impl Fn(&mut Page, &Case, &Probe) -> u64 + Copy + 'static,
) -> Side {
    let edited = move |scratch: &mut Page, case: &Case, probe: &Probe| {
        scratch.bytes_mut().copy_from_slice(page(case).bytes());
        call(scratch, case, probe)
    };
    side(
        move |case, probe| SCRATCH.with_borrow_mut(|scratch| edited(scratch, case, probe)),
        move |case, probe| {
            SCRATCH.with_borrow_mut(|scratch| {
                let answer = edited(scratch, case, probe);
                (answer, digest(scratch.bytes()))
            })
        },
    )
}

/// A call that makes a page of any bytes: they are copied only where the result is shown.
fn make(call: impl Fn(&mut Page, &Case) -> u64 + Copy + 'static) -> Side {
    side(
        move |case, _| SCRATCH.with_borrow_mut(|scratch| call(scratch, case)),
        edit(|case| &case.page, move |page, case, _| call(page, case)).each(),
    )
}

impl Side {
    /// The side with fewer probes.
    fn at_most(self, most: fn(&Case) -> usize) -> Side {
        Side { most, ..self }
    }

    /// The probes that it is asked with; a part of them where `share` is above 1.
    pub fn probes<'a>(&self, case: &'a Case, share: usize) -> &'a [Probe] {
        let most = ((self.most)(case) / share).max(1);
        &case.probes[..most.min(case.probes.len())]
    }

    /// What is shown of one probe.
    fn each(self) -> impl Fn(&Case, &Probe) -> (u64, u64) {
        move |case, probe| (self.shown)(case, std::slice::from_ref(probe))[0]
    }
}

/// A number that differs where bytes do (FNV-1a).
fn digest(bytes: &[u8]) -> u64 {
    let mix = |sum: u64, byte: &u8| (sum ^ u64::from(*byte)).wrapping_mul(0x100_0000_01b3);
    bytes.iter().fold(0xcbf2_9ce4_8422_2325, mix)
}

/// The answer of a call that was refused: no call of the bench may be, since a refusal is no measure.
pub const REFUSED: u64 = 1 << 63;

/// An answer of doradb's.
fn number<T: TryInto<u64>>(answer: Option<T>) -> u64 {
    answer.and_then(|n| n.try_into().ok()).unwrap_or(REFUSED)
}

/// The first value of an answer of ours.
fn answer(answer: ours::Answer) -> u64 {
    pair(answer, |a, _| a)
}

/// Both values of an answer of ours in one number.
fn pair(answer: ours::Answer, both: impl Fn(u64, u64) -> u64) -> u64 {
    match answer.number {
        0 => both(answer.a, answer.b),
        _ => REFUSED,
    }
}

#[cfg(test)]
mod tests {
    use super::*;
    use crate::measure::agree;

    fn against(side: Side) -> Against {
        Against {
            name: "doradb",
            what: "another".into(),
            side,
            less: None,
            target: None,
            asked: |_| true,
        }
    }

    fn agreed(ours: Side, other: Side) -> bool {
        let pages = Pages::new(8, true);
        let row = Row::reading("a call", ours, vec![against(other)]);
        pages.leaves.iter().all(|case| agree(&row, case).is_ok())
    }

    fn written(byte: u8) -> Side {
        edit(
            |case| &case.page,
            move |page, _, _| {
                page.bytes_mut()[16_383] = byte;
                0
            },
        )
    }

    #[test]
    fn another_answer_is_noticed() {
        let slot = || read(|_, p| p.slot as u64);
        assert!(agreed(slot(), slot()));
        assert!(!agreed(slot(), read(|_, p| p.slot as u64 + 1)));
    }

    #[test]
    fn a_refusal_is_noticed() {
        let refused = || read(|_, _| number(None::<u64>));
        assert!(!agreed(refused(), refused()));
        let edit = || back(|_, _| REFUSED, |_, _| REFUSED);
        assert!(!agreed(edit(), edit()));
    }

    #[test]
    fn another_byte_is_noticed() {
        assert!(agreed(written(1), written(1)));
        assert!(!agreed(written(1), written(2)));
        let one = copy(|_, _, out| u64::from(std::mem::replace(&mut out[255], 1)));
        let two = copy(|_, _, out| u64::from(std::mem::replace(&mut out[255], 2)));
        assert!(!agreed(one, two));
    }

    #[test]
    fn an_edit_that_is_not_taken_back_is_noticed() {
        let turned = |on: bool| {
            back(
                |page, _| u64::from(std::mem::replace(&mut page.bytes_mut()[16_383], 1)),
                move |page, _| {
                    page.bytes_mut()[16_383] = u8::from(on);
                    0
                },
            )
        };
        assert!(agreed(turned(false), turned(false)));
        assert!(!agreed(turned(false), turned(true)));
    }
}
