//! A disagreement made small: steps left out, keys shortened, numbers lowered,
//! as long as the same judge still disagrees.

use crate::batch;
use crate::bench::Bench;
use crate::calls;
use crate::case::Case;
use crate::differ::Disagreement;
use crate::pages::Page;
use crate::script::{replay, Script, Step};
use plain::protocol::Request;
use std::rc::Rc;
use std::time::{Duration, Instant};

/// A case as the steps that lead to it: those of its page, those of its source.
#[derive(Clone, PartialEq, Eq)]
struct Story {
    scripts: [Script; 2],
    request: Request,
}

impl Story {
    fn of(case: &Case) -> Story {
        let other = if case.takes_two() {
            case.other.script.clone()
        } else {
            Vec::new()
        };
        Story {
            scripts: [case.page.script.clone(), other],
            request: case.request.clone(),
        }
    }

    fn case(&self) -> Case {
        let page = |script: &Script| {
            Rc::new(Page::new(
                script.clone(),
                replay(script),
                self.request.width,
            ))
        };
        Case::run_copy(
            page(&self.scripts[0]),
            page(&self.scripts[1]),
            self.request.clone(),
        )
    }
}

/// The smallest case found in some time on which the judge of a disagreement
/// still disagrees, with what it says there.
pub fn shrink(
    bench: &mut Bench,
    case: &Case,
    found: &Disagreement,
    patience: Duration,
) -> (Case, Disagreement) {
    if patience.is_zero() {
        return (case.clone(), found.clone());
    }
    let (best, said) = (Story::of(case), found.clone());
    let mut shrinker = Shrinker {
        bench,
        deadline: Instant::now() + patience,
        best,
        said,
    };
    while shrinker.pass() {}
    (shrinker.best.case(), shrinker.said)
}

struct Shrinker<'a> {
    bench: &'a mut Bench,
    deadline: Instant,
    best: Story,
    said: Disagreement,
}

impl Shrinker<'_> {
    /// Tries everything once; answers whether anything became smaller.
    fn pass(&mut self) -> bool {
        let before = self.best.clone();
        for which in [0, 1] {
            self.leave_out(which);
        }
        self.lower_arguments();
        for which in [0, 1] {
            self.simplify(which);
        }
        self.best != before && Instant::now() < self.deadline
    }

    /// Takes a smaller story if the same judge still disagrees on it.
    fn take(&mut self, smaller: Story) -> bool {
        if smaller == self.best || Instant::now() > self.deadline {
            return false;
        }
        let judged = self.bench.judge(&[smaller.case()]).remove(0);
        match judged.disagreement.filter(|still| still.by == self.said.by) {
            Some(still) => {
                (self.best, self.said) = (smaller, still);
                true
            }
            None => false,
        }
    }

    /// Leaves out a half of a page's steps, then quarters, … then single ones;
    /// the slot asked for may have moved down by as many.
    fn leave_out(&mut self, which: usize) {
        let mut size = self.best.scripts[which].len().div_ceil(2);
        while size > 0 {
            let mut start = 0;
            while start < self.best.scripts[which].len() {
                let mut story = self.best.clone();
                let end = (start + size).min(story.scripts[which].len());
                story.scripts[which].drain(start..end);
                let request = moved_down(&story.request, end - start);
                if !self.take(story.clone()) && !self.take(Story { request, ..story }) {
                    start = end;
                }
            }
            size /= 2;
        }
    }

    /// Makes a page's steps simpler, one after the other.
    fn simplify(&mut self, which: usize) {
        let mut at = 0;
        while at < self.best.scripts[which].len() {
            let old = self.best.scripts[which][at].clone();
            let taken = simpler_steps(&old).into_iter().any(|step| {
                let mut story = self.best.clone();
                let request = following(&story.request, &old, &step);
                story.scripts[which][at] = step;
                self.take(story.clone()) || self.take(Story { request, ..story })
            });
            at += usize::from(!taken);
        }
    }

    /// Makes the call's arguments smaller.
    fn lower_arguments(&mut self) {
        while smaller_requests(&self.best.request)
            .into_iter()
            .any(|request| {
                self.take(Story {
                    request,
                    ..self.best.clone()
                })
            })
        {}
    }
}

/// A request that asks for a slot, after entries below it are gone.
fn moved_down(request: &Request, entries: usize) -> Request {
    Request {
        a: request.a.saturating_sub(entries as u64),
        ..request.clone()
    }
}

/// A request that asks for a step's key, or lends a buffer for it, after that
/// key became shorter.
fn following(request: &Request, old: &Step, new: &Step) -> Request {
    let mut following = request.clone();
    if let (Some(was), Some(is)) = (key(old), key(new)) {
        if following.first == was {
            following.first = is.to_vec();
        }
        let shorter = following.second.len().saturating_sub(was.len() - is.len());
        following.second.truncate(shorter);
    }
    following
}

fn key(step: &Step) -> Option<&[u8]> {
    match step {
        Step::Insert { key, .. } | Step::ChangeKey { key, .. } => Some(key),
        _ => None,
    }
}

fn simpler_steps(step: &Step) -> Vec<Step> {
    match step.clone() {
        Step::Filled(0) => Vec::new(),
        Step::Filled(_) | Step::Scattered(_) => vec![Step::Filled(0)],
        Step::Insert { width, key, value } => {
            let shorter = shorter(&key)
                .into_iter()
                .map(|key| Step::Insert { width, key, value });
            let lower = lower(value).into_iter().map(|value| Step::Insert {
                width,
                key: key.clone(),
                value,
            });
            shorter.chain(lower).collect()
        }
        Step::ChangeKey { width, slot, key } => shorter(&key)
            .into_iter()
            .map(|key| Step::ChangeKey { width, slot, key })
            .collect(),
        Step::Begin {
            height,
            timestamp,
            lower,
            lower_value,
            upper,
            hints,
        } => {
            let begin = |height, timestamp, lower: &[u8], lower_value, upper: &[u8], hints| {
                let (lower, upper) = (lower.to_vec(), upper.to_vec());
                Step::Begin {
                    height,
                    timestamp,
                    lower,
                    lower_value,
                    upper,
                    hints,
                }
            };
            let mut steps = vec![
                begin(0, 0, &lower, 0, &upper, hints),
                begin(height, 0, &lower, lower_value, &upper, hints),
                begin(height, timestamp, &lower, lower_value, &upper, false),
            ];
            for shorter in shorter(&lower) {
                steps.push(begin(
                    height,
                    timestamp,
                    &shorter,
                    lower_value,
                    &upper,
                    hints,
                ));
            }
            for shorter in shorter(&upper) {
                steps.push(begin(
                    height,
                    timestamp,
                    &lower,
                    lower_value,
                    &shorter,
                    hints,
                ));
            }
            steps
        }
        Step::Damage { .. } | Step::Length(_) | Step::Given { .. } => Vec::new(),
    }
}

fn smaller_requests(request: &Request) -> Vec<Request> {
    let firsts = match request.call {
        calls::FILE_BATCH => smaller_batches(&request.first),
        _ => shorter(&request.first),
    };
    let with = |change: &dyn Fn(&mut Request)| {
        let mut smaller = request.clone();
        change(&mut smaller);
        smaller
    };
    let mut smaller = Vec::new();
    smaller.extend(
        firsts
            .iter()
            .map(|first| with(&|r| r.first.clone_from(first))),
    );
    smaller.extend(
        shorter(&request.second)
            .iter()
            .map(|second| with(&|r| r.second.clone_from(second))),
    );
    smaller.extend(lower(request.a).iter().map(|a| with(&|r| r.a = *a)));
    smaller.extend(lower(request.b).iter().map(|b| with(&|r| r.b = *b)));
    smaller.extend(lower(request.c).iter().map(|c| with(&|r| r.c = *c)));
    smaller
}

/// Batches without a record, or with a shorter key in one.
fn smaller_batches(bytes: &[u8]) -> Vec<Vec<u8>> {
    let all = batch::records(bytes);
    let mut batches = Vec::new();
    for (at, (key, value)) in all.iter().enumerate() {
        batches.push(batch::batch(&[&all[..at], &all[at + 1..]].concat()));
        for key in shorter(key) {
            let mut with = all.clone();
            with[at] = (&key, *value);
            batches.push(batch::batch(&with));
        }
    }
    batches
}

/// Shorter runs of bytes: none, the first half, without the first or the last.
fn shorter(bytes: &[u8]) -> Vec<Vec<u8>> {
    let Some((_, tail)) = bytes.split_first() else {
        return Vec::new();
    };
    let front = &bytes[..bytes.len() - 1];
    vec![
        Vec::new(),
        bytes[..bytes.len() / 2].to_vec(),
        front.to_vec(),
        tail.to_vec(),
    ]
}

/// Lower numbers: 0, half, one less.
fn lower(number: u64) -> Vec<u64> {
    match number {
        0 => Vec::new(),
        1 => vec![0],
        _ => vec![0, number / 2, number - 1],
    }
}
