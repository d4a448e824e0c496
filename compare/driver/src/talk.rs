//! Cases put to `ask`: which requests go out, and what their answers say.

use crate::asking::Ask;
use crate::calls::{self, Kind};
use crate::case::Case;
use crate::differ::{self, Disagreement};
use crate::judges::Verdict;
use crate::pages::Page;
use crate::sequences::Turn;
use plain::protocol::{Reply, Request};
use std::rc::Rc;

/// What the answer to a request is held against.
enum Check {
    /// A load answers nothing.
    Load,
    /// The case's own answer.
    Answer,
    /// A dump of the edited page.
    After,
    /// A dump of a page that nothing may have changed.
    Unchanged(Rc<Page>),
}

/// The requests for a run of cases, and for each the case that it belongs to.
pub struct Talk {
    exchanges: Vec<(usize, Check)>,
    requests: Vec<Request>,
    /// The page in each register, and the last case that was asked on it.
    held: [Option<(Rc<Page>, usize)>; 2],
}

impl Talk {
    /// Plans the talk about cases: pages are loaded when they are not held
    /// already, edited pages are dumped at once, read ones before they go.
    pub fn plan(cases: &[&Case]) -> Talk {
        let mut talk = Talk {
            exchanges: Vec::new(),
            requests: Vec::new(),
            held: [None, None],
        };
        for (at, case) in cases.iter().enumerate() {
            talk.add(at, case);
        }
        talk.release(0);
        talk.release(1);
        talk
    }

    /// Plans the talk about turns of a sequence, whose pages live on in the
    /// registers: every edited page is dumped at once, and so is what must still
    /// be as it was. What a call does that the program does not answer is loaded.
    pub fn live(turns: &[Turn], answers: impl Fn(u8) -> bool) -> Talk {
        let mut talk = Talk {
            exchanges: Vec::new(),
            requests: Vec::new(),
            held: [None, None],
        };
        for (at, turn) in turns.iter().enumerate() {
            for (place, page) in &turn.loads {
                talk.push(at, Check::Load, load(*place, &page.bytes));
            }
            let request = &turn.case.request;
            let place = usize::from(request.page);
            let paper = &turn.judged.paper;
            if answers(request.call) {
                talk.push(at, Check::Answer, request.clone());
                talk.push(at, Check::After, register(calls::DUMP, place));
            } else if let Some(after) = paper.after.as_ref().filter(|_| paper.reply.number == 0) {
                talk.push(at, Check::Load, load(place, after));
            }
            for (place, page) in &turn.held {
                let check = Check::Unchanged(page.clone());
                talk.push(at, check, register(calls::DUMP, *place));
            }
        }
        talk
    }

    /// The requests, to be sent.
    pub fn requests(&mut self) -> Vec<Request> {
        std::mem::take(&mut self.requests)
    }

    fn add(&mut self, at: usize, case: &Case) {
        if case.call().kind != Kind::Pageless {
            self.hold(at, 0, &case.page);
        }
        if case.takes_two() {
            self.hold(at, 1, &case.other);
        }
        self.push(at, Check::Answer, case.request.clone());
        if case.call().kind == Kind::Edit {
            self.push(at, Check::After, register(calls::DUMP, 0));
            self.held[0] = None;
        }
    }

    /// Sees to it that a register holds a page.
    fn hold(&mut self, at: usize, place: usize, page: &Rc<Page>) {
        if let Some((held, last)) = &mut self.held[place] {
            if Rc::ptr_eq(held, page) {
                *last = at;
                return;
            }
        }
        self.release(place);
        self.push(at, Check::Load, load(place, &page.bytes));
        self.held[place] = Some((page.clone(), at));
    }

    /// Dumps the page that a register holds, if it holds one.
    fn release(&mut self, place: usize) {
        if let Some((page, last)) = self.held[place].take() {
            self.push(last, Check::Unchanged(page), register(calls::DUMP, place));
        }
    }

    fn push(&mut self, at: usize, check: Check, request: Request) {
        self.exchanges.push((at, check));
        self.requests.push(request);
    }

    /// Hears all answers and holds them against the verdicts: a disagreement
    /// for each case that has one. Ends early where the program falls silent.
    pub fn hear(&self, ask: &Ask, verdicts: &[&Verdict]) -> Vec<(usize, Disagreement)> {
        let mut disagreements: Vec<(usize, Disagreement)> = Vec::new();
        let mut reply = Reply::default();
        for (at, check) in &self.exchanges {
            let heard = match ask.receive() {
                Ok(heard) => heard,
                Err(silence) => {
                    disagreements.push((*at, silent(verdicts[*at], silence)));
                    break;
                }
            };
            let found = held_against(check, verdicts[*at], &heard, &reply);
            if let Some(disagreement) = found {
                if disagreements.last().is_none_or(|(last, _)| last != at) {
                    disagreements.push((*at, disagreement));
                }
            }
            reply = heard;
        }
        disagreements
    }
}

/// What one answer says against a verdict; `last` is the answer before it.
fn held_against(
    check: &Check,
    verdict: &Verdict,
    heard: &Reply,
    last: &Reply,
) -> Option<Disagreement> {
    let answer = |reply: &Reply, after| Verdict {
        reply: reply.clone(),
        after,
    };
    match check {
        Check::Load => {
            let expected = answer(&Reply::default(), None);
            differ::against_ask(&expected, &answer(heard, None))
        }
        Check::Answer => differ::against_ask(verdict, &answer(heard, None)),
        Check::After => {
            let expected = answer(last, verdict.after.clone());
            differ::against_ask(&expected, &answer(last, Some(heard.bytes.clone())))
        }
        Check::Unchanged(page) if page.bytes != heard.bytes => Some(Disagreement {
            by: "ask".into(),
            paper: "a page that is only read stays as it is".into(),
            theirs: "it changed".into(),
            first: differ::page_difference(&page.bytes, &heard.bytes),
        }),
        Check::Unchanged(_) => None,
    }
}

fn silent(verdict: &Verdict, silence: String) -> Disagreement {
    Disagreement {
        by: "ask".into(),
        paper: differ::words(&verdict.reply),
        theirs: silence,
        first: "an answer".into(),
    }
}

fn load(place: usize, bytes: &[u8]) -> Request {
    Request {
        first: bytes.to_vec(),
        ..register(calls::LOAD, place)
    }
}

fn register(call: u8, place: usize) -> Request {
    Request {
        call,
        page: place as u8,
        ..Request::default()
    }
}
