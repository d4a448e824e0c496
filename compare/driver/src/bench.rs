//! The bench: cases through doradb, `plain` and `ask`.

use crate::asking::{self, Ask};
use crate::calls::{Kind, CALLS, DUMP, LOAD};
use crate::case::Case;
use crate::differ::{self, Disagreement};
use crate::judges::{self, Claim, Says, Verdict};
use crate::talk::Talk;
use std::rc::Rc;

/// The judges at hand.
pub struct Bench {
    ask: Option<Asked>,
}

/// A program that answers some calls.
struct Asked {
    command: String,
    answers: Vec<u8>,
    running: Option<Ask>,
}

/// A case after all judges have spoken.
pub struct Judged {
    /// What document 01 says.
    pub paper: Verdict,
    /// What doradb says where it was asked, else what document 01 says.
    pub settled: Verdict,
    /// Whether doradb was asked.
    pub doradb: bool,
    /// Whether `ask` was asked.
    pub ask: bool,
    /// Who disagrees, if one does.
    pub disagreement: Option<Disagreement>,
}

impl Bench {
    /// doradb and `plain` alone.
    pub fn alone() -> Bench {
        Bench { ask: None }
    }

    /// doradb, `plain` and a program; an error says why it cannot be asked.
    pub fn with_ask(command: &str) -> Result<Bench, String> {
        let all: Vec<u8> = [LOAD, DUMP]
            .into_iter()
            .chain(CALLS.iter().map(|c| c.number))
            .collect();
        let answers =
            asking::answered(command, &all).map_err(|error| format!("{command}: {error}"))?;
        if !answers.contains(&LOAD) || !answers.contains(&DUMP) {
            return Err(format!("`{command}` does not answer load and dump"));
        }
        let ask = Asked {
            command: command.into(),
            answers,
            running: None,
        };
        Ok(Bench { ask: Some(ask) })
    }

    /// Whether the program, if there is one, answers a call.
    pub fn asks(&self, call: u8) -> bool {
        self.ask
            .as_ref()
            .is_some_and(|ask| ask.answers.contains(&call))
    }

    /// The verdicts on cases.
    pub fn judge(&mut self, cases: &[Case]) -> Vec<Judged> {
        let order = self.order(cases);
        if order.is_empty() {
            return cases.iter().map(judged).collect();
        }
        let put: Vec<&Case> = order.iter().map(|&at| &cases[at]).collect();
        let mut talk = Talk::plan(&put);
        self.running().send(talk.requests());
        let mut judged: Vec<Judged> = cases.iter().map(judged).collect();
        let papers: Vec<&Verdict> = order.iter().map(|&at| &judged[at].paper).collect();
        let heard = talk.hear(self.running(), &papers);
        if !heard.is_empty() {
            self.stop();
        }
        for &at in &order {
            judged[at].ask = true;
        }
        for (at, disagreement) in heard {
            judged[order[at]].disagreement.get_or_insert(disagreement);
        }
        judged
    }

    /// The cases that the program is asked, in an order in which reads of one
    /// page come together, so that it is loaded once.
    fn order(&self, cases: &[Case]) -> Vec<usize> {
        let mut order: Vec<usize> = (0..cases.len())
            .filter(|&at| self.asks(cases[at].request.call))
            .collect();
        order.sort_by_key(|&at| {
            let edit = cases[at].call().kind == Kind::Edit;
            (edit, Rc::as_ptr(&cases[at].page))
        });
        order
    }

    /// The running program, started if it is not.
    pub fn running(&mut self) -> &Ask {
        let asked = self.ask.as_mut().expect("a program is asked");
        asked
            .running
            .get_or_insert_with(|| Ask::start(&asked.command).expect("it started before"))
    }

    /// Ends the program: after a disagreement its state is not trusted.
    pub fn stop(&mut self) {
        if let Some(asked) = &mut self.ask {
            asked.running = None;
        }
    }
}

/// What doradb and `plain` say to a case.
pub fn judged(case: &Case) -> Judged {
    let paper = judges::paper(case);
    let claims = judges::doradb(case, &paper);
    settled(case, paper, claims)
}

/// A case after `plain` and doradb have spoken.
pub fn settled(case: &Case, paper: Verdict, claims: Vec<Claim>) -> Judged {
    let disagreement = differ::against_doradb(case, &paper, &claims);
    let doradb = !claims.is_empty();
    let answer = claims.into_iter().find_map(|claim| match claim.says {
        Says::Answer(verdict) => Some(verdict),
        _ => None,
    });
    let settled = answer.unwrap_or_else(|| paper.clone());
    Judged {
        paper,
        settled,
        doradb,
        ask: false,
        disagreement,
    }
}
