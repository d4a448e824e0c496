//! The tape of a conversation: registers as `ask` will have them, requests, and
//! the answers that doradb or `plain` give.

use crate::bench::judged;
use crate::calls::{self, Call, CALLS};
use crate::case::Case;
use crate::differ::Disagreement;
use crate::options::Options;
use crate::pages::Page;
use crate::tables::Tally;
use plain::ask::Server;
use plain::protocol::{Reply, Request};
use std::rc::Rc;

/// Nothing, or that doradb and `plain` disagree.
pub type Said = Result<(), Box<Disagreement>>;

/// A conversation as it grows.
pub struct Tape {
    /// What the registers hold.
    pub registers: [Rc<Page>; 4],
    /// The requests so far.
    pub requests: Vec<u8>,
    /// The answers so far.
    pub answers: Vec<u8>,
    /// What the calls got.
    pub tally: Tally,
    calls: Vec<u8>,
    limit: usize,
}

impl Tape {
    /// An empty tape, with empty registers.
    pub fn new(options: &Options) -> Tape {
        let empty = Rc::new(Page::new(Vec::new(), Vec::new(), 8));
        Tape {
            registers: [empty.clone(), empty.clone(), empty.clone(), empty],
            requests: Vec::new(),
            answers: Vec::new(),
            tally: Tally::new(),
            calls: options.calls.clone(),
            limit: options.limit,
        }
    }

    /// Bytes that may still be written.
    pub fn room(&self) -> usize {
        self.limit
            .saturating_sub(self.requests.len() + self.answers.len())
    }

    /// Whether the conversation may use a call.
    pub fn allows(&self, call: u8) -> bool {
        self.calls.contains(&call)
    }

    /// The calls of the table that the conversation may use.
    pub fn table(&self) -> Vec<&'static Call> {
        CALLS
            .iter()
            .filter(|call| self.allows(call.number))
            .collect()
    }

    /// Loads a page, if there is room for it.
    pub fn load(&mut self, place: usize, page: Page) {
        if self.room() < page.bytes.len() {
            return;
        }
        let first = page.bytes.clone();
        let load = Request {
            call: calls::LOAD,
            page: place as u8,
            first,
            ..Request::default()
        };
        self.write(&load, &Reply::default());
        self.registers[place] = Rc::new(page);
    }

    /// Asks a call of the table, if there is room; after an edit also for the
    /// digest of its page.
    pub fn say(&mut self, said: Request) -> Said {
        if self.room() < length(&said) + 20_000 {
            return Ok(());
        }
        let place = usize::from(said.page);
        let [page, other] =
            [said.page, said.other].map(|at| self.registers[usize::from(at)].clone());
        let case = Case::run_copy(page, other, said.clone());
        let judged = judged(&case);
        if let Some(disagreement) = judged.disagreement {
            return Err(Box::new(disagreement));
        }
        self.tally.count(&case, &judged);
        self.write(&said, &judged.settled.reply);
        if let Some(after) = judged.settled.after {
            let width = self.registers[place].facts.width;
            if after != self.registers[place].bytes {
                self.registers[place] = Rc::new(Page::new(Vec::new(), after, width));
            }
            self.hold(place);
        }
        Ok(())
    }

    /// Asks for the digest of a register, or for all of it.
    fn hold(&mut self, place: usize) {
        let call = if self.allows(calls::DIGEST) {
            calls::DIGEST
        } else {
            calls::DUMP
        };
        let registers = [
            self.registers[place].bytes.clone(),
            Vec::new(),
            Vec::new(),
            Vec::new(),
        ];
        let asked = Request {
            call,
            ..Request::default()
        };
        let reply = Server { registers }
            .answer(&asked)
            .expect("a register is held");
        self.write(
            &Request {
                page: place as u8,
                ..asked
            },
            &reply,
        );
    }

    /// Ends with a load that lacks its last byte: a request cut short, with
    /// which a server ends.
    pub fn end(&mut self) {
        let load = Request {
            call: calls::LOAD,
            ..Request::default()
        };
        self.write(&load, &Reply::broken());
        self.requests.pop();
    }

    fn write(&mut self, request: &Request, reply: &Reply) {
        self.requests.extend(request.encode());
        self.answers.extend(reply.encode());
    }
}

/// Bytes of a request's arguments.
pub fn length(request: &Request) -> usize {
    request.first.len() + request.second.len()
}
