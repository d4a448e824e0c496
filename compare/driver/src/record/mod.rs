//! `compare record`: a conversation with `ask` and the answers it shall give.
//! Answers are doradb's where document 01 has it answer, else `plain`'s.

mod tape;

use crate::batch::record as record_of;
use crate::calls::{self, Call, Kind};
use crate::case::Case;
use crate::damage;
use crate::generator::Generator;
use crate::keys;
use crate::options::Options;
use crate::pages::{self, hints_in_use, Filling, Page};
use crate::pool::{request, Pool};
use crate::random::Random;
use crate::script::Step;
use plain::protocol::Request;
use std::fs;
use std::rc::Rc;
use tape::{length, Said, Tape};

/// Registers that hold good pages: a destination, a source, another page. The
/// register after them holds damaged ones.
const GOOD: usize = 3;
/// How the third page of each act is filled.
const ACTS: [Filling; 13] = [
    Filling::Count(64, 64),
    Filling::NearlyFull,
    Filling::Count(63, 63),
    Filling::Full,
    Filling::Count(65, 90),
    Filling::Count(1, 12),
    Filling::NearlyFull,
    Filling::Count(64, 80),
    Filling::Count(1, 1),
    Filling::NearlyFull,
    Filling::Count(64, 72),
    Filling::Full,
    Filling::Count(0, 0),
];
/// The most steps to a page.
const STEPS: usize = 130;
/// Damaged pages that are loaded in each act.
const DAMAGED: usize = 4;
/// The most bytes of arguments, but for those that are meant to be long.
const SHORT: usize = 2_000;

/// Makes the conversation and writes its two files.
pub fn record(options: &Options) -> Result<bool, String> {
    let (Some(stdin), Some(stdout)) = (&options.out_stdin, &options.out_stdout) else {
        return Err("record wants --out-stdin and --out-stdout".into());
    };
    let mut recorder = Recorder::new(options);
    recorder.converse().map_err(|disagreement| {
        format!(
            "doradb and plain disagree: {} {}",
            disagreement.by, disagreement.first
        )
    })?;
    fs::write(stdin, &recorder.tape.requests).map_err(|error| format!("{stdin}: {error}"))?;
    fs::write(stdout, &recorder.tape.answers).map_err(|error| format!("{stdout}: {error}"))?;
    println!("{}", recorder.tape.tally.text());
    println!(
        "{} bytes of requests, {} of answers",
        recorder.tape.requests.len(),
        recorder.tape.answers.len()
    );
    let missing = recorder.tape.tally.missing();
    for line in &missing {
        println!("missing: {line}");
    }
    Ok(missing.is_empty())
}

/// Says what a conversation shall hold.
struct Recorder {
    random: Random,
    generator: Generator,
    tape: Tape,
    /// The rule that the last damaged page was to break.
    rule: u8,
}

impl Recorder {
    fn new(options: &Options) -> Recorder {
        let mut random = Random::new(options.seeds[0]);
        let tape = Tape::new(options);
        let pool = Pool::given(tape.registers.to_vec());
        let generator = Generator::new(Random::new(random.next()), pool, &[]);
        Recorder {
            random,
            generator,
            tape,
            rule: 0,
        }
    }

    /// Long arguments first, then acts: pages grow, are asked about, damaged
    /// and asked about again.
    fn converse(&mut self) -> Said {
        self.act(Filling::Count(64, 64), 8)?;
        self.too_long()?;
        self.long_fences()?;
        self.crowded()?;
        for length in [0, 1, plain::PAGE - 1, plain::PAGE + 1, 81_920] {
            self.misshapen(length)?;
        }
        for (at, filling) in ACTS.into_iter().enumerate() {
            self.act(filling, [8, 1, 8, 0][at % 4])?;
        }
        self.tape.end();
        Ok(())
    }

    /// A destination, a source and a third page of a width, and all calls.
    fn act(&mut self, filling: Filling, width: u8) -> Said {
        let (one, other) = pages::two(&mut self.random, width);
        let third = pages::filled(&mut self.random, width, filling);
        for (place, page) in [one, other, third].into_iter().enumerate() {
            self.grow(place, page)?;
        }
        self.ask_all()?;
        for _ in 0..DAMAGED {
            self.rule = self.rule % 9 + 1;
            self.damaged(self.rule)?;
        }
        Ok(())
    }

    /// A page in a register: built there step by step, or loaded where the
    /// steps are too many or not allowed.
    fn grow(&mut self, place: usize, page: Page) -> Said {
        let steps = [calls::BEGIN, calls::INSERT, calls::CHANGE_KEY];
        if page.script.len() > STEPS || !steps.iter().all(|call| self.tape.allows(*call)) {
            self.tape.load(place, page);
            return Ok(());
        }
        if self.tape.registers[place].bytes.len() != plain::PAGE {
            let bed = vec![self.random.byte(); plain::PAGE];
            self.tape
                .load(place, Page::new(Vec::new(), bed, page.facts.width));
        }
        for step in &page.script {
            if let Some(request) = request(step) {
                self.tape.say(Request {
                    page: place as u8,
                    ..request
                })?;
            }
        }
        self.tape.registers[place] = self.read(place, page.facts.width);
        Ok(())
    }

    /// What a register holds, read anew.
    fn read(&self, place: usize, width: u8) -> Rc<Page> {
        Rc::new(Page::new(
            Vec::new(),
            self.tape.registers[place].bytes.clone(),
            width,
        ))
    }

    /// Asks every call on the good pages: some that are accepted, and for each
    /// of its refusals some that are meant to get it.
    fn ask_all(&mut self) -> Said {
        for call in self.tape.table() {
            for _ in 0..3 {
                self.seat();
                let case = self.generator.accepted(call);
                self.put(case)?;
            }
            for &refusal in call.refusals.iter().filter(|refusal| **refusal != 3) {
                for _ in 0..2 {
                    self.seat();
                    let case = self.generator.refused(call, refusal);
                    self.put(case)?;
                }
            }
        }
        Ok(())
    }

    /// Lets the generator draw from the good pages as they are now.
    fn seat(&mut self) {
        self.generator
            .seat(Pool::paired(self.tape.registers[..GOOD].to_vec()));
    }

    /// Puts a case whose pages are in registers; others would have to be
    /// loaded and are left out, and so are long keys. A begin goes to the last
    /// register, so that the good pages stay.
    fn put(&mut self, case: Case) -> Said {
        let place = |page: &Rc<Page>| {
            self.tape
                .registers
                .iter()
                .position(|held| Rc::ptr_eq(held, page))
        };
        let (Some(page), Some(other)) = (place(&case.page), place(&case.other)) else {
            return Ok(());
        };
        let one_page = case.takes_two() && page == other;
        if one_page || length(&case.request) > SHORT {
            return Ok(());
        }
        let page = if case.request.call == calls::BEGIN {
            GOOD
        } else {
            page
        };
        self.tape.say(Request {
            page: page as u8,
            other: other as u8,
            ..case.request
        })
    }

    /// A page that breaks a rule in the last register, and calls on it.
    fn damaged(&mut self, rule: u8) -> Said {
        let any = self.random.below(GOOD);
        let hinted = self.tape.registers[..GOOD]
            .iter()
            .position(|page| hints_in_use(&page.bytes));
        let page = self.tape.registers[hinted.filter(|_| rule == 9).unwrap_or(any)].clone();
        let slot = self.random.below(page.facts.entries.len().max(1));
        let damaged = match rule {
            2 if !page.facts.entries.is_empty() => damage::payload(&mut self.random, &page, slot),
            rule => damage::breaking(&mut self.random, &page, rule),
        };
        self.tape.load(GOOD, damaged);
        let key = page
            .facts
            .entries
            .get(slot)
            .map_or(Vec::new(), |entry| entry.key.clone());
        let (reads, edits): (Vec<_>, Vec<_>) = self
            .tape
            .table()
            .into_iter()
            .partition(|call| call.kind == Kind::Read);
        for call in reads {
            let (width, a) = (page.facts.width, slot as u64);
            let (first, second) = (key.clone(), vec![0; key.len()]);
            let request = Request {
                call: call.number,
                width,
                a,
                first,
                second,
                ..Request::default()
            };
            self.ask_last(request)?;
            for _ in 0..2 {
                self.ask_last_as_on(&page, call)?;
            }
        }
        for call in edits.into_iter().filter(|call| call.number != calls::BEGIN) {
            self.ask_last_as_on(&page, call)?;
        }
        Ok(())
    }

    /// A call on the last register that would be accepted on another page.
    fn ask_last_as_on(&mut self, page: &Rc<Page>, call: &Call) -> Said {
        self.generator.seat(Pool::given(vec![page.clone()]));
        let case = self.generator.accepted(call);
        self.ask_last(case.request)
    }

    /// A call on the last register; a run copy now and then from it.
    fn ask_last(&mut self, request: Request) -> Said {
        if length(&request) > SHORT {
            return Ok(());
        }
        let from = request.call == calls::RUN_COPY && self.random.percent(50);
        let (page, other) = if from {
            (0, GOOD as u8)
        } else {
            (GOOD as u8, 0)
        };
        self.tape.say(Request {
            page,
            other,
            ..request
        })
    }

    /// A page of another length in the last register, and every call on it.
    fn misshapen(&mut self, length: usize) -> Said {
        let page = self.tape.registers[0].after(vec![Step::Length(length)]);
        self.tape.load(GOOD, page);
        for call in self.tape.table() {
            self.seat();
            let case = self.generator.accepted(call);
            self.ask_last(case.request)?;
        }
        Ok(())
    }

    /// Fences around the length that fills the body.
    fn long_fences(&mut self) -> Said {
        let Some(begin) = self
            .tape
            .table()
            .into_iter()
            .find(|call| call.number == calls::BEGIN)
        else {
            return Ok(());
        };
        for _ in 0..8 {
            self.seat();
            let request = self.generator.refused(begin, 13).request;
            if length(&request) < 17_000 {
                self.tape.say(Request {
                    page: GOOD as u8,
                    ..request
                })?;
            }
        }
        Ok(())
    }

    /// One key too long for each call that takes one.
    fn too_long(&mut self) -> Said {
        for call in self
            .tape
            .table()
            .into_iter()
            .filter(|call| call.refusals.contains(&3))
        {
            self.seat();
            let mut request = self.generator.accepted(call).request;
            let long = vec![b'x'; keys::LONGEST + 1];
            request.first = if call.number == calls::FILE_BATCH {
                record_of(&long, 0)
            } else {
                long
            };
            if self.tape.room() > request.first.len() {
                self.tape.say(Request {
                    page: 0,
                    other: 1,
                    ..request
                })?;
            }
        }
        Ok(())
    }

    /// A destination with 56 bytes free at width 8: three short entries fit, four do not.
    fn crowded(&mut self) -> Said {
        if [calls::BEGIN, calls::INSERT, calls::RUN_COPY]
            .iter()
            .any(|call| !self.tape.allows(*call))
        {
            return Ok(());
        }
        let begin = |lower: Vec<u8>, page| Request {
            call: calls::BEGIN,
            page,
            first: lower,
            ..Request::default()
        };
        self.tape.say(begin(vec![b'a'; 16_200], 0))?;
        self.tape.say(begin(Vec::new(), 1))?;
        for key in [b"b", b"c", b"d", b"e"] {
            let first = key.to_vec();
            self.tape.say(Request {
                call: calls::INSERT,
                width: 8,
                page: 1,
                first,
                ..Request::default()
            })?;
        }
        for b in [4, 3, 1] {
            self.tape.say(Request {
                call: calls::RUN_COPY,
                width: 8,
                other: 1,
                b,
                ..Request::default()
            })?;
        }
        Ok(())
    }
}

#[cfg(test)]
mod tests {
    use super::*;
    use plain::protocol::{Arrival, Reply};

    fn recorded(arguments: &[&str]) -> Recorder {
        let arguments = ["record"]
            .iter()
            .chain(arguments)
            .map(|text| text.to_string());
        let mut recorder = Recorder::new(&Options::read(arguments).unwrap());
        assert!(recorder.converse().is_ok());
        recorder
    }

    #[test]
    fn plain_answers_as_recorded_and_all_refusals_are_there() {
        let recorder = recorded(&[]);
        assert!(recorder.tape.requests.len() + recorder.tape.answers.len() <= 3_000_000);
        assert_eq!(recorder.tape.tally.missing(), Vec::<String>::new());
        let mut answers = Vec::new();
        plain::ask::serve(&recorder.tape.requests[..], &mut answers).unwrap();
        assert!(answers == recorder.tape.answers);
    }

    #[test]
    fn a_seed_gives_one_conversation() {
        let [one, other] = [0, 1].map(|_| recorded(&["--limit", "600000", "--seed", "9"]));
        assert!(one.tape.requests == other.tape.requests && one.tape.answers == other.tape.answers);
    }

    #[test]
    fn only_allowed_calls_are_asked() {
        let recorder = recorded(&["--limit", "900000", "--calls", "7,12"]);
        let mut stream = &recorder.tape.requests[..];
        while let Arrival::Whole(request) = Request::decode(&mut stream).unwrap() {
            assert!([calls::LOAD, calls::FIND, calls::ENTRY].contains(&request.call));
        }
    }

    #[test]
    fn the_last_request_is_cut_short() {
        let recorder = recorded(&["--limit", "600000"]);
        let mut stream = &recorder.tape.requests[..];
        let mut requests = 0;
        let last = loop {
            match Request::decode(&mut stream).unwrap() {
                Arrival::Whole(_) => requests += 1,
                last => break last,
            }
        };
        assert_eq!(last, Arrival::Broken);
        let mut stream = &recorder.tape.answers[..];
        for _ in 0..requests {
            assert_ne!(Reply::decode(&mut stream).unwrap(), Some(Reply::broken()));
        }
        assert_eq!(stream, Reply::broken().encode());
    }
}
