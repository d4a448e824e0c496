//! Pages for departures, and the two sides that act on them.

use crate::calls;
use crate::script::{bytes, replay, Step};
use doradb::oracle;
use plain::protocol::{Reply, Request};

/// A server of calls, `plain` or `ask`, that acts on pages in its registers.
pub struct Scene<'a> {
    answer: &'a mut dyn FnMut(&Request) -> Reply,
    /// The calls that were asked.
    pub calls: Vec<u8>,
}

impl Scene<'_> {
    /// A scene whose requests go to this server.
    pub fn new(answer: &mut dyn FnMut(&Request) -> Reply) -> Scene<'_> {
        let calls = Vec::new();
        Scene { answer, calls }
    }

    fn put(&mut self, request: &Request) -> Reply {
        self.calls.push(request.call);
        (self.answer)(request)
    }

    /// Loads a page into register 0.
    pub fn load(&mut self, page: &[u8]) {
        self.load_as(0, page);
    }

    /// Loads a page into register 1, the source of run copies.
    pub fn load_source(&mut self, page: &[u8]) {
        self.load_as(1, page);
    }

    fn load_as(&mut self, place: u8, page: &[u8]) {
        let first = page.to_vec();
        self.put(&Request {
            call: calls::LOAD,
            page: place,
            first,
            ..Request::default()
        });
    }

    /// The reply to a call on register 0.
    pub fn reply(&mut self, request: Request) -> Reply {
        self.put(&Request {
            page: 0,
            other: 1,
            ..request
        })
    }

    /// The reply to a call on register 0, in words.
    pub fn ask(&mut self, request: Request) -> String {
        words(&self.reply(request))
    }

    /// Loads a page and asks a call on it.
    pub fn ask_on(&mut self, page: &[u8], request: Request) -> String {
        self.load(page);
        self.ask(request)
    }

    /// How many of some keys the page in register 0 does not find.
    pub fn lost(&mut self, keys: &[Vec<u8>]) -> String {
        let lost = (0..keys.len())
            .filter(|&i| self.reply(find(&keys[i])).b == 0)
            .collect();
        lost_words(lost)
    }
}

fn words(reply: &Reply) -> String {
    match reply.number {
        0 => "done".into(),
        5 => format!("refused 5 with U{}", reply.a),
        number => format!("refused {number}"),
    }
}

/// A page begun over zeros at height 0 with everything else 0.
pub fn begun(lower: &[u8], upper: &[u8], hints: bool) -> Vec<Step> {
    let (lower, upper) = (lower.to_vec(), upper.to_vec());
    let begin = Step::Begin {
        height: 0,
        timestamp: 0,
        lower,
        lower_value: 0,
        upper,
        hints,
    };
    vec![Step::Filled(0), begin]
}

/// A page with these keys at width 8, valued 1, 2, …, without hints.
pub fn page(lower: &[u8], upper: &[u8], keys: &[&[u8]]) -> Vec<u8> {
    let mut script = begun(lower, upper, false);
    script.extend(inserts(keys.iter().map(|key| key.to_vec())));
    replay(&script)
}

fn inserts(keys: impl IntoIterator<Item = Vec<u8>>) -> impl Iterator<Item = Step> {
    (1..).zip(keys).map(|(value, key)| Step::Insert {
        width: 8,
        key,
        value,
    })
}

/// The keys "00" to one below `count`.
pub fn numbered(count: usize) -> Vec<Vec<u8>> {
    (0..count).map(|i| format!("{i:02}").into_bytes()).collect()
}

/// A page of numbered keys with hints on.
pub fn hinted(count: usize) -> Vec<u8> {
    let mut script = begun(b"", b"", true);
    script.extend(inserts(numbered(count)));
    replay(&script)
}

/// A page with other bytes at a place.
pub fn with(mut page: Vec<u8>, at: usize, written: &[u8]) -> Vec<u8> {
    page[at..at + written.len()].copy_from_slice(written);
    page
}

/// A page with slot 0 at another offset.
pub fn moved(page: Vec<u8>, offset: u16) -> Vec<u8> {
    with(page, plain::HEADER + 2, &offset.to_le_bytes())
}

/// doradb's form of a page.
pub fn rust(page: &[u8]) -> Box<oracle::Page> {
    oracle::Page::of(page).expect("a page of 16,384 bytes")
}

/// How many of some keys doradb does not find on a page.
pub fn lost_by_rust(page: &oracle::Page, keys: &[Vec<u8>]) -> String {
    lost_words(
        (0..keys.len())
            .filter(|&i| oracle::find(page, &keys[i]).is_err())
            .collect(),
    )
}

fn lost_words(lost: Vec<usize>) -> String {
    match (lost.first(), lost.last()) {
        (Some(first), Some(last)) if last - first + 1 == lost.len() => {
            format!(
                "the {} keys in slots {first} to {last} are not found",
                lost.len()
            )
        }
        (Some(_), _) => format!("{} keys are not found", lost.len()),
        _ => "every key is found".into(),
    }
}

/// The keys that doradb reads from a page.
pub fn keys_by_rust(page: &oracle::Page) -> String {
    let keys = (0..).map_while(|slot| oracle::copy_key(page, slot));
    let keys: Vec<String> = keys
        .map(|key| String::from_utf8_lossy(&key).into())
        .collect();
    format!("its keys are {}", keys.join(", "))
}

/// What became of a page: the fit verdict at width 8.
pub fn fit(page: &oracle::Page) -> String {
    match plain::fit(page.bytes(), 8) {
        Ok(0) => "the page is fit".into(),
        Ok(rule) => format!("the page breaks U{rule}"),
        Err(_) => "there is no page".into(),
    }
}

/// A key in words.
pub fn key(found: Option<Vec<u8>>) -> String {
    found.map_or("none".into(), |key| format!("answers {}", bytes(&key)))
}

/// Find at width 8.
pub fn find(key: &[u8]) -> Request {
    keyed(calls::FIND, key)
}

/// Insert of value 0 at width 8.
pub fn insert(key: &[u8]) -> Request {
    keyed(calls::INSERT, key)
}

/// Change key at width 8.
pub fn change_key(slot: u64, key: &[u8]) -> Request {
    Request {
        a: slot,
        ..keyed(calls::CHANGE_KEY, key)
    }
}

/// Run copy at width 8.
pub fn run_copy(first: u64, n: u64) -> Request {
    Request {
        a: first,
        b: n,
        ..keyed(calls::RUN_COPY, b"")
    }
}

/// A call on slot 0 at width 8, with a buffer of 32 bytes.
pub fn slot(call: u8) -> Request {
    Request {
        second: vec![0; 32],
        ..keyed(call, b"")
    }
}

/// A call with a key at width 8.
pub fn keyed(call: u8, key: &[u8]) -> Request {
    Request {
        call,
        width: 8,
        first: key.to_vec(),
        ..Request::default()
    }
}
