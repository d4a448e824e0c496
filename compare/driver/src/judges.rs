//! What doradb and `plain` answer to a case, in the form of `ask`'s replies.

use crate::batch;
use crate::calls::{self, Kind};
use crate::case::Case;
use crate::pages::{hints_in_use, hints_rise};
use crate::quiet::quietly;
use crate::script::Step;
use doradb::oracle::{self, Update, Width};
use plain::ask::Server;
use plain::protocol::{Reply, Request};
use std::cmp::Ordering;

/// An answer and, for an edit, the page's bytes after it.
#[derive(Clone, Debug, PartialEq, Eq)]
pub struct Verdict {
    /// The answer.
    pub reply: Reply,
    /// The page after it; none where the call only reads.
    pub after: Option<Vec<u8>>,
}

/// One answer of doradb, by one of its functions.
pub struct Claim {
    /// Which function of doradb it is.
    pub by: &'static str,
    /// What it says.
    pub says: Says,
}

/// What doradb says to a case.
pub enum Says {
    /// It answers the call.
    Answer(Verdict),
    /// It panics with this message.
    Panic(String),
    /// It judges the header rules, which in its reading an empty leaf breaks.
    Header(bool),
}

/// What document 01 says, by `plain`.
pub fn paper(case: &Case) -> Verdict {
    let edit = case.call().kind == Kind::Edit;
    let registers = [
        case.page.bytes.clone(),
        case.other.bytes.clone(),
        Vec::new(),
        Vec::new(),
    ];
    let mut server = Server { registers };
    let reply = server
        .answer(&case.request)
        .expect("cases are carried to a call");
    let [page, ..] = server.registers;
    Verdict {
        reply,
        after: edit.then_some(page),
    }
}

/// What doradb says where document 01 has it answer; nothing outside that domain.
pub fn doradb(case: &Case, paper: &Verdict) -> Vec<Claim> {
    let mut claims = Vec::new();
    if let Some(header) = header(case, paper) {
        claims.push(header);
    }
    if in_domain(case, paper) {
        claims.extend(answers(case));
    }
    claims
}

/// Document 01's "Domain of equality, for calls not refused". That a page is
/// header-clean, or fit for an edit, follows from the call not being refused.
fn in_domain(case: &Case, paper: &Verdict) -> bool {
    let page = &case.page.bytes;
    let fit_at = |width| plain::fit(page, width) == Ok(0);
    paper.reply.number == 0
        && match case.request.call {
            calls::CHILD | calls::FIT => false,
            calls::FIND => fit_at(case.request.width),
            calls::SPACE => [8, 1, 0].into_iter().any(fit_at),
            calls::LOWER_BOUND | calls::UPPER_BOUND => !hints_in_use(page) || hints_rise(page),
            _ => true,
        }
}

/// Where the header rules are judged first and last, doradb's own judgement of them.
fn header(case: &Case, paper: &Verdict) -> Option<Claim> {
    if case.request.call != calls::SPACE || paper.reply.number == 1 {
        return None;
    }
    let page = oracle::Page::of(&case.page.bytes)?;
    let says = match quietly(|| oracle::header(&page)) {
        Ok(clean) => Says::Header(clean),
        Err(message) => Says::Panic(message),
    };
    Some(Claim {
        by: "validate_persisted_header",
        says,
    })
}

/// doradb's answers to a case inside the domain.
fn answers(case: &Case) -> Vec<Claim> {
    match case.request.call {
        calls::KEY_COPY => {
            let copy = |key: Option<Vec<u8>>| copied(key?, &case.request.second);
            vec![
                read(case, "btree_key_checked", |page, slot| {
                    copy(oracle::copy_key(page, slot))
                }),
                read(case, "key_view_checked", |page, slot| {
                    copy(oracle::copy_key_view(page, slot))
                }),
            ]
        }
        calls::TRAILING_ID => vec![
            read(case, "unpack_value", |page, slot| {
                Some(number(oracle::trailing_id(page, slot)))
            }),
            read(case, "copy_tail", |page, slot| {
                oracle::trailing_id_view(page, slot).map(number)
            }),
        ],
        calls::NEED | calls::FORECAST => vec![pageless(case)],
        _ if case.call().kind == Kind::Edit => vec![edit(case)],
        calls::LAYOUT => vec![layout(case)],
        _ => vec![read(case, "doradb", |page, slot| {
            answer(page, slot, &case.request)
        })],
    }
}

/// A claim from a function that may panic or give no answer.
fn claim(by: &'static str, answer: impl FnOnce() -> Option<Verdict>) -> Claim {
    let says = match quietly(answer) {
        Ok(Some(verdict)) => Says::Answer(verdict),
        Ok(None) => Says::Panic("gives none".into()),
        Err(message) => Says::Panic(message),
    };
    Claim { by, says }
}

fn read(
    case: &Case,
    by: &'static str,
    answer: impl FnOnce(&oracle::Page, usize) -> Option<Reply>,
) -> Claim {
    claim(by, || {
        let page = oracle::Page::of(&case.page.bytes)?;
        let reply = answer(&page, case.request.a as usize)?;
        Some(Verdict { reply, after: None })
    })
}

/// doradb's answer to a call that reads a page.
fn answer(page: &oracle::Page, slot: usize, request: &Request) -> Option<Reply> {
    let (key, width) = (request.first.as_slice(), Width::of(request.width));
    Some(match request.call {
        calls::FIND => match oracle::find(page, key) {
            Ok(slot) => pair(slot as u64, 1),
            Err(place) => pair(place as u64, 0),
        },
        calls::LOWER_BOUND => number(oracle::lower_bound(page, width?, key)? as u64),
        calls::UPPER_BOUND => number(oracle::upper_bound(page, width?, key)? as u64),
        calls::COMPARE => number(match oracle::compare_slot(page, width?, slot, key)? {
            Ordering::Less => u64::MAX,
            Ordering::Equal => 0,
            Ordering::Greater => 1,
        }),
        calls::ENTRY => {
            let (bytes, value) = oracle::entry(page, width?, slot)?;
            Reply {
                bytes,
                ..number(value)
            }
        }
        calls::SPACE => Reply {
            bytes: space_bytes(&oracle::space(page)),
            ..number(0)
        },
        _ => return None,
    })
}

fn pageless(case: &Case) -> Claim {
    let Request {
        width,
        a,
        ref first,
        ref second,
        call,
        ..
    } = case.request;
    claim("PackedNodeSpace", || {
        let reply = match call {
            calls::NEED => number(oracle::need(Width::of(width)?, a as usize, first)? as u64),
            _ => {
                let (prefix_len, space) = oracle::forecast(first, second)?;
                pair(prefix_len as u64, space as u64)
            }
        };
        Some(Verdict { reply, after: None })
    })
}

fn layout(case: &Case) -> Claim {
    use doradb_checked::oracle as checked;
    claim("validate_persisted_layout", || {
        let page = checked::Page::of(&case.page.bytes)?;
        let yes = checked::layout(&page, checked::Width::of(case.request.width)?);
        Some(Verdict {
            reply: number(u64::from(yes)),
            after: None,
        })
    })
}

fn edit(case: &Case) -> Claim {
    claim("doradb", || {
        let mut page = oracle::Page::of(&case.page.bytes)?;
        let other = oracle::Page::of(&case.other.bytes);
        edit_verdict(&mut page, other.as_deref(), &case.request)
    })
}

/// doradb's answer to an edit, inside the domain, of a page that it keeps.
pub fn edit_kept(
    page: Option<&mut oracle::Page>,
    other: Option<&oracle::Page>,
    request: &Request,
) -> Claim {
    claim("doradb", || edit_verdict(page?, other, request))
}

fn edit_verdict(
    page: &mut oracle::Page,
    other: Option<&oracle::Page>,
    request: &Request,
) -> Option<Verdict> {
    let reply = edited(page, other, request)?;
    Some(Verdict {
        reply,
        after: Some(page.bytes().to_vec()),
    })
}

/// doradb's answer to an edit of the page.
fn edited(
    page: &mut oracle::Page,
    other: Option<&oracle::Page>,
    request: &Request,
) -> Option<Reply> {
    let Request { a, b, c, .. } = *request;
    let key = request.first.as_slice();
    if request.call == calls::BEGIN {
        let hints = request.width == 1;
        oracle::begin(page, a as u16, b, key, c, &request.second, hints);
        return Some(number(0));
    }
    let width = Width::of(request.width)?;
    Some(match request.call {
        calls::INSERT => number(oracle::insert(page, width, key, a) as u64),
        calls::SET_VALUE => match oracle::set_value(page, width, key, a, b) {
            Update::Old(old) => number(old),
            Update::NotFound | Update::Differs(_) => return None,
        },
        calls::CHANGE_KEY => {
            oracle::change_key(page, width, a as usize, key);
            number(0)
        }
        calls::RUN_COPY => {
            oracle::run_copy(page, other?, width, a as usize, b as usize);
            number(0)
        }
        _ => {
            let records = batch::records(key);
            for (key, value) in &records {
                oracle::insert(page, width, key, *value);
            }
            number(records.len() as u64)
        }
    })
}

/// The lent buffer with a key at its front.
fn copied(key: Vec<u8>, buffer: &[u8]) -> Option<Reply> {
    let mut bytes = buffer.to_vec();
    bytes.get_mut(..key.len())?.copy_from_slice(&key);
    Some(Reply {
        bytes,
        ..number(key.len() as u64)
    })
}

fn space_bytes(space: &oracle::Space) -> Vec<u8> {
    let numbers = [
        space.start,
        space.end,
        space.free,
        space.used,
        space.effective,
        space.reclaimable,
        space.free_after_compaction,
    ];
    numbers
        .iter()
        .flat_map(|number| (*number as u64).to_le_bytes())
        .collect()
}

fn number(a: u64) -> Reply {
    pair(a, 0)
}

fn pair(a: u64, b: u64) -> Reply {
    Reply {
        number: 0,
        a,
        b,
        bytes: Vec::new(),
    }
}

/// The page that doradb makes of a script's steps; none if it panics.
pub fn rebuilt(script: &[Step]) -> Option<Vec<u8>> {
    quietly(|| {
        let mut bed = Vec::new();
        let bedding = script
            .iter()
            .take_while(|step| !matches!(step, Step::Begin { .. }))
            .count();
        for step in &script[..bedding] {
            step.apply(&mut bed);
        }
        let mut page = oracle::Page::of(&bed)?;
        for step in &script[bedding..] {
            match step {
                Step::Begin {
                    height,
                    timestamp,
                    lower,
                    lower_value,
                    upper,
                    hints,
                } => oracle::begin(
                    &mut page,
                    *height,
                    *timestamp,
                    lower,
                    *lower_value,
                    upper,
                    *hints,
                ),
                Step::Insert { width, key, value } => {
                    oracle::insert(&mut page, Width::of(*width)?, key, *value);
                }
                Step::ChangeKey { width, slot, key } => {
                    oracle::change_key(&mut page, Width::of(*width)?, *slot as usize, key);
                }
                _ => return None,
            }
        }
        Some(page.bytes().to_vec())
    })
    .ok()?
}
