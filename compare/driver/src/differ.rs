//! Where two answers differ, in words.

use crate::case::Case;
use crate::judges::{Claim, Says, Verdict};
use crate::places;
use crate::script::bytes;
use plain::protocol::Reply;

/// A judge that does not say what document 01 says.
#[derive(Clone)]
pub struct Disagreement {
    /// Who.
    pub by: String,
    /// What `plain` says.
    pub paper: String,
    /// What the judge says.
    pub theirs: String,
    /// The first difference.
    pub first: String,
}

/// What doradb's claims hold against the paper's verdict.
pub fn against_doradb(case: &Case, paper: &Verdict, claims: &[Claim]) -> Option<Disagreement> {
    claims.iter().find_map(|claim| {
        let (theirs, first) = match &claim.says {
            Says::Answer(verdict) => (words(&verdict.reply), difference(paper, verdict)?),
            Says::Panic(message) => (format!("panics: {message}"), "an answer".into()),
            Says::Header(clean) => {
                let expected = paper.reply.number != 4 && !empty_leaf(case);
                let words = |clean: bool| format!("header rules kept: {clean}");
                if *clean == expected {
                    return None;
                }
                (words(*clean), words(expected))
            }
        };
        let by = format!("doradb ({})", claim.by);
        Some(Disagreement {
            by,
            paper: words(&paper.reply),
            theirs,
            first,
        })
    })
}

/// What an answer of `ask` holds against the paper's verdict.
pub fn against_ask(paper: &Verdict, theirs: &Verdict) -> Option<Disagreement> {
    difference(paper, theirs).map(|first| Disagreement {
        by: "ask".into(),
        paper: words(&paper.reply),
        theirs: words(&theirs.reply),
        first,
    })
}

/// An empty leaf, which only doradb's header rules refuse.
fn empty_leaf(case: &Case) -> bool {
    case.page.bytes.get(..4) == Some(&[0; 4])
}

/// The first difference of two verdicts, in the order number, a, b, bytes, page.
fn difference(paper: &Verdict, theirs: &Verdict) -> Option<String> {
    let (one, other) = (&paper.reply, &theirs.reply);
    if one.number != other.number {
        return Some(format!("number {} against {}", one.number, other.number));
    }
    if one.a != other.a {
        return Some(format!("a = {} against {}", one.a, other.a));
    }
    if one.b != other.b {
        return Some(format!("b = {} against {}", one.b, other.b));
    }
    if one.bytes != other.bytes {
        return Some(format!(
            "bytes of the answer, {}",
            first_byte(&one.bytes, &other.bytes, None)
        ));
    }
    match (&paper.after, &theirs.after) {
        (Some(one), Some(other)) if one != other => Some(page_difference(one, other)),
        _ => None,
    }
}

/// The first byte in which two pages differ, with its name.
pub fn page_difference(one: &[u8], other: &[u8]) -> String {
    format!(
        "the page afterwards, {}",
        first_byte(one, other, Some(places::count(one)))
    )
}

fn first_byte(one: &[u8], other: &[u8], count: Option<usize>) -> String {
    let Some(at) = one.iter().zip(other).position(|(a, b)| a != b) else {
        return format!("{} bytes against {}", one.len(), other.len());
    };
    let name = count.map_or(String::new(), |count| {
        format!(" ({})", places::name(at, count))
    });
    format!("byte {at}{name}: {:02x} against {:02x}", one[at], other[at])
}

/// A reply in words.
pub fn words(reply: &Reply) -> String {
    let mut text = match reply.number {
        0 => format!("done, a = {}, b = {}", signed(reply.a), reply.b),
        number => format!("refused {number}, a = {}, b = {}", reply.a, reply.b),
    };
    if !reply.bytes.is_empty() {
        text += &format!(", bytes {}", bytes(&reply.bytes));
    }
    text
}

fn signed(a: u64) -> String {
    match a {
        u64::MAX => format!("{a} (-1)"),
        _ => a.to_string(),
    }
}
