//! How a page came to be: steps that can be replayed, shortened and read.

use crate::places;
use std::fmt;

/// One step on the way to a page.
#[derive(Clone, Debug, PartialEq, Eq)]
pub enum Step {
    /// A page of bytes that begin does not name: all of one value.
    Filled(u8),
    /// A page of bytes that begin does not name: random ones of a seed.
    Scattered(u64),
    /// The bytes of a file or a literal.
    Given { name: String, bytes: Vec<u8> },
    /// Begin.
    Begin {
        height: u16,
        timestamp: u64,
        lower: Vec<u8>,
        lower_value: u64,
        upper: Vec<u8>,
        hints: bool,
    },
    /// Insert.
    Insert { width: u8, key: Vec<u8>, value: u64 },
    /// Change key.
    ChangeKey { width: u8, slot: u64, key: Vec<u8> },
    /// Bytes written over the page.
    Damage { at: usize, bytes: Vec<u8> },
    /// The page cut, or lengthened by zeros.
    Length(usize),
}

impl Step {
    /// Does the step by `plain`; a refused one leaves the page as it is.
    pub fn apply(&self, page: &mut Vec<u8>) {
        match self {
            Step::Filled(byte) => *page = vec![*byte; plain::PAGE],
            Step::Scattered(seed) => *page = crate::random::Random::new(*seed).bytes(plain::PAGE),
            Step::Given { bytes, .. } => page.clone_from(bytes),
            Step::Begin {
                height,
                timestamp,
                lower,
                lower_value,
                upper,
                hints,
            } => {
                let _ = plain::begin(
                    page,
                    *height,
                    *timestamp,
                    lower,
                    *lower_value,
                    upper,
                    *hints,
                );
            }
            Step::Insert { width, key, value } => {
                let _ = plain::insert(page, *width, key, *value);
            }
            Step::ChangeKey { width, slot, key } => {
                let _ = plain::change_key(page, *width, *slot, key);
            }
            Step::Damage { at, bytes } => {
                if let Some(place) = page.get_mut(*at..*at + bytes.len()) {
                    place.copy_from_slice(bytes);
                }
            }
            Step::Length(length) => page.resize(*length, 0),
        }
    }
}

/// Steps from nothing to a page.
pub type Script = Vec<Step>;

/// The page that a script leads to.
pub fn replay(script: &[Step]) -> Vec<u8> {
    let mut page = Vec::new();
    for step in script {
        step.apply(&mut page);
    }
    page
}

impl fmt::Display for Step {
    fn fmt(&self, f: &mut fmt::Formatter<'_>) -> fmt::Result {
        match self {
            Step::Filled(byte) => write!(f, "{} bytes of {byte:02x}", plain::PAGE),
            Step::Scattered(seed) => write!(f, "{} random bytes of seed {seed}", plain::PAGE),
            Step::Given { name, bytes } => write!(f, "{} bytes of {name}", bytes.len()),
            Step::Begin { height, timestamp, lower, lower_value, upper, hints } => write!(
                f,
                "begin: height {height}, timestamp {timestamp}, lower {}, lower value {lower_value}, \
                 upper {}, hints {}",
                bytes(lower),
                bytes(upper),
                if *hints { "on" } else { "off" }
            ),
            Step::Insert { width, key, value } => {
                write!(f, "insert at width {width}: key {}, value {value}", bytes(key))
            }
            Step::ChangeKey { width, slot, key } => {
                write!(f, "change key at width {width}: slot {slot}, key {}", bytes(key))
            }
            Step::Damage { at, bytes: written } => write!(
                f,
                "write {} at byte {at} ({})",
                bytes(written),
                places::name(*at, plain::BODY / 8)
            ),
            Step::Length(length) => write!(f, "make the page {length} bytes long"),
        }
    }
}

/// Bytes in words: hex, the text where all of it can be read, and a length
/// where most of them are left out.
pub fn bytes(bytes: &[u8]) -> String {
    if bytes.is_empty() {
        return "\"\" (empty)".into();
    }
    if bytes.len() > 64 {
        let hex = hex(&bytes[..16]);
        let same = if bytes.iter().all(|byte| *byte == bytes[0]) {
            "all alike"
        } else {
            "…"
        };
        return format!("{hex}… ({} bytes, {same})", bytes.len());
    }
    match std::str::from_utf8(bytes) {
        Ok(text) if text.chars().all(|c| c.is_ascii_graphic()) => {
            format!("{} (\"{text}\")", hex(bytes))
        }
        _ => hex(bytes),
    }
}

/// Bytes in hex.
pub fn hex(bytes: &[u8]) -> String {
    bytes.iter().map(|byte| format!("{byte:02x}")).collect()
}
