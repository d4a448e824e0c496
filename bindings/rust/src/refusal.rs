//! Refusals: the eighteen rows of document 01's table.

use crate::c::Answer;
use std::error::Error;
use std::fmt;

/// Why a call was refused: the rows of document 01's table, in its order.
#[derive(Clone, Copy, Debug, PartialEq, Eq, Hash)]
pub enum Refusal {
    /// 1: page not 16,384 bytes.
    PageLength,
    /// 2: width not 0, 1, 8.
    Width,
    /// 3: key argument above 65,535 bytes.
    KeyLength,
    /// 4: header rules broken.
    HeaderRules,
    /// 5: page not fit; carries the number of the first rule broken, U1 to U9.
    NotFit(u8),
    /// 6: upper fence not empty and lower >= upper.
    FenceOrder,
    /// 7: value above 255 at width 1, above 0 at width 0.
    ValueRange,
    /// 8: key lacks the page's prefix.
    Prefix,
    /// 9: key outside the fences.
    OutsideFences,
    /// 10: slot number not below count; run past the source's count.
    SlotNumber,
    /// 11: key already there.
    Present,
    /// 12: key not strictly between its neighbours.
    Neighbours,
    /// 13: free below what the call adds: the needs filed, or for a key change only its new payload.
    NoRoom,
    /// 14: a slot visited has payload outside end..16,256.
    Payload,
    /// 15: output buffer too short.
    BufferLength,
    /// 16: key under 8 bytes.
    ShortKey,
    /// 17: not found.
    NotFound,
    /// 18: stored value differs from the expected one; carries the stored value.
    OtherValue(u64),
}

impl Refusal {
    /// The refusal of this number, and of what it carries.
    fn of(number: u8, carried: u64) -> Refusal {
        match number {
            1 => Refusal::PageLength,
            2 => Refusal::Width,
            3 => Refusal::KeyLength,
            4 => Refusal::HeaderRules,
            5 => Refusal::NotFit(carried as u8),
            6 => Refusal::FenceOrder,
            7 => Refusal::ValueRange,
            8 => Refusal::Prefix,
            9 => Refusal::OutsideFences,
            10 => Refusal::SlotNumber,
            11 => Refusal::Present,
            12 => Refusal::Neighbours,
            13 => Refusal::NoRoom,
            14 => Refusal::Payload,
            15 => Refusal::BufferLength,
            16 => Refusal::ShortKey,
            17 => Refusal::NotFound,
            18 => Refusal::OtherValue(carried),
            _ => unreachable!("the library has no refusal {number}"),
        }
    }

    /// Its number in document 01's table, 1 to 18.
    pub fn number(self) -> u8 {
        self.row().0
    }

    /// Its text in document 01's table.
    pub fn text(self) -> &'static str {
        self.row().1
    }

    /// What it carries: the rule's number of a 5, the stored value of an 18, else 0.
    pub fn carried(self) -> u64 {
        match self {
            Refusal::NotFit(rule) => u64::from(rule),
            Refusal::OtherValue(stored) => stored,
            _ => 0,
        }
    }

    fn row(self) -> (u8, &'static str) {
        match self {
            Refusal::PageLength => (1, "page not 16,384 bytes"),
            Refusal::Width => (2, "width not 0, 1, 8"),
            Refusal::KeyLength => (3, "key argument above 65,535 bytes"),
            Refusal::HeaderRules => (4, "header rules broken"),
            Refusal::NotFit(_) => (5, "page not fit"),
            Refusal::FenceOrder => (6, "upper fence not empty and lower >= upper"),
            Refusal::ValueRange => (7, "value above 255 at width 1, above 0 at width 0"),
            Refusal::Prefix => (8, "key lacks the page's prefix"),
            Refusal::OutsideFences => (9, "key outside the fences"),
            Refusal::SlotNumber => (
                10,
                "slot number not below count; run past the source's count",
            ),
            Refusal::Present => (11, "key already there"),
            Refusal::Neighbours => (12, "key not strictly between its neighbours"),
            Refusal::NoRoom => (
                13,
                "free below what the call adds: the needs filed, or for a key change only its new payload",
            ),
            Refusal::Payload => (14, "a slot visited has payload outside end..16,256"),
            Refusal::BufferLength => (15, "output buffer too short"),
            Refusal::ShortKey => (16, "key under 8 bytes"),
            Refusal::NotFound => (17, "not found"),
            Refusal::OtherValue(_) => (18, "stored value differs from the expected one"),
        }
    }
}

/// The text of document 01; of a 5 also the rule, of an 18 also the stored value.
impl fmt::Display for Refusal {
    fn fmt(&self, f: &mut fmt::Formatter<'_>) -> fmt::Result {
        f.write_str(self.text())?;
        match self {
            Refusal::NotFit(rule) => write!(f, " (U{rule})"),
            Refusal::OtherValue(stored) => write!(f, " ({stored})"),
            _ => Ok(()),
        }
    }
}

impl Error for Refusal {}

/// Why a batch was refused.
#[derive(Clone, Copy, Debug, PartialEq, Eq, Hash)]
pub enum BatchRefusal {
    /// An insert was refused.
    Record {
        /// The place of the record refused, from 0; 0 for no records at all.
        place: usize,
        /// Why.
        refusal: Refusal,
    },
    /// The records end inside one.
    Cut,
}

impl fmt::Display for BatchRefusal {
    fn fmt(&self, f: &mut fmt::Formatter<'_>) -> fmt::Result {
        match self {
            BatchRefusal::Record { place, refusal } => write!(f, "record {place}: {refusal}"),
            BatchRefusal::Cut => f.write_str("records end inside one"),
        }
    }
}

impl Error for BatchRefusal {}

impl Answer {
    /// The two values of a call that is done, or its refusal.
    pub fn values(self) -> Result<(u64, u64), Refusal> {
        done(self.number, self.a)?;
        Ok((self.a, self.b))
    }

    /// The number of records that a batch filed, or its refusal.
    pub fn batch(self) -> Result<usize, BatchRefusal> {
        let place = self.a as usize;
        match self.number {
            0 => Ok(place),
            255 => Err(BatchRefusal::Cut),
            number => Err(BatchRefusal::Record {
                place,
                refusal: Refusal::of(number, self.b),
            }),
        }
    }
}

/// Nothing for a call that is done, or its refusal.
pub fn done(number: u8, carried: u64) -> Result<(), Refusal> {
    match number {
        0 => Ok(()),
        _ => Err(Refusal::of(number, carried)),
    }
}
