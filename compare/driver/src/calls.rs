//! The calls of document 01: their numbers in `ask`'s protocol, their names,
//! and the refusals that each can give.

/// One public call.
#[derive(Debug, PartialEq, Eq)]
pub struct Call {
    /// Its number in `ask`'s protocol.
    pub number: u8,
    /// Its name in tables and reports.
    pub name: &'static str,
    /// The refusals that document 01 lists for it.
    pub refusals: &'static [u8],
    /// What it takes and does.
    pub kind: Kind,
}

/// What a call does to pages.
#[derive(Debug, PartialEq, Eq, Clone, Copy)]
pub enum Kind {
    /// It may change its page.
    Edit,
    /// It only reads its page.
    Read,
    /// It takes no page.
    Pageless,
}

// The protocol's numbers: load and dump of a register, the calls, a register's digest.

pub const LOAD: u8 = 0;
pub const DUMP: u8 = 1;
pub const BEGIN: u8 = 2;
pub const INSERT: u8 = 3;
pub const SET_VALUE: u8 = 4;
pub const CHANGE_KEY: u8 = 5;
pub const RUN_COPY: u8 = 6;
pub const FIND: u8 = 7;
pub const LOWER_BOUND: u8 = 8;
pub const UPPER_BOUND: u8 = 9;
pub const COMPARE: u8 = 10;
pub const CHILD: u8 = 11;
pub const ENTRY: u8 = 12;
pub const KEY_COPY: u8 = 13;
pub const TRAILING_ID: u8 = 14;
pub const SPACE: u8 = 15;
pub const NEED: u8 = 16;
pub const FORECAST: u8 = 17;
pub const LAYOUT: u8 = 18;
pub const FIT: u8 = 19;
pub const FILE_BATCH: u8 = 20;
pub const DIGEST: u8 = 21;

/// Every call that cases are made for. The batch is no call of 01: it files
/// its records by insert, and so gives insert's refusals; without records those
/// that look at the page and the width alone.
pub const CALLS: [Call; 19] = [
    call(BEGIN, "begin", &[1, 3, 6, 13], Kind::Edit),
    call(INSERT, "insert", &[1, 2, 3, 5, 7, 8, 9, 11, 13], Kind::Edit),
    call(
        SET_VALUE,
        "set value",
        &[1, 2, 3, 5, 7, 8, 17, 18],
        Kind::Edit,
    ),
    call(
        CHANGE_KEY,
        "change key",
        &[1, 2, 3, 5, 8, 9, 10, 12, 13],
        Kind::Edit,
    ),
    call(
        RUN_COPY,
        "run copy",
        &[1, 2, 5, 8, 9, 10, 12, 13],
        Kind::Edit,
    ),
    call(FIND, "find", &[1, 2, 3, 4, 8, 14], Kind::Read),
    call(LOWER_BOUND, "lower bound", &[1, 2, 3, 4, 14], Kind::Read),
    call(UPPER_BOUND, "upper bound", &[1, 2, 3, 4, 14], Kind::Read),
    call(COMPARE, "compare slot", &[1, 2, 3, 4, 10, 14], Kind::Read),
    call(CHILD, "child number", &[1, 3, 5, 8, 9], Kind::Read),
    call(ENTRY, "entry", &[1, 2, 4, 10, 14], Kind::Read),
    call(KEY_COPY, "key copy", &[1, 2, 4, 10, 14, 15], Kind::Read),
    call(
        TRAILING_ID,
        "trailing id",
        &[1, 2, 4, 10, 14, 16],
        Kind::Read,
    ),
    call(SPACE, "space numbers", &[1, 4, 5], Kind::Read),
    call(NEED, "need", &[2, 3, 8], Kind::Pageless),
    call(FORECAST, "forecast", &[3], Kind::Pageless),
    call(LAYOUT, "layout verdict", &[1, 2], Kind::Read),
    call(FIT, "fit verdict", &[1, 2], Kind::Read),
    call(
        FILE_BATCH,
        "file batch",
        &[1, 2, 3, 5, 7, 8, 9, 11, 13],
        Kind::Edit,
    ),
];

const fn call(number: u8, name: &'static str, refusals: &'static [u8], kind: Kind) -> Call {
    Call {
        number,
        name,
        refusals,
        kind,
    }
}

/// The call with this protocol number, if cases are made for it.
pub fn by_number(number: u8) -> Option<&'static Call> {
    CALLS.iter().find(|call| call.number == number)
}
