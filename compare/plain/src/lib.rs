//! Document 01 read as plain, slow, obviously right Rust.
//!
//! It is the judge where the Rust original has no answer: refusals, the fit verdict, the child
//! number. The modules follow 01 from top to bottom, under its own names:
//!
//! | module | part of 01 |
//! |---|---|
//! | `page` | The page: integers at their places, the header, slots and their payloads |
//! | `keys` | The page: prefix, fences, heads, order |
//! | `filing` | Filing rules: needs and space, begin, insert, change key |
//! | `hints` | Filing rules: hints, their window, the slots they leave to search |
//! | `verdict` | Two verdicts: header rules, U1 to U9, layout and fit |
//! | `refusals` | Calls and refusal numbers: the table |
//! | `search` | Calls: a slot visited, a slot against a probe, halving |
//! | `calls` | Calls: every call, its refusals in its order |
//! | `listing` | Bench samples: the listing program |
//! | `protocol`, `ask` | the server of calls, for drivers that speak to a program |
//!
//! Every function exported here takes every input and never panics. A refused call changes no byte.

#![forbid(unsafe_code)]

mod calls;
mod filing;
mod hints;
mod keys;
mod listing;
mod page;
mod refusals;
mod search;
mod verdict;

pub mod ask;
pub mod protocol;

pub use calls::{
    begin, change_key, child, compare_slot, copy_key, entry, find, fit, forecast, insert, layout,
    lower_bound, need, run_copy, set_value, space, trailing_id, upper_bound, Entry, Found, Space,
};
pub use listing::{list, listing};
pub use page::{BODY, FOOTER, HEADER, PAGE, USABLE};
pub use refusals::{Answer, Refused};
