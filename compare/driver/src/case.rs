//! A case: one call and the pages that it is asked on.

use crate::calls::{self, Call, Kind};
use crate::pages::Page;
use crate::script::{bytes, Step};
use plain::protocol::Request;
use std::fmt::{self, Write};
use std::rc::Rc;

/// One call, the page that it is asked on, and the source of a run copy.
#[derive(Clone)]
pub struct Case {
    /// The page in register 0; a call that takes no page ignores it.
    pub page: Rc<Page>,
    /// The page in register 1, which only a run copy looks at.
    pub other: Rc<Page>,
    /// The call and its arguments.
    pub request: Request,
}

impl Case {
    /// A call on one page.
    pub fn new(page: Rc<Page>, request: Request) -> Case {
        let other = page.clone();
        Case {
            page,
            other,
            request: Request {
                page: 0,
                other: 1,
                ..request
            },
        }
    }

    /// A run copy from one page to another.
    pub fn run_copy(page: Rc<Page>, other: Rc<Page>, request: Request) -> Case {
        Case {
            other,
            ..Case::new(page, request)
        }
    }

    /// The call's entry in the table of calls.
    pub fn call(&self) -> &'static Call {
        calls::by_number(self.request.call).expect("cases are made for calls of the table")
    }

    /// Whether the call takes two pages.
    pub fn takes_two(&self) -> bool {
        self.request.call == calls::RUN_COPY
    }
}

impl fmt::Display for Case {
    fn fmt(&self, f: &mut fmt::Formatter<'_>) -> fmt::Result {
        if self.call().kind != Kind::Pageless {
            steps(f, "page", &self.page.script)?;
        }
        if self.takes_two() {
            steps(f, "source page", &self.other.script)?;
        }
        writeln!(f, "  call: {}", words(&self.request))
    }
}

fn steps(f: &mut fmt::Formatter<'_>, title: &str, script: &[Step]) -> fmt::Result {
    writeln!(f, "  {title}:")?;
    for (i, step) in script.iter().enumerate() {
        writeln!(f, "    {}. {step}", i + 1)?;
    }
    Ok(())
}

/// A request in words.
pub fn words(request: &Request) -> String {
    let Request {
        call,
        width,
        a,
        b,
        c,
        ..
    } = *request;
    let (first, second) = (bytes(&request.first), bytes(&request.second));
    let name = calls::by_number(call).map_or("?", |call| call.name);
    let mut text = String::from(name);
    let at_width = format!(" at width {width}");
    let arguments = match call {
        calls::BEGIN => format!(
            ": height {a}, timestamp {b}, lower {first}, lower value {c}, upper {second}, flag {width}"
        ),
        calls::INSERT => format!("{at_width}: key {first}, value {a}"),
        calls::SET_VALUE => format!("{at_width}: key {first}, expected {a}, new {b}"),
        calls::CHANGE_KEY => format!("{at_width}: slot {a}, key {first}"),
        calls::RUN_COPY => format!("{at_width}: first {a}, n {b}"),
        calls::FIND => format!("{at_width}: key {first}"),
        calls::LOWER_BOUND | calls::UPPER_BOUND => format!("{at_width}: probe {first}"),
        calls::COMPARE => format!("{at_width}: slot {a}, probe {first}"),
        calls::CHILD => format!(": probe {first}"),
        calls::ENTRY | calls::TRAILING_ID => format!("{at_width}: slot {a}"),
        calls::KEY_COPY => format!("{at_width}: slot {a}, buffer {second}"),
        calls::NEED => format!("{at_width}: prefix length {a}, key {first}"),
        calls::FORECAST => format!(": lower {first}, upper {second}"),
        calls::LAYOUT | calls::FIT => at_width,
        calls::FILE_BATCH => format!("{at_width}: records {first}"),
        _ => String::new(),
    };
    write!(text, "{arguments}").expect("a string takes all text");
    text
}
