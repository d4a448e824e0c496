//! Cases of begin.

use super::Generator;
use crate::calls;
use crate::case::Case;
use crate::damage;
use crate::keys;
use crate::pages;
use plain::protocol::Request;
use std::rc::Rc;

impl Generator {
    /// A begin that is meant to be accepted.
    pub(super) fn begin(&mut self) -> Case {
        let random = &mut self.random;
        let (mut lower, mut upper) = keys::fences(random);
        if random.percent(8) {
            lower.resize(random.within(lower.len(), 7_000), 0);
            upper.resize(random.within(upper.len(), 7_000), 0);
        }
        let (height, timestamp, value) = (
            *random.pick(&[0, 1, 2, 255, 65_535]),
            pages::limits(random),
            pages::limits(random),
        );
        let flag = u8::from(random.percent(60));
        let page = self.page(|_| true);
        let page = match self.random.percent(20) {
            true => Rc::new(damage::some(&mut self.random, &page)),
            false => page,
        };
        Case::new(
            page,
            Request {
                call: calls::BEGIN,
                width: flag,
                a: height,
                b: timestamp,
                c: value,
                first: lower,
                second: upper,
                ..Request::default()
            },
        )
    }

    /// A begin that is meant to get 6 or 13.
    pub(super) fn begin_refused(&mut self, refusal: u8) -> Case {
        let mut case = self.begin();
        let Request { first, second, .. } = &mut case.request;
        if refusal == 6 {
            match self.random.percent(40) {
                true => second.clone_from(first),
                false => std::mem::swap(first, second),
            }
            if second.is_empty() {
                (*first, *second) = (vec![2], vec![1]);
            }
            return case;
        }
        // Prefix, lower and upper suffix that fill the body to within a byte, or far beyond.
        let prefix = keys::shared_prefix(first, second);
        let room = plain::BODY - if prefix > 16 { prefix } else { 0 };
        let lower = first.len() - prefix;
        let used = if lower > 4 { lower } else { 0 };
        let suffix = (room.saturating_sub(used) + self.random.below(3)).saturating_sub(1);
        let suffix = if self.random.percent(30) {
            50_000
        } else {
            suffix
        };
        if second.len() > prefix {
            second.resize(prefix + suffix, 7);
        } else {
            first.resize(prefix + suffix + used, 7);
        }
        case
    }
}
