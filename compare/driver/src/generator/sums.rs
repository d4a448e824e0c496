//! Cases of the verdicts, the space numbers, need and forecast.

use super::Generator;
use crate::calls;
use crate::case::Case;
use crate::damage;
use crate::keys;
use crate::pages;
use plain::protocol::Request;
use std::rc::Rc;

impl Generator {
    /// A verdict or the space numbers of a page, damaged or not.
    pub(super) fn judged(&mut self, call: u8) -> Case {
        let page = self.page(|_| true);
        let damaged = match call {
            calls::SPACE => self.random.percent(10),
            _ => self.random.percent(45),
        };
        let page = match damaged {
            true => Rc::new(damage::some(&mut self.random, &page)),
            false => page,
        };
        let width = self.width(&page);
        Case::new(
            page,
            Request {
                call,
                width,
                ..Request::default()
            },
        )
    }

    /// A need that is meant to be accepted.
    pub(super) fn need(&mut self) -> Case {
        let random = &mut self.random;
        let length = *random.pick(&[0, 1, 3, 4, 5, 8, 20, 21, 300, 16_256, keys::LONGEST]);
        let first = keys::run(random, length);
        let prefix = match random.below(4) {
            0 => 0,
            1 => length,
            2 => length.saturating_sub(random.within(3, 6)),
            _ => random.within(0, length),
        };
        let width = pages::width(random);
        let page = self.page(|_| true);
        let a = prefix as u64;
        Case::new(
            page,
            Request {
                call: calls::NEED,
                width,
                a,
                first,
                ..Request::default()
            },
        )
    }

    /// A need that is meant to get 8.
    pub(super) fn need_refused(&mut self) -> Case {
        let mut case = self.need();
        let length = case.request.first.len() as u64;
        let over = [length + 1, length + 2, 65_536, 1 << 32, u64::MAX];
        case.request.a = *self.random.pick(&over);
        case
    }

    /// A forecast that is meant to be accepted.
    pub(super) fn forecast(&mut self) -> Case {
        let random = &mut self.random;
        let (mut first, mut second) = keys::fences(random);
        if random.percent(15) {
            first.resize(*random.pick(&[16, 17, 16_256, 16_257, keys::LONGEST]), 3);
        }
        if random.percent(15) {
            second.clone_from(&first);
            second.resize(*random.pick(&[16, 17, 16_256, 16_257, keys::LONGEST]), 4);
        }
        if random.percent(10) {
            std::mem::swap(&mut first, &mut second);
        }
        let page = self.page(|_| true);
        Case::new(
            page,
            Request {
                call: calls::FORECAST,
                first,
                second,
                ..Request::default()
            },
        )
    }
}
