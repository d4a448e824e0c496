//! Calls and refusal numbers: the table, one function a row that several calls share.

use crate::filing::free;
use crate::keys::{prefix, Fences};
use crate::page::{Header, PAGE};
use crate::verdict::{fit_verdict, header_rules};

/// A numbered refusal: "carries zero elsewhere, but 5 carries the U number and 18 the stored value".
#[derive(Clone, Copy, Debug, PartialEq, Eq)]
pub struct Refused {
    pub number: u8,
    pub carried: u64,
}

/// What a call answers: its result, or a numbered refusal.
pub type Answer<T> = Result<T, Refused>;

/// The refusal with this number, when its condition is met.
pub fn refuse(number: u8, when: bool) -> Answer<()> {
    refuse_carrying(number, 0, when)
}

/// The refusal with this number and this carried value, when its condition is met.
pub fn refuse_carrying(number: u8, carried: u64, when: bool) -> Answer<()> {
    if when {
        Err(Refused { number, carried })
    } else {
        Ok(())
    }
}

/// "1: page not 16,384 bytes".
pub fn refuse_1(page: &[u8]) -> Answer<()> {
    refuse(1, page.len() != PAGE)
}

/// "2: width not 0, 1, 8"; else the width as a number.
pub fn refuse_2(width: u8) -> Answer<usize> {
    refuse(2, ![0, 1, 8].contains(&width))?;
    Ok(usize::from(width))
}

/// "3: key argument above 65,535 bytes".
pub fn refuse_3(key: &[u8]) -> Answer<()> {
    refuse(3, key.len() > 65_535)
}

/// "4: header rules broken".
pub fn refuse_4(page: &[u8]) -> Answer<()> {
    refuse(4, !header_rules(page))
}

/// "5: page not fit"; it carries the U number.
pub fn refuse_5(page: &[u8], width: usize) -> Answer<()> {
    let broken = fit_verdict(page, width);
    refuse_carrying(5, u64::from(broken), broken != 0)
}

/// "7: value above 255 at width 1, above 0 at width 0".
pub fn refuse_7(width: usize, value: u64) -> Answer<()> {
    refuse(7, width == 1 && value > 255 || width == 0 && value > 0)
}

/// "8: key lacks the page's prefix"; else the suffix, a part of the key.
pub fn refuse_8<'a>(page: &[u8], key: &'a [u8]) -> Answer<&'a [u8]> {
    refuse(8, !key.starts_with(prefix(page)))?;
    Ok(&key[prefix(page).len()..])
}

/// "9: key outside the fences".
pub fn refuse_9(page: &[u8], key: &[u8]) -> Answer<()> {
    refuse(9, !Fences::read(page).hold(key))
}

/// "10: slot number not below count"; else the slot number as an index.
pub fn refuse_10(page: &[u8], slot: u64) -> Answer<usize> {
    let count = Header::read(page).count;
    refuse(10, slot >= count as u64)?;
    Ok(slot as usize)
}

/// "13: free below what the call adds".
pub fn refuse_13(page: &[u8], adds: usize) -> Answer<()> {
    refuse(13, free(&Header::read(page)) < adds)
}
