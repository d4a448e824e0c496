//! The proved B+tree pages of Dorgumanna, as safe Rust over its static library.
//!
//! A page is 16,384 bytes that the caller owns; [`PageRef`] lends them for reading and [`Page`] for editing, each with
//! the width of the page's values. Every call takes every page and every key and ends: what does not fit document 01's
//! rules gets a numbered [`Refusal`], and a refused call leaves every byte as it was.
//!
//! ```
//! use dorgumanna::{Beginning, Found, Page, Refusal, Width, PAGE_BYTES};
//!
//! let mut bytes = [0; PAGE_BYTES];
//! let mut page = Page::new(&mut bytes, Width::Word);
//! page.begin(&Beginning::default())?;
//! page.insert(b"a", 1)?;
//! page.insert(b"parcel", 2)?;
//! assert_eq!(page.insert(b"parcel", 3), Err(Refusal::Present));
//! assert_eq!(page.read().find(b"parcel"), Ok(Found::Equal(1)));
//! assert_eq!(page.read().entry(1), Ok(2));
//! # Ok::<(), Refusal>(())
//! ```
//!
//! The calls are C functions whose answers are proved equal to document 01's definitions. This package is not proved: it
//! hands slices on and names the answers, and its tests hold it against a plain reading of 01.

#![deny(missing_docs)]
#![deny(unsafe_code)]

#[allow(unsafe_code)]
mod c;
mod page;
mod refusal;

pub use page::{
    forecast, need, push_record, Beginning, Child, Forecast, Found, Page, PageRef, Space, Width,
    PAGE_BYTES,
};
pub use refusal::{BatchRefusal, Refusal};
