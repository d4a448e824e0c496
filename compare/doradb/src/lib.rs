//! doradb's B+tree page, compiled unchanged from a folder of its sources, with
//! a safe interface over bytes on top ([`oracle`]).
//!
//! Compiled byte for byte: `index/btree/node.rs`, `hint.rs` and `value.rs`.
//! Cut unchanged: `BTreeKey` and `BTreeKeyView` (`index/btree/key.rs`),
//! `BTreeDelete` and `BTreeUpdate` (`index/btree/mod.rs`), `Maskable`
//! (`index/util.rs`). `build.rs` finds them; none of it stands in this folder.
//!
//! Stubs of our own, for what the folder lacks or what would pull in the rest
//! of the storage engine ([`stubs`]):
//!
//! | module | stands for | why |
//! |---|---|---|
//! | `id` | `PageID`, `RowID`, `TrxID` | doradb's file needs its serializers |
//! | `row` | `INVALID_ROW_ID` | absent |
//! | `memcmp` | `MemCmpKey`, `BytesExtendable` | absent |
//! | `layout` | views of bytes as slots | doradb's file needs zerocopy |
//! | `buffer::page` | `BufferPage`, `PAGE_SIZE` | document 01's page has 16,384 bytes |
//! | `file::block_integrity` | the trailer | document 01's footer has 32 bytes |
//! | crate `zerocopy_derive` | four derives | zerocopy is not at hand |

#![allow(dead_code, unused_imports, unfulfilled_lint_expectations)]

pub mod oracle;
mod stubs;
#[cfg(feature = "timed")]
pub mod timed;

use stubs::{buffer, file, id, layout, memcmp, row};

mod index {
    pub(crate) mod btree {
        mod key {
            include!(concat!(env!("OUT_DIR"), "/index_btree_key.rs"));
        }
        mod results {
            include!(concat!(env!("OUT_DIR"), "/index_btree_mod.rs"));
        }
        include!(concat!(env!("OUT_DIR"), "/whole.rs"));

        pub(crate) use hint::*;
        pub(crate) use key::*;
        pub(crate) use node::*;
        pub(crate) use results::*;
        pub(crate) use value::*;
    }

    pub(crate) mod util {
        include!(concat!(env!("OUT_DIR"), "/index_util.rs"));
    }
}
