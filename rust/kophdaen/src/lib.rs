//! A safe wrapper over the proved page server and collector.
//!
//! A [`Store`] owns the six lent areas (docs/LAYOUT.md) and offers every call of the server on
//! them. The library's promises settle the answer and every word for all inputs, so the areas may
//! be looked at and written at will: no words in them are unsafe to lend.
//!
//! A [`Held`] is a store whose areas nothing but its calls can write. Its calls do not look at every
//! word first, and answer the same.
//! docs/CALLING.md has the refusals, what to write to the disk and when, and names two complete programs.

/// What a call answered: 0 or a refusal's number, and the value. A refusal's value is 0, but that of 6,
/// which is the [holder](Answer::holder).
#[derive(Clone, Copy, PartialEq, Eq, Debug)]
pub struct Answer {
    pub number: u32,
    pub value: u32,
}

impl Answer {
    /// From the C functions' code, answer number x 2^32 + value.
    pub fn from_code(code: u64) -> Answer {
        Answer { number: (code >> 32) as u32, value: code as u32 }
    }

    pub fn code(self) -> u64 {
        u64::from(self.number) << 32 | u64::from(self.value)
    }

    pub fn accepted(self) -> bool {
        self.number == 0
    }

    /// Of a lock refused with 6, whom to call: the lowest-numbered other transaction with any lock on the
    /// page, for reading or for writing. No other answer has one.
    pub fn holder(self) -> Option<u32> {
        (self.number == 6).then_some(self.value)
    }
}

pub const PAGE_WORDS: usize = 129;
pub const OBJECT_WORDS: usize = 8;
/// Words of a chain's buffer: the objects of the largest store, at every size.
pub const CHAIN_WORDS: usize = 4096;
/// Words of a share's buffer: the whole share, then its remainder.
pub const SHARE_WORDS: usize = 2;
pub const RECORD_WORDS: usize = 6;
pub const COUNTS_WORDS: usize = 2;

/// Tablets that a transaction may begin as: clients 0 to 7.
pub const CLIENTS: u32 = 8;

/// Words of the working tables.
pub fn work_words(pages: usize, records: usize) -> usize {
    150 + 75 * pages + records
}

mod held;
pub mod layout;
mod lend;
mod pages;
mod store;
pub use held::{Held, NotHeld};
pub use pages::{from_columns, to_columns, whole};
pub use store::Store;
