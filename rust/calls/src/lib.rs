//! The server's calls as values, and how the proved library, lent or holding its areas, and the model make
//! them.
//!
//! A new call is one line of the table in table.rs, beside the methods that each has for it.

mod sides;
mod table;

use kophdaen::{CHAIN_WORDS, OBJECT_WORDS, SHARE_WORDS};
pub use sides::{Server, Side};
pub use table::{Call, NAMES};

/// What a call may be lent beside the areas: read, chain and share take the buffer, flush the
/// image.
pub struct Lent<'a> {
    pub buffer: &'a mut [u32],
    pub image: &'a [u32],
}

impl Call {
    /// The words that its buffer must have; 0 where it takes none.
    pub fn buffer_words(self) -> usize {
        match self {
            Call::Read(..) => OBJECT_WORDS,
            Call::Chain(..) => CHAIN_WORDS,
            Call::PassShare(..) => SHARE_WORDS,
            _ => 0,
        }
    }
}

/// A call as the bench program writes it, or would write it.
impl std::fmt::Display for Call {
    fn fmt(&self, out: &mut std::fmt::Formatter) -> std::fmt::Result {
        write!(out, "{}", self.name())?;
        self.numbers().iter().try_for_each(|number| write!(out, ",{number}"))
    }
}
