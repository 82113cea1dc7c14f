//! The words of the areas that a caller may want to look at: docs/LAYOUT.md.

/// Slots of a page, and transactions.
pub const SLOTS: usize = 16;
pub const TRANSACTIONS: u32 = 16;
/// Marks of a transaction.
pub const MARKS: u32 = 4;
/// The first words of an object are references.
pub const REFERENCES: usize = 4;
/// The object that formatting makes.
pub const ROOT: u32 = 1;
/// The bounds of a store: pages, and log records.
pub const MOST_PAGES: usize = 256;
pub const MOST_RECORDS: usize = 4096;

/// In the counts.
pub const RECEIVED_COUNT: usize = 0;
pub const STABLE_COUNT: usize = 1;

/// In the working tables.
pub const PASS_PHASE: usize = 2;
pub const PASS_PAGE: usize = 3;
pub const PASS_STEP: usize = 4;
pub const ACTIVE: usize = 5;
const READERS: usize = 6;

/// Pass phases.
pub const NO_PASS: u32 = 0;
pub const MARKING: u32 = 1;
pub const SWEEPING: u32 = 2;

/// The mask of those that have the page locked for reading.
pub fn readers_at(page: usize) -> usize {
    READERS + page
}

/// The mask of who has it locked for writing.
pub fn writers_at(pages: usize, page: usize) -> usize {
    READERS + pages + page
}

/// An object's page, and its slot there. Objects are numbered from 1.
pub fn page_of(object: u32) -> usize {
    (object as usize - 1) / SLOTS
}

pub fn slot_of(object: u32) -> usize {
    (object as usize - 1) % SLOTS
}

/// A page's words in a page area.
pub fn page_range(page: usize) -> std::ops::Range<usize> {
    page * crate::PAGE_WORDS..(page + 1) * crate::PAGE_WORDS
}

/// Whether the object's slot is occupied in this page area.
pub fn occupied(pages: &[u32], object: u32) -> bool {
    pages[page_of(object) * crate::PAGE_WORDS] >> slot_of(object) & 1 == 1
}

/// Where an object's first word stands in a page area: behind the page's map.
pub fn object_at(object: u32) -> usize {
    page_of(object) * crate::PAGE_WORDS + 1 + slot_of(object) * crate::OBJECT_WORDS
}
