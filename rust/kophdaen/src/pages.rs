//! The functions that are lent pages and no store.

use crate::Answer;

extern "C" {
    fn kophdaen_whole(pages: *const u32, pages_words: usize) -> u64;
    fn kophdaen_to_columns(page: *const u32, page_words: usize, out: *mut u32, out_words: usize) -> u64;
    fn kophdaen_from_columns(page: *const u32, page_words: usize, out: *mut u32, out_words: usize) -> u64;
}

/// Whether every object that the root reaches is occupied, in one page area (stored, copies or
/// received): the value is 1 if so, else 0. Refused with 1 where the length is not that of 1 to 256 pages.
pub fn whole(pages: &[u32]) -> Answer {
    // SAFETY: a slice, lent as pointer and length; the library only reads it.
    Answer::from_code(unsafe { kophdaen_whole(pages.as_ptr(), pages.len()) })
}

/// Fills `out` with `page` by columns: its map, then eight rows of sixteen words, row w being word w of
/// slots 0 to 15 in order. Refused with 1, `out` as it was, where either length is not 129.
pub fn to_columns(page: &[u32], out: &mut [u32]) -> Answer {
    // SAFETY: two slices, lent as pointer and length, that do not overlap; the library only reads the first.
    Answer::from_code(unsafe { kophdaen_to_columns(page.as_ptr(), page.len(), out.as_mut_ptr(), out.len()) })
}

/// Fills `out` with the page of which `page` holds the columns: the inverse of [`to_columns`], refused alike.
pub fn from_columns(page: &[u32], out: &mut [u32]) -> Answer {
    // SAFETY: as of `to_columns`.
    Answer::from_code(unsafe { kophdaen_from_columns(page.as_ptr(), page.len(), out.as_mut_ptr(), out.len()) })
}
