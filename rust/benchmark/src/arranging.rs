//! What it costs to arrange a page by columns, or by rows again.

use std::hint::black_box;
use std::time::{Duration, Instant};

use kophdaen::{from_columns, to_columns, OBJECT_WORDS};
use model::layout::{PAGE_WORDS, SLOTS};

use crate::states::{accept, crowded, Size};

/// Makes a second page of a page.
pub type Way = fn(&[u32], &mut [u32]);
pub const TO_COLUMNS: Way = |page, out| accept(to_columns(page, out));
pub const FROM_COLUMNS: Way = |page, out| accept(from_columns(page, out));

pub fn arranged(pages: &[u32], way: Way) -> Vec<u32> {
    let mut out = vec![0; pages.len()];
    pages.chunks(PAGE_WORDS).zip(out.chunks_mut(PAGE_WORDS)).for_each(|(page, out)| way(page, out));
    out
}

/// Nanoseconds for a page, each the least of its samples.
pub struct Arranging {
    pub call: &'static str,
    pub library: f64,
    /// Two loops in plain Rust.
    pub plain: f64,
    /// The page copied as it stands.
    pub copy: f64,
}

/// The ways are sampled in turns.
pub fn arranging(size: Size, clock: f64, budget: Duration) -> [Arranging; 2] {
    let pages = crowded(size.pages);
    let ways: [Way; 5] =
        [TO_COLUMNS, plain::<SLOTS, OBJECT_WORDS>, FROM_COLUMNS, plain::<OBJECT_WORDS, SLOTS>, |page, out| {
            out.copy_from_slice(page)
        }];
    for pair in ways.chunks_exact(2) {
        assert!(arranged(&pages, pair[0]) == arranged(&pages, pair[1]), "library and plain loops differ");
    }
    let mut least = [f64::MAX; 5];
    let started = Instant::now();
    while started.elapsed() < budget {
        for (way, least) in ways.iter().zip(&mut least) {
            *least = least.min(sample(&pages, *way));
        }
    }
    let [to, plain_to, from, plain_from, copy] = least.map(|time| (time - clock) / size.pages as f64);
    [
        Arranging { call: "to_columns", library: to, plain: plain_to, copy },
        Arranging { call: "from_columns", library: from, plain: plain_from, copy },
    ]
}

/// Each page into the same one.
fn sample(pages: &[u32], way: Way) -> f64 {
    let mut out = [0; PAGE_WORDS];
    let started = Instant::now();
    pages.chunks(PAGE_WORDS).for_each(|page| way(black_box(page), black_box(&mut out)));
    started.elapsed().as_nanos() as f64
}

/// So many rows of so many words become columns.
#[inline(never)]
fn plain<const ROWS: usize, const WORDS: usize>(page: &[u32], out: &mut [u32]) {
    assert!(page.len() == PAGE_WORDS && out.len() == PAGE_WORDS);
    out[0] = page[0];
    for row in 0..ROWS {
        for word in 0..WORDS {
            out[1 + ROWS * word + row] = page[1 + WORDS * row + word];
        }
    }
}
