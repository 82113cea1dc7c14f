//! How the cost of some calls grows with the pages and with the log.

use std::time::Duration;

use crate::cases::{cases, Case};
use crate::states::{Fill, Size};
use crate::timing::{measure, Times};

/// Calls by name and answer: the check alone, changes, ends, a mark and the way back, stores, a pass, a reopening,
/// a chain.
const CALLS: [(&str, u32); 15] = [
    ("lock_read", 4),
    ("begin", 0),
    ("set_word", 0),
    ("set_word (old begin)", 0),
    ("commit", 0),
    ("abort", 0),
    ("mark", 0),
    ("back", 0),
    ("store_page", 0),
    ("empty_log", 0),
    ("start_pass", 0),
    ("pass_step (mark)", 0),
    ("pass_step (turn)", 0),
    ("reopen", 0),
    ("chain", 0),
];

pub struct Growth {
    pub name: &'static str,
    pub number: u32,
    /// In the order of the sizes.
    pub times: Vec<Times>,
}

pub fn by_pages() -> Vec<Size> {
    [4, 16, 64, 256].map(|pages| Size { pages, records: 64 }).to_vec()
}

pub fn by_records() -> Vec<Size> {
    [64, 512, 4096].map(|records| Size { pages: 4, records }).to_vec()
}

/// With full logs.
pub fn grow(sizes: &[Size], clock: f64, budget: Duration) -> Vec<Growth> {
    let mut table: Vec<Growth> =
        CALLS.iter().map(|&(name, number)| Growth { name, number, times: Vec::new() }).collect();
    for &size in sizes {
        let list = cases(size, Fill::Full);
        for line in &mut table {
            let wanted = |case: &&Case| (case.name, case.number) == (line.name, line.number);
            line.times.push(measure(list.iter().find(wanted).expect("a case"), clock, budget));
        }
    }
    table
}
