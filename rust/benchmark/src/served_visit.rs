//! The work that one commit of *The server* does, the same for the server and for SQLite: where its records
//! stand, and the next visit of a crew.

use std::ops::Range;

use kophdaen::layout::REFERENCES;
use model::layout::{object_at, ROOT, SLOTS};

/// The way to a site: the root, four areas beside it on page 0, sixteen sites on pages of their own.
pub const AREAS: usize = 4;
pub const SITES: usize = 16;

/// The first of a record's data words, behind its references. Of a site it counts the visits.
pub const DATA: usize = REFERENCES;

/// Pages before those that readings go to.
const FIXED_PAGES: usize = 1 + SITES;

pub fn area(number: usize) -> u32 {
    ROOT + 1 + number as u32
}

pub fn site_page(site: usize) -> usize {
    1 + site
}

pub fn site(number: usize) -> u32 {
    object_at(site_page(number), 0)
}

/// Each reference on the way from the root to the sites: the record, its word, and what is named there.
pub fn ways() -> Vec<(u32, usize, u32)> {
    let areas = (0..AREAS).map(|i| (ROOT, i, area(i)));
    let sites = (0..SITES).map(|i| (area(i / REFERENCES), i % REFERENCES, site(i)));
    areas.chain(sites).collect()
}

/// A visit: the reading that is created, its data words, and how many the site has had with it.
#[derive(Clone, Copy)]
pub struct Visit {
    pub reading: u32,
    pub words: [u32; 3],
    pub count: u32,
}

/// One of so many crews. Each has a site, and its share of the pages for readings.
pub struct Crew {
    pub site: usize,
    pages: Range<usize>,
    /// The next slot, counted over all its pages, page after page and then from the start again.
    next: usize,
    /// The reading that the site names, and how many it has had.
    pub former: u32,
    pub count: u32,
}

impl Crew {
    pub fn new(site: usize, crews: usize, pages: usize) -> Crew {
        let share = (pages - FIXED_PAGES) / crews;
        let first = FIXED_PAGES + site * share;
        Crew { site, pages: first..first + share, next: 0, former: 0, count: 0 }
    }

    /// Goes on from what a site has that was visited before.
    pub fn resume(&mut self, former: u32, count: u32) {
        (self.former, self.count, self.next) = (former, count, count as usize);
    }

    /// What is read on the way.
    pub fn way(&self) -> [u32; 3] {
        [ROOT, area(self.site / REFERENCES), site(self.site)]
    }

    pub fn visit(&self) -> Visit {
        let count = self.count + 1;
        let slot = self.next % (SLOTS * self.pages.len());
        let reading = object_at(self.pages.start + slot / SLOTS, slot % SLOTS);
        Visit { reading, words: [count.wrapping_mul(37), count / 8, self.site as u32], count }
    }

    /// The slot is taken: by the visit, or by a record that no pass has freed yet.
    pub fn pass_slot(&mut self) {
        self.next += 1;
    }

    pub fn done(&mut self, visit: Visit) {
        (self.former, self.count) = (visit.reading, visit.count);
        self.pass_slot();
    }
}
