//! A depot's records, made by calls alone: dispensers with valves and meters, and the readings of these.

use kophdaen::{Store, OBJECT_WORDS};
use model::layout::*;

use crate::random::Random;
use crate::states::{accept, flush_all, force_all, formatted, received, shuffle, Size, CLIENT};
use crate::workload::free_in;

/// What a record is, in its last word. A site leads to four sites or dispensers, a dispenser to two valves
/// and a meter, a meter to its last reading, a reading to the one before.
#[derive(Clone, Copy)]
enum Kind {
    Site = 1,
    Dispenser,
    Valve,
    Meter,
    Reading,
}

/// The data words of every record: a serial number or, of a reading, the litres; the day; the crew; the kind.
const NUMBER: usize = 4;
/// A dispenser's reference to its meter.
const METER: usize = 2;
/// Of a meter and of a reading.
const LAST: usize = 0;

/// Sites in a tree of four each, the root on top; each of the 64 lowest has four dispensers.
const SITES: usize = 85;
const DISPENSERS: usize = 256;
const ROUNDS: usize = 8;
/// Jobs to a day.
const JOBS: usize = 32;
/// Log room for a job, and for a pass behind it, which takes a record for each page at most.
const ROOM: usize = 512;

/// One job at a time.
const T: u32 = 0;

struct Yard {
    store: Store,
    random: Random,
    jobs: usize,
    crew: u32,
}

/// The stored pages after all are installed and some rounds of readings, in which a valve in eight visits is
/// replaced; a pass after each round frees the old ones. The log is empty.
pub fn yard(size: Size) -> Vec<u32> {
    let mut yard = Yard { store: formatted(size), random: Random::new(5), jobs: 0, crew: 1 };
    yard.job(Yard::lay_out);
    (0..DISPENSERS).for_each(|place| yard.job(|yard| yard.install(place)));
    for _ in 0..ROUNDS {
        let mut places: Vec<u32> = (0..DISPENSERS as u32).collect();
        shuffle(&mut places, &mut yard.random);
        places.into_iter().for_each(|place| yard.job(|yard| yard.visit(place as usize)));
        yard.collect();
    }
    yard.settle();
    yard.store.stored
}

/// The words that lead to a dispenser, from the root on.
fn way(place: usize) -> [usize; 4] {
    [place >> 6 & 3, place >> 4 & 3, place >> 2 & 3, place & 3]
}

impl Yard {
    /// A transaction; what it locked for writing is flushed.
    fn job(&mut self, work: impl FnOnce(&mut Yard)) {
        if received(&self.store) + ROOM > self.store.log.len() / RECORD_WORDS {
            self.settle();
        }
        self.jobs += 1;
        self.crew = 1 + self.random.below(8) as u32;
        accept(self.store.begin(T, CLIENT));
        work(self);
        flush_all(&mut self.store, T);
        accept(self.store.commit(T));
    }

    /// Stores all and empties the log.
    fn settle(&mut self) {
        force_all(&mut self.store);
        let pages = self.store.stored.len() / PAGE_WORDS;
        (0..pages as u32).for_each(|page| accept(self.store.store_page(page)));
        accept(self.store.empty_log());
    }

    fn collect(&mut self) {
        accept(self.store.start_pass());
        while self.store.work[PHASE] != NO_PASS {
            accept(self.store.pass_step());
        }
    }

    fn lay_out(&mut self) {
        let mut sites = vec![ROOT];
        for i in 1..SITES {
            let site = self.add(Kind::Site, i as u32);
            self.set(sites[(i - 1) / 4], (i - 1) % 4, site);
            sites.push(site);
        }
    }

    fn install(&mut self, place: usize) {
        let way = way(place);
        let site = self.follow(&way[..3]);
        let dispenser = self.add_part(Kind::Dispenser);
        self.set(site, way[3], dispenser);
        for (word, kind) in [Kind::Valve, Kind::Valve, Kind::Meter].into_iter().enumerate() {
            let part = self.add_part(kind);
            self.set(dispenser, word, part);
        }
    }

    fn visit(&mut self, place: usize) {
        let dispenser = self.follow(&way(place));
        let meter = self.read(dispenser)[METER];
        let last = self.read(meter)[LAST];
        let before = if last == 0 { 0 } else { self.read(last)[NUMBER] };
        let litres = before + 200 + self.random.below(1000) as u32;
        let reading = self.add(Kind::Reading, litres);
        self.set(reading, LAST, last);
        self.set(meter, LAST, reading);
        if self.random.below(8) == 0 {
            let valve = self.add_part(Kind::Valve);
            let word = self.random.below(2);
            self.set(dispenser, word, valve);
        }
    }

    /// From the root along these words; what is read, the transaction knows.
    fn follow(&mut self, words: &[usize]) -> u32 {
        words.iter().fold(ROOT, |at, &word| self.read(at)[word])
    }

    fn read(&mut self, object: u32) -> [u32; OBJECT_WORDS] {
        let mut words = [0; OBJECT_WORDS];
        accept(self.store.lock_write(T, page_of(object) as u32));
        accept(self.store.read(&mut words, T, object));
        words
    }

    fn add_part(&mut self, kind: Kind) -> u32 {
        let serial = 50_000 + self.random.below(10_000) as u32;
        self.add(kind, serial)
    }

    /// A new record in the first free slot.
    fn add(&mut self, kind: Kind, number: u32) -> u32 {
        let pages = self.store.stored.len() / PAGE_WORDS;
        let object = (0..pages).flat_map(|page| free_in(&self.store.received, page)).next().expect("a free slot");
        accept(self.store.lock_write(T, page_of(object) as u32));
        accept(self.store.create(T, object));
        let day = 18_000 + (self.jobs / JOBS) as u32;
        for (field, word) in (NUMBER..).zip([number, day, self.crew, kind as u32]) {
            self.set(object, field, word);
        }
        object
    }

    fn set(&mut self, object: u32, field: usize, word: u32) {
        accept(self.store.lock_write(T, page_of(object) as u32));
        accept(self.store.set_word(T, object, field as u32, word));
    }
}
