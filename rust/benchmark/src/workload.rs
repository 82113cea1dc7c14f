//! The workload: transactions of three creates and six sets under a directory, with a pass beside them.

use std::time::{Duration, Instant};

use calls::{Call, Lent, Server};
use kophdaen::{Answer, Store, OBJECT_WORDS};
use model::layout::*;

use crate::disk::{Disk, Sync};
use crate::random::Random;
use crate::states::{accept, formatted, Size, CLIENT};

/// The directory: a tree of objects with four references each, the root on top. A reference of a lowest
/// one leads to a chain of three objects.
#[derive(Clone, Copy)]
pub struct Plan {
    pub size: Size,
    /// Levels below the root.
    pub levels: u32,
    /// Pass steps to a transaction; none: no collector.
    pub steps: usize,
}

impl Plan {
    pub fn directories(&self) -> usize {
        (0..=self.levels).map(|level| 4usize.pow(level)).sum()
    }

    pub fn lowest(&self) -> usize {
        4usize.pow(self.levels)
    }

    /// Objects that the root reaches once every lowest reference has its chain.
    pub fn live(&self) -> usize {
        self.directories() + 3 * 4 * self.lowest()
    }

    /// Transactions that are timed together: they fill the log at least once.
    pub fn slice(&self) -> usize {
        (self.size.records / RECORDS).max(300)
    }

    /// How many transactions a pass takes.
    pub fn pass_length(&self) -> usize {
        (self.live() + 1 + self.size.pages) / self.steps.max(1)
    }
}

/// Records of a transaction: begin, three creates, six sets, commit.
const RECORDS: usize = 11;

/// What calls are for; the time of each is kept where asked.
#[derive(Clone, Copy, PartialEq)]
pub enum Use {
    Reading,
    Changing,
    Ending,
    Forcing,
    Storing,
    Collecting,
}

pub const USES: [(Use, &str); 6] = [
    (Use::Reading, "locks and reads"),
    (Use::Changing, "begin, creates, sets"),
    (Use::Ending, "flushes, commit"),
    (Use::Forcing, "forces"),
    (Use::Storing, "storing pages, emptying the log"),
    (Use::Collecting, "the pass: starts and steps"),
];

/// A server with its one client.
pub struct Depot<S: Server> {
    side: S,
    pub plan: Plan,
    random: Random,
    /// Transactions run.
    run: usize,
    /// Pass steps made because the client found no free slots.
    pub waits: usize,
    /// The page that the client looks for free slots in first.
    page: usize,
    /// Pages whose copy may be unlike the stored page.
    dirty: Vec<bool>,
    disk: Option<Disk>,
    /// What reading the clock takes, in seconds, where calls are timed.
    timed: Option<f64>,
    /// Seconds by use, and the calls that were timed.
    times: [f64; 6],
    calls: usize,
}

/// Where the time went: shares of it by use; the rest is the client's and the disk's.
pub type Shares = [f64; 6];

impl<S: Server> Depot<S> {
    pub fn new(plan: Plan, disk: Option<Disk>) -> Depot<S> {
        // SAFETY: calls lead to the directory's words, and nothing but calls is done to them here.
        let side = unsafe { S::over(directory(plan).into_areas()) };
        let dirty = vec![false; plan.size.pages];
        Depot {
            side,
            plan,
            random: Random::new(4),
            run: 0,
            waits: 0,
            page: 0,
            dirty,
            disk,
            timed: None,
            times: [0.0; 6],
            calls: 0,
        }
    }

    /// At least so many transactions, and so much time; at most three times as long. Answers how many, and the
    /// seconds taken.
    pub fn run_for(&mut self, least: usize, time: Duration) -> (usize, f64) {
        let before = self.run;
        let started = Instant::now();
        let goes = |run: usize, spent: Duration| spent < time || run < least && spent < 3 * time;
        while goes(self.run - before, started.elapsed()) && self.has_room() {
            self.transaction();
        }
        (self.run - before, started.elapsed().as_secs_f64())
    }

    /// The same, with every call timed: the clock, which takes so many nanoseconds, is read twice for each.
    pub fn run_timed(&mut self, least: usize, time: Duration, clock: f64) -> Shares {
        let clock = clock / 1e9;
        (self.times, self.calls, self.timed) = ([0.0; 6], 0, Some(clock));
        let (_, seconds) = self.run_for(least, time);
        self.timed = None;
        let all = seconds - 2.0 * clock * self.calls as f64;
        self.times.map(|time| time / all)
    }

    /// Without a collector the store fills up.
    fn has_room(&self) -> bool {
        self.plan.steps > 0 || self.plan.directories() + 3 * (self.run + 1) <= SLOTS * self.plan.size.pages
    }

    fn call(&mut self, used: Use, call: Call) -> u32 {
        self.call_with(used, call, &[])
    }

    fn call_with(&mut self, used: Use, call: Call, image: &[u32]) -> u32 {
        let started = self.timed.map(|clock| (Instant::now(), clock));
        let lent = Lent { buffer: &mut [0; OBJECT_WORDS], image };
        let answer = Answer::from_code(self.side.perform(call, lent));
        accept(answer);
        if let Some((started, clock)) = started {
            self.times[used as usize] += started.elapsed().as_secs_f64() - clock;
            self.calls += 1;
        }
        answer.value
    }

    pub fn stored(&self) -> &[u32] {
        self.side.area(Area::Stored)
    }

    fn word(&self, object: u32, field: usize) -> u32 {
        self.side.area(Area::Received)[word_at(object, field)]
    }

    pub fn transaction(&mut self) {
        let t = (self.run % 16) as u32;
        self.drain();
        self.call(Use::Changing, Call::Begin(t, CLIENT));
        let lowest = self.descend(t);
        self.pass_step();
        let pages = self.change(t, lowest);
        self.pass_step();
        for page in pages {
            let image: [u32; PAGE_WORDS] =
                self.side.area(Area::Received)[page_range(page)].try_into().expect("a page");
            self.call_with(Use::Ending, Call::Flush(t, page as u32), &image);
            self.dirty[page] = true;
        }
        self.call(Use::Ending, Call::Commit(t));
        (2..self.plan.steps).for_each(|_| self.pass_step());
        self.force_all();
        self.run += 1;
    }

    /// Reads down to a lowest directory object, by chance, and locks its page for writing.
    fn descend(&mut self, t: u32) -> u32 {
        let mut at = ROOT;
        for _ in 0..self.plan.levels {
            self.call(Use::Reading, Call::LockRead(t, page_of(at) as u32));
            self.call(Use::Reading, Call::Read(t, at));
            let field = self.random.below(4);
            at = self.word(at, field);
        }
        self.call(Use::Reading, Call::LockWrite(t, page_of(at) as u32));
        self.call(Use::Reading, Call::Read(t, at));
        at
    }

    /// Three new objects in a chain, with data, take the place of an old chain, which is garbage then.
    /// Answers the pages written.
    fn change(&mut self, t: u32, lowest: u32) -> Vec<usize> {
        let objects = self.free_objects();
        let mut pages: Vec<usize> = objects.iter().map(|&object| page_of(object)).collect();
        pages.dedup();
        for &page in &pages {
            self.call(Use::Reading, Call::LockWrite(t, page as u32));
        }
        for object in objects {
            self.call(Use::Changing, Call::Create(t, object));
        }
        let [a, b, c] = objects;
        let field = self.random.below(4) as u32;
        let data = self.random.word();
        for (object, field, word) in
            [(a, 0, b), (b, 0, c), (a, 4, data), (b, 4, data), (c, 4, data), (lowest, field, a)]
        {
            self.call(Use::Changing, Call::SetWord(t, object, field, word));
        }
        if !pages.contains(&page_of(lowest)) {
            pages.push(page_of(lowest));
        }
        pages
    }

    /// Three free slots, of one page where there is such a page at hand; where there are none the
    /// client waits for the collector.
    fn free_objects(&mut self) -> [u32; 3] {
        loop {
            let pages = self.plan.size.pages;
            let received = self.side.area(Area::Received);
            let free = (0..pages).map(|i| (self.page + i) % pages).flat_map(|page| free_in(received, page));
            if let Ok(objects) = free.take(3).collect::<Vec<u32>>().try_into() {
                self.page = (self.page + 1) % pages;
                return objects;
            }
            self.waits += 1;
            self.pass_step();
        }
    }

    fn force_all(&mut self) {
        let [from, to] = [STABLE_COUNT, RECEIVED_COUNT].map(|count| self.side.area(Area::Counts)[count]);
        for record in from..to {
            self.call(Use::Forcing, Call::Force);
            if let Some(disk) = &mut self.disk {
                disk.append(&self.side.area(Area::Log)[RECORD_WORDS * record as usize..][..RECORD_WORDS]);
                if disk.sync == Sync::EachForce || record + 1 == to {
                    disk.sync_log();
                }
            }
        }
    }

    /// One step of the pass, or the start of the next one.
    fn pass_step(&mut self) {
        if self.plan.steps == 0 {
            return;
        }
        let [phase, page] = [PHASE, PASS_PAGE].map(|word| self.side.area(Area::Work)[word]);
        if phase == NO_PASS {
            self.call(Use::Collecting, Call::StartPass);
            return;
        }
        let value = self.call(Use::Collecting, Call::PassStep);
        if phase == SWEEPING {
            self.dirty[page as usize] |= value > 0;
        }
    }

    /// Where the log has no room for a transaction and the steps beside it, it is emptied.
    fn drain(&mut self) {
        // A transaction's records, those reserved for its abort, and sweeps.
        let needed = 2 * RECORDS + self.plan.steps;
        if self.side.area(Area::Counts)[RECEIVED_COUNT] as usize + needed > self.plan.size.records {
            self.settle();
        }
    }

    /// Stores the changed pages and empties the log.
    pub fn settle(&mut self) {
        self.force_all();
        for page in 0..self.plan.size.pages {
            if self.dirty[page] {
                self.call(Use::Storing, Call::StorePage(page as u32));
                self.dirty[page] = false;
                if let Some(disk) = &mut self.disk {
                    disk.write_page(page, &self.side.area(Area::Stored)[page_range(page)]);
                }
            }
        }
        self.call(Use::Storing, Call::EmptyLog);
        if let Some(disk) = &mut self.disk {
            disk.empty_log();
        }
    }
}

pub fn free_in(received: &[u32], page: usize) -> impl Iterator<Item = u32> {
    let map = received[map_at(page)];
    (0..SLOTS).filter(move |slot| map & 1 << slot == 0).map(move |slot| object_at(page, slot))
}

/// A formatted store with the directory, without chains. Written straight into the page areas.
fn directory(plan: Plan) -> Store {
    let mut store = formatted(plan.size);
    for i in 0..plan.directories() {
        let object = i as u32 + 1;
        store.stored[map_at(page_of(object))] |= 1 << slot_of(object);
        for field in 0..4 {
            let child = 4 * i + 1 + field;
            if child < plan.directories() {
                store.stored[word_at(object, field)] = child as u32 + 1;
            }
        }
    }
    store.copies.clone_from(&store.stored);
    store.received.clone_from(&store.stored);
    store
}
