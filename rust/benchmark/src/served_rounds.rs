//! Commits a second by the server and by SQLite, in turns.

use std::path::PathBuf;
use std::sync::Mutex;
use std::thread::sleep;

use crate::disk::sync_time;
use crate::served_depot::{Counts, Memory, Program};
use crate::served_load::{load, Load, TIME, WARMING};
use crate::served_others::others;
use crate::served_sqlite::{create, Connection, Wait};
use crate::served_tablet::{prepare, Manner, Tablet};
use crate::served_visit::Crew;
use crate::states::Size;

pub const CLIENTS: [usize; 3] = [1, 4, 16];
pub const ROUNDS: usize = 3;

/// Where the files are, and the server's program.
pub struct Place {
    pub directory: PathBuf,
    pub program: Program,
    pub size: Size,
}

impl Place {
    pub fn database(&self) -> PathBuf {
        self.directory.join("sqlite.db")
    }
}

#[derive(Clone, Copy, PartialEq)]
pub enum Who {
    Depot(Manner),
    /// SQLite's connections wait by its busy timeout.
    Busy,
    /// They wait by a mutex of the program's.
    Mutex,
}

/// What so many clients saw in all rounds.
pub struct Row {
    pub who: Who,
    pub clients: usize,
    /// By round: commits a second; just before it microseconds of a sync, and the part of the processors' time
    /// that others used.
    pub rates: Vec<f64>,
    pub syncs: Vec<f64>,
    pub others: Vec<f64>,
    /// Commits a second of the client that made the fewest, in its worst round.
    pub fewest: f64,
    /// Microseconds of each visit, in ascending order.
    pub times: Vec<f64>,
    pub refused: usize,
    /// Of the server, in the middle of the last round and at its end.
    pub memory: Memory,
    pub counts: Counts,
}

impl Row {
    fn new(clients: usize, who: Who) -> Row {
        let [rates, syncs, others, times] = [(); 4].map(|()| Vec::new());
        let (memory, counts) = (Memory::default(), Counts::default());
        Row { who, clients, rates, syncs, others, fewest: f64::MAX, times, refused: 0, memory, counts }
    }

    pub fn best(&self) -> f64 {
        self.rates.iter().copied().fold(0.0, f64::max)
    }

    pub fn median(&self) -> f64 {
        median(&self.rates)
    }

    /// One round more.
    fn round(&mut self, place: &Place) {
        self.others.push(others());
        self.syncs.push(sync_time(&place.directory));
        let round = match self.who {
            Who::Depot(manner) => self.depot(place, manner),
            Who::Busy => sqlite(place, self.clients, Wait::Busy),
            Who::Mutex => sqlite(place, self.clients, Wait::Mutex(&Mutex::new(()))),
        };
        self.rates.push(round.rate);
        self.fewest = self.fewest.min(round.fewest);
        self.times.extend(round.times);
        self.times.sort_by(f64::total_cmp);
        self.refused += round.refused;
    }

    fn depot(&mut self, place: &Place, manner: Manner) -> Load {
        let pages = place.size.pages;
        place.program.format(place.size);
        let depot = place.program.serve();
        prepare(&depot.address);
        let tablet = |site| Tablet::new(&depot.address, Crew::new(site, self.clients, pages), pages, manner);
        let half = || {
            sleep(WARMING + TIME / 2);
            depot.memory()
        };
        let (round, memory) = load(self.clients, tablet, half);
        (self.memory, self.counts) = (memory, depot.counts());
        depot.stop();
        round
    }
}

fn sqlite(place: &Place, clients: usize, wait: Wait) -> Load {
    let file = place.database();
    create(&file);
    load(clients, |site| Connection::new(&file, Crew::new(site, clients, place.size.pages), wait), || ()).0
}

/// The server and SQLite by turns, as many rounds of each.
pub fn rounds(place: &Place) -> Vec<Row> {
    let whos = [Who::Depot(Manner::Together), Who::Busy, Who::Mutex];
    // One connection waits for none.
    let some = |&(clients, who): &(usize, Who)| clients > 1 || who != Who::Mutex;
    let pairs = CLIENTS.into_iter().flat_map(|clients| whos.map(|who| (clients, who))).filter(some);
    let mut rows: Vec<Row> = pairs.map(|(clients, who)| Row::new(clients, who)).collect();
    for _ in 0..ROUNDS {
        rows.iter_mut().for_each(|row| row.round(place));
    }
    rows
}

/// The server alone, its lines sent in each manner: one round for each number of clients, one right behind another.
pub fn manners(place: &Place) -> Vec<Row> {
    let all = [Manner::Together, Manner::Ahead, Manner::Images, Manner::Singly];
    let pairs = CLIENTS.into_iter().flat_map(|clients| all.map(|manner| (clients, manner)));
    let mut rows: Vec<Row> = pairs.map(|(clients, manner)| Row::new(clients, Who::Depot(manner))).collect();
    rows.iter_mut().for_each(|row| row.round(place));
    rows
}

pub fn median(list: &[f64]) -> f64 {
    let mut list = list.to_vec();
    list.sort_by(f64::total_cmp);
    list.get(list.len() / 2).copied().unwrap_or(0.0)
}
