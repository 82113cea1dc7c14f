//! The pure layer and the journal against every state that a cut may leave: at each write and sync, before and
//! after it, what the files hold must be a state that stood between two calls, and have every commit that was
//! told.

use std::sync::{Arc, Mutex};

use depot::clients::Clients;
use depot::image::{self, Files, Found};
use depot::server::{Options as ServerOptions, Server};
use kophdaen::layout::ROOT;
use kophdaen::OBJECT_WORDS;

use crate::books::{Books, Watcher};
use crate::channel::{Channel, Inside};
use crate::committed::Objects;
use crate::crew::Stopped;
use crate::faults::{as_read, Fault, Planted};
use crate::history::{History, Tracer};
use crate::options::Options;
use crate::platter::{SECTOR, TORN};
use crate::power::{shared, Power};
use crate::random::Random;
use crate::report::Row;
use crate::setup::{formatted, hasty};
use crate::states::Tried;
use crate::walk::{self, Outcome};

#[derive(Default, Clone, Copy)]
pub struct Figures {
    pub tried: Tried,
    pub told: u64,
    pub starts: u64,
    pub calls: u64,
}

impl Figures {
    pub fn add(&mut self, other: Figures) {
        self.tried.add(other.tried);
        self.told += other.told;
        self.starts += other.starts;
        self.calls += other.calls;
    }
}

/// A server's life on such a disk.
struct Life {
    pages: usize,
    fault: Fault,
    history: Arc<Mutex<History>>,
    books: Arc<Mutex<Books>>,
    power: Arc<Power>,
    random: Random,
}

impl Life {
    fn new(files: &Files, state: Objects, unit: usize, fault: Fault, mut random: Random) -> Result<Life, String> {
        let found = image::read(&as_read(fault, files)).map_err(|damage| damage.to_string())?;
        let history = Arc::new(Mutex::new(History::new(&found)?));
        let books = Arc::new(Mutex::new(Books::new(state, &history)));
        let watcher = Watcher { books: books.clone(), fault, random: Random::new(random.next()) };
        let power = Power::new(files.clone(), unit, Random::new(random.next())).watched(Box::new(watcher));
        let pages = pages_of(&found);
        Ok(Life { pages, fault, history, books, power: Arc::new(power), random })
    }

    fn start(&self, files: &Files) -> Result<Arc<Server>, String> {
        let files = as_read(self.fault, files);
        let disk = Arc::new(Planted::new(shared(&self.power), self.fault, &files));
        let options = ServerOptions { trace: Tracer::of(&self.history), ..hasty() };
        Server::start(disk, &files, Clients::all(), options, &mut |_| {}).map_err(|stop| stop.to_string())
    }

    /// Runs to its end: how many commits were told.
    fn run(&mut self, files: &Files) -> Result<u64, String> {
        if self.random.percent(80) {
            self.power.cut_after(self.random.between(1, 40) as u64);
        }
        let told = match self.start(files) {
            Ok(server) => self.serve(server)?,
            Err(why) => self.excuse(why).map(|()| 0)?,
        };
        match self.power.wrong() {
            Some(what) => Err(what),
            None => Ok(told),
        }
    }

    /// An end is right where the power failed.
    fn excuse(&self, why: String) -> Result<(), String> {
        match (self.power.wrong(), self.power.is_cut()) {
            (Some(what), _) => Err(what),
            (None, true) => Ok(()),
            (None, false) => Err(why),
        }
    }

    fn serve(&mut self, server: Arc<Server>) -> Result<u64, String> {
        let mut channel = Inside::connect(&server, "");
        let most = self.random.between(1, 12);
        let mut told = 0;
        let mut ended = None;
        while told < most as u64 && ended.is_none() {
            match self.transact(&mut channel) {
                Ok(true) => told += 1,
                Ok(false) => {}
                Err(Stopped::Wrong(what)) => return Err(what),
                Err(Stopped::Ended(why)) => ended = Some(why),
            }
        }
        if let Some(why) = ended {
            return self.excuse(why).map(|()| told);
        }
        if self.random.percent(50) {
            server.stop().or_else(|why| self.excuse(why))?;
        }
        self.power.cut_now();
        Ok(told)
    }

    /// One transaction, beside it now and then one that only reads; whether a commit was told.
    fn transact(&mut self, channel: &mut dyn Channel) -> Result<bool, Stopped> {
        let committed = self.books.lock().expect("no look panics").ledger.last().clone();
        if self.random.percent(10) {
            let page = self.random.below(self.pages);
            for line in ["begin,1".to_string(), format!("lockr,1,{page}"), "abort,2".to_string()] {
                channel.ask(&line).map_err(Stopped::Ended)?;
            }
        }
        let outcome = walk::transaction(0, self.pages, &committed, channel, &mut self.random)?;
        if self.random.percent(30) {
            channel.ask("abort,1").map_err(Stopped::Ended)?;
        }
        match outcome {
            Outcome::Ready(state) => self.commit(state, channel),
            Outcome::Dropped => Ok(false),
        }
    }

    fn commit(&mut self, state: Objects, channel: &mut dyn Channel) -> Result<bool, Stopped> {
        self.books.lock().expect("no look panics").ledger.send(state);
        let reply = channel.ask("commit,0").map_err(Stopped::Ended)?;
        let mut books = self.books.lock().expect("no look panics");
        match reply.answer {
            0 => {
                books.ledger.tell();
                self.history.lock().expect("no call panics").tell();
            }
            crate::crew::ABORTED => books.ledger.refuse(),
            _ => return Err(Stopped::Wrong(format!("commit: {}", reply.text()))),
        }
        Ok(reply.answer == 0)
    }
}

fn pages_of(found: &Found) -> usize {
    found.pages.len() / kophdaen::PAGE_WORDS
}

/// A store from its formatting on, through some lives: each starts from what the cut before has left.
pub fn round(seed: u64, fault: Fault) -> (Figures, Result<(), String>) {
    let mut random = Random::new(seed);
    let (pages, room) = (random.between(1, 2), random.between(4, 40));
    let unit = match random.percent(60) {
        _ if fault.tears_places() => TORN,
        true => SECTOR,
        false => 1 << random.between(3, 6),
    };
    let mut left = (formatted(pages, room), Objects::from([(ROOT, [0; OBJECT_WORDS])]));
    let mut figures = Figures::default();
    for _ in 0..random.between(2, 6) {
        let lived = live(left, unit, fault, Random::new(random.next()), &mut figures);
        left = match lived {
            Ok(left) => left,
            Err(what) => return (figures, Err(format!("P = {pages}, L = {room}, units of {unit}: {what}"))),
        };
    }
    (figures, Ok(()))
}

/// One life; what it leaves, and the committed state in that.
fn live(
    (files, state): (Files, Objects),
    unit: usize,
    fault: Fault,
    random: Random,
    figures: &mut Figures,
) -> Result<(Files, Objects), String> {
    let mut life = Life::new(&files, state, unit, fault, random)?;
    let told = life.run(&files);
    life.power.cut_now();
    let mut books = life.books.lock().expect("no look panics");
    let (tried, calls) = (books.tried, life.history.lock().expect("no call panics").calls);
    figures.add(Figures { tried, told: *told.as_ref().unwrap_or(&0), starts: 1, calls });
    told?;
    let left = life.power.left();
    let commits = books.judge(&as_read(fault, &left))?;
    Ok((left, books.ledger.state(commits).clone()))
}

pub fn run(options: &Options) -> Row {
    let budget = options.budget(300);
    let (mut random, mut figures) = (Random::new(options.seed), Figures::default());
    let mut row = Row::new("disk", "stores");
    while budget.allows(row.rounds) && row.wrong.len() < 5 {
        let seed = random.next();
        let (of_round, result) = round(seed, Fault::None);
        figures.add(of_round);
        row.rounds += 1;
        row.note(result.map_err(|what| format!("seed {seed}: {what}")));
    }
    let Figures { tried, told, starts, calls } = figures;
    (row.told, row.states) = (told, tried.states);
    row.more = format!(
        "{starts} starts, {calls} calls, every state at {} of {} moments",
        tried.exhaustive, tried.moments
    );
    row.end()
}
