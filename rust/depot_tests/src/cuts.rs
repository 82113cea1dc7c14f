//! Cuts at random under load: a server on a disk in memory, some clients on threads of their own, and at a random
//! operation, in a start too, the power fails. What was told must be there, nothing half, and nothing that was not
//! sent.

use std::sync::{Arc, Mutex};
use std::time::Duration;

use depot::clients::Clients;
use depot::image::{self, Files, Found};
use depot::server::{Options as ServerOptions, Server};
use depot::trace::Trace;
use kophdaen::layout::{MOST_PAGES, MOST_RECORDS};

use crate::channel::Inside;
use crate::committed::{reached_in_pages, reopened};
use crate::crew::{Crew, Stopped};
use crate::desk::Desk;
use crate::faults::{as_read, Fault, Planted};
use crate::history::{History, Tracer};
use crate::options::Options;
use crate::platter::{SECTOR, TORN};
use crate::power::{shared, Power};
use crate::random::Random;
use crate::report::Row;
use crate::setup::{formatted, hasty};
use crate::yard::Yard;

#[derive(Default, Clone, Copy)]
pub struct Figures {
    pub rounds: u64,
    pub told: u64,
    pub refused: u64,
    /// Cuts before the server was ready.
    pub in_start: u64,
    pub operations: u64,
}

/// What a store's rounds have in common.
struct Setting {
    /// What the disk writes whole, and how long a sync takes.
    unit: usize,
    sync_time: Duration,
    /// How long a transaction may be without a line.
    idle: Duration,
    fault: Fault,
}

impl Setting {
    fn new(fault: Fault, random: &mut Random) -> Setting {
        let unit = if random.percent(70) && !fault.tears_places() { SECTOR } else { TORN };
        let micros = if random.percent(25) { random.between(20, 1000) as u64 } else { 0 };
        let idle = if random.percent(10) { Duration::from_millis(2) } else { Duration::from_secs(60) };
        Setting { unit, sync_time: Duration::from_micros(micros), idle, fault }
    }

    fn start(&self, power: &Arc<Power>, files: &Files, trace: Trace) -> Result<Arc<Server>, String> {
        let files = as_read(self.fault, files);
        let disk = Arc::new(Planted::new(shared(power), self.fault, &files));
        let options = ServerOptions { idle: self.idle, trace, ..hasty() };
        Server::start(disk, &files, Clients::all(), options, &mut |_| {}).map_err(|stop| stop.to_string())
    }
}

/// A store that goes through cut after cut.
pub struct Series {
    yard: Yard,
    crews: Vec<Crew>,
    files: Files,
    setting: Setting,
    random: Random,
    pub figures: Figures,
}

impl Series {
    /// A formatted store with every client's records in it.
    pub fn new(seed: u64, fault: Fault) -> Result<Series, String> {
        let mut random = Random::new(seed);
        let clients = if random.percent(10) { 20 } else { random.between(2, 6) };
        let (yard, setting) = (Yard::new(clients), Setting::new(fault, &mut random));
        let (pages, room) = match random.below(40) {
            0 => (MOST_PAGES, MOST_RECORDS),
            _ => (yard.pages(), [64, 100, 200, 400][random.below(4)]),
        };
        let power = Arc::new(Power::new(formatted(pages, room), setting.unit, Random::new(random.next())));
        let sound = Setting { fault: Fault::None, idle: Duration::from_secs(60), ..setting };
        let server = sound.start(&power, &power.left(), Trace::default())?;
        yard.plant(&mut Inside::connect(&server, "planter"))?;
        server.stop()?;
        let (crews, files) = (Crew::all(&yard), power.left());
        let setting = Setting { fault, ..setting };
        Ok(Series { yard, crews, files, setting, random, figures: Figures::default() })
    }

    /// From a start to a cut.
    pub fn round(&mut self) -> Result<(), String> {
        let power = Power::new(self.files.clone(), self.setting.unit, Random::new(self.random.next()));
        let power = Arc::new(power.slow(self.setting.sync_time));
        let most = [4, 30, 150][self.random.below(3)];
        power.cut_after(self.random.between(1, most) as u64);
        let stops = self.random.percent(10);
        let history = self.history()?;
        let trace = history.as_ref().map_or_else(Trace::default, Tracer::of);
        match self.setting.start(&power, &self.files, trace) {
            Ok(server) => self.load(&server, &power, stops)?,
            Err(_) if power.is_cut() => self.figures.in_start += 1,
            Err(why) => return Err(why),
        }
        let cut = power.is_cut();
        power.cut_now();
        self.files = power.left();
        self.figures.rounds += 1;
        self.figures.operations += power.operations();
        let found = self.verify(stops && !cut)?;
        history.map_or(Ok(()), |history| history.lock().expect("no call panics").check(&found))
    }

    /// In some rounds every call is made again on a second store: what is left must be a state of its.
    fn history(&mut self) -> Result<Option<Arc<Mutex<History>>>, String> {
        if self.random.percent(60) {
            return Ok(None);
        }
        let found = image::read(&as_read(self.setting.fault, &self.files)).map_err(|damage| damage.to_string())?;
        let mut history = History::new(&found)?;
        history.of_many = true;
        Ok(Some(Arc::new(Mutex::new(history))))
    }

    /// All clients and the desk at work until the power fails, or the server is stopped.
    fn load(&mut self, server: &Arc<Server>, power: &Arc<Power>, stops: bool) -> Result<(), String> {
        if self.random.percent(20) && self.setting.idle > Duration::from_secs(1) {
            self.verify_by(server, power)?;
        }
        let before = self.commits();
        let mut desk = Desk::new(&self.crews, stops, Random::new(self.random.next()));
        let seeds: Vec<u64> = self.crews.iter().map(|_| self.random.next()).collect();
        let (ends, desk) = std::thread::scope(|scope| {
            let crews = self.crews.iter_mut().zip(seeds);
            let work = |(crew, seed): (&mut Crew, u64)| {
                let mut channel = Inside::connect(server, "crew");
                crew.work(&mut channel, &mut Random::new(seed), &|| !power.is_cut())
            };
            let threads: Vec<_> = crews.map(|crew| scope.spawn(move || work(crew))).collect();
            let desk = desk.work(server);
            let ends = threads.into_iter().map(|thread| thread.join().unwrap_or_else(|_| panicked()));
            (ends.collect::<Vec<Result<(), Stopped>>>(), desk)
        });
        let after = self.commits();
        self.figures.told += after[0] - before[0];
        self.figures.refused += after[1] - before[1];
        let ends = ends.into_iter().map(|end| if stops { stopped(end) } else { end });
        ends.chain([desk]).try_for_each(|end| excuse(end, power))
    }

    fn commits(&self) -> [u64; 2] {
        [self.crews.iter().map(|crew| crew.commits).sum(), self.crews.iter().map(|crew| crew.refused).sum()]
    }

    /// Looks through a connection, as a client would.
    fn verify_by(&mut self, server: &Arc<Server>, power: &Power) -> Result<(), String> {
        let mut channel = Inside::connect(server, "desk");
        let verified = self.crews.iter_mut().try_for_each(|crew| crew.verify_by(&mut channel));
        verified.or_else(|what| if power.is_cut() { Ok(()) } else { Err(what) })
    }

    /// Looks at what the cut left; a stop leaves no records.
    fn verify(&mut self, stopped: bool) -> Result<Found, String> {
        let found = image::read(&as_read(self.setting.fault, &self.files)).map_err(|damage| damage.to_string())?;
        if stopped && !found.records.is_empty() {
            return Err("a stopped server leaves records in its log".to_string());
        }
        let objects = reached_in_pages(&reopened(&found.pages, &found.records, found.room)?)?;
        self.crews.iter_mut().try_for_each(|crew| {
            crew.verify(&mut |object| {
                objects.get(&object).copied().ok_or(format!("object {object} is not reached"))
            })
        })?;
        Ok(found)
    }

    pub fn describe(&self) -> String {
        let room = self.files.log.len() / image::PLACE_BYTES;
        let Setting { unit, sync_time, idle, .. } = self.setting;
        format!(
            "{} clients, L = {room}, units of {unit}, syncs of {sync_time:?}, idle {idle:?}",
            self.yard.clients
        )
    }
}

/// An end is right where the power failed.
fn excuse(end: Result<(), Stopped>, power: &Power) -> Result<(), String> {
    match end {
        Ok(()) => Ok(()),
        Err(Stopped::Ended(_)) if power.is_cut() => Ok(()),
        Err(Stopped::Ended(why) | Stopped::Wrong(why)) => Err(why),
    }
}

/// Where the server stops, connections end.
fn stopped(end: Result<(), Stopped>) -> Result<(), Stopped> {
    match end {
        Err(Stopped::Ended(_)) => Ok(()),
        other => other,
    }
}

fn panicked<T>() -> Result<T, Stopped> {
    Err(Stopped::Wrong("a client's thread panicked".to_string()))
}

/// Rounds of one store, before another is formatted.
pub const SERIES: u64 = 40;

/// Runs a store through so many cuts; what is wrong ends it.
pub fn series(seed: u64, fault: Fault, rounds: u64) -> (Figures, Result<(), String>) {
    let mut series = match Series::new(seed, fault) {
        Ok(series) => series,
        Err(what) => return (Figures::default(), Err(format!("formatting: {what}"))),
    };
    let result = (0..rounds).try_for_each(|_| series.round());
    let result = result.map_err(|what| format!("{}: {what}", series.describe()));
    (series.figures, result)
}

pub fn run(options: &Options) -> Row {
    let budget = options.budget(2000);
    let (mut random, mut all) = (Random::new(options.seed), Figures::default());
    let mut row = Row::new("cuts", "cuts");
    while budget.allows(all.rounds) && row.wrong.len() < 5 {
        let seed = random.next();
        let (figures, result) = series(seed, Fault::None, SERIES);
        all.add(figures);
        row.note(result.map_err(|what| format!("seed {seed}, round {}: {what}", figures.rounds)));
    }
    let Figures { rounds, told, refused, in_start, operations } = all;
    (row.rounds, row.told) = (rounds, told);
    row.more =
        format!("{in_start} cuts in a start, {operations} writes and syncs, {refused} transactions without room");
    row.end()
}

impl Figures {
    pub fn add(&mut self, other: Figures) {
        self.rounds += other.rounds;
        self.told += other.told;
        self.refused += other.refused;
        self.in_start += other.in_start;
        self.operations += other.operations;
    }
}
