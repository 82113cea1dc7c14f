//! The server: the engine behind its lock, the journal, and what starts and ends them.

use std::sync::atomic::{AtomicUsize, Ordering};
use std::sync::{Arc, Condvar, Mutex, MutexGuard};
use std::time::{Duration, Instant};

use kophdaen::layout::STABLE_COUNT;
use kophdaen::{Held, PAGE_WORDS};

use crate::clients::Clients;
use crate::disk::Disk;
use crate::engine::{refusal, Crew, Engine, Tried, Waiting, BUSY};
use crate::housekeeper;
use crate::image::{self, Files};
use crate::journal::Journal;
use crate::rights::Rights;
use crate::session::{End, Session};
use crate::status::{Stop, DAMAGED};
use crate::trace::Trace;
use crate::view::{Samples, View};

pub struct Options {
    /// Transactions of one connection.
    pub per_connection: usize,
    /// How long a begin waits in line.
    pub begin_wait: Duration,
    /// How long a transaction may be without a line.
    pub idle: Duration,
    /// How long a begin waits for the log to be emptied before those that still run are aborted.
    pub drain_grace: Duration,
    /// Over how many commits a pass is spread; 0: it goes on in idle moments alone.
    pub pass_commits: u32,
    /// How long those that run may go on once the server is to stop.
    pub stop_grace: Duration,
    /// Where each call is written down.
    pub trace: Trace,
}

impl Default for Options {
    fn default() -> Options {
        Options {
            per_connection: 4,
            begin_wait: Duration::from_secs(5),
            idle: Duration::from_secs(60),
            drain_grace: Duration::from_secs(2),
            pass_commits: 256,
            stop_grace: Duration::from_secs(10),
            trace: Trace::default(),
        }
    }
}

/// How the server ended.
pub type Over = Result<(), String>;

pub struct Server {
    engine: Mutex<Engine>,
    /// Something ended that a begin may wait for.
    freed: Arc<Condvar>,
    pub(crate) journal: Arc<Journal>,
    pub options: Options,
    pub(crate) started: Instant,
    pub(crate) samples: Mutex<Samples>,
    connections: AtomicUsize,
    tickets: AtomicUsize,
    over: Mutex<Option<Over>>,
    is_over: Condvar,
}

impl Server {
    /// Starts from these files: reopens the store, and makes a snapshot of it, with a new epoch, before anything else.
    pub fn start(
        disk: Arc<dyn Disk>,
        files: &Files,
        clients: Clients,
        mut options: Options,
        progress: &mut dyn FnMut(&str),
    ) -> Result<Arc<Server>, Stop> {
        let found = image::read(files).map_err(|damage| Stop::new(DAMAGED, damage.to_string()))?;
        let held = open(&found, progress)?;
        let trace = std::mem::take(&mut options.trace);
        let journal = Arc::new(Journal::new(disk, &found));
        let freed = Arc::new(Condvar::new());
        let rights = Rights::new(clients.clone(), found.pages.len() / PAGE_WORDS);
        let mut engine = Engine::new(held, journal.clone(), freed.clone(), rights, options.pass_commits, trace);
        engine.change_rights(clients);
        progress("writing the snapshot");
        let first = journal.snapshot(engine.held.stored().to_vec());
        journal.wait(first).map_err(|_| Stop::failed(journal.failed().unwrap_or_default()))?;
        let server = Arc::new(Server {
            engine: Mutex::new(engine),
            freed,
            journal,
            options,
            started: Instant::now(),
            samples: Mutex::default(),
            connections: AtomicUsize::new(0),
            tickets: AtomicUsize::new(0),
            over: Mutex::new(None),
            is_over: Condvar::new(),
        });
        housekeeper::start(&server);
        Ok(server)
    }

    /// A connection of this client.
    pub fn connect(self: &Arc<Server>, client: u32, name: &str) -> Session {
        self.connections.fetch_add(1, Ordering::Relaxed);
        Session::new(self.clone(), client, name)
    }

    pub(crate) fn left(&self) {
        self.connections.fetch_sub(1, Ordering::Relaxed);
    }

    pub fn connections(&self) -> usize {
        self.connections.load(Ordering::Relaxed)
    }

    /// The engine, unless the server has ended. One that is broken makes no call more.
    pub(crate) fn engine(&self) -> Result<MutexGuard<'_, Engine>, End> {
        let engine = self.engine.lock().expect("no call panics");
        if let Some(text) = &engine.broken {
            self.end(Err(text.clone()));
        }
        match self.over.lock().expect("set at once").is_some() {
            true => Err(End::Server),
            false => Ok(engine),
        }
    }

    /// Waits until this work is on the disk.
    pub(crate) fn wait_for(&self, work: u64) -> Result<(), End> {
        self.journal.wait(work).map_err(|_| {
            self.end(Err(self.journal.failed().unwrap_or_default()));
            End::Server
        })
    }

    pub(crate) fn end(&self, how: Over) {
        self.over.lock().expect("set at once").get_or_insert(how);
        self.is_over.notify_all();
        self.freed.notify_all();
    }

    /// Waits in line for a slot and log room.
    pub(crate) fn wait_in_line(&self, crew: &Arc<Crew>, own: u32) -> Tried {
        let ticket = self.tickets.fetch_add(1, Ordering::Relaxed) as u64;
        let until = Instant::now() + self.options.begin_wait;
        if let Ok(mut engine) = self.engine() {
            engine.line.push_back(Waiting { ticket, client: crew.client, since: Instant::now() });
        }
        let tried = loop {
            match self.try_in_line(crew, own, ticket, until) {
                Tried::Wait => {}
                tried => break tried,
            }
        };
        if let Ok(mut engine) = self.engine() {
            engine.line.retain(|waiting| waiting.ticket != ticket);
            self.freed.notify_all();
        }
        tried
    }

    fn try_in_line(&self, crew: &Arc<Crew>, own: u32, ticket: u64, until: Instant) -> Tried {
        const LOOK: Duration = Duration::from_millis(100);
        let Ok(mut engine) = self.engine() else {
            return Tried::Answered(refusal(BUSY));
        };
        engine.checkpoint_if_due();
        match engine.try_begin(crew, own, Some(ticket)) {
            Tried::Wait if Instant::now() >= until => Tried::Answered(refusal(BUSY)),
            Tried::Wait if engine.draining() && !engine.active() => {
                drop(engine);
                self.journal.write_waiting(); // the last snapshot is still on its way
                Tried::Wait
            }
            Tried::Wait => {
                let left = until.saturating_duration_since(Instant::now());
                let _ = self.freed.wait_timeout(engine, left.min(LOOK)).expect("no call panics");
                Tried::Wait
            }
            tried => tried,
        }
    }

    /// Lets transactions run out, aborts what is left, empties the log, and ends.
    pub fn stop(&self) -> Over {
        let until = Instant::now() + self.options.stop_grace;
        if let Ok(mut engine) = self.engine() {
            engine.stopping = true;
        }
        while Instant::now() < until && self.engine().is_ok_and(|engine| engine.active()) {
            std::thread::sleep(Duration::from_millis(10));
        }
        self.journal.write_waiting();
        if let Ok(mut engine) = self.engine() {
            engine.abort_all(|_| true);
        }
        self.journal.write_waiting();
        let last = self.engine().map(|mut engine| {
            if engine.received() > 0 {
                engine.checkpoint();
            }
            engine.trace.flush();
            engine.handed
        });
        // Asked once more, as that checkpoint may have found something broken.
        if last.is_ok_and(|last| self.wait_for(last).is_ok()) && self.engine().is_ok() {
            self.end(Ok(()));
        }
        self.wait_over()
    }

    pub fn stopped(&self) -> bool {
        self.over.lock().expect("set at once").is_some()
    }

    pub fn failed(&self) -> Option<String> {
        match &*self.over.lock().expect("set at once") {
            Some(Err(text)) => Some(text.clone()),
            _ => self.journal.failed(),
        }
    }

    pub fn wait_over(&self) -> Over {
        let over = self.over.lock().expect("set at once");
        let over = self.is_over.wait_while(over, |over| over.is_none()).expect("set at once");
        over.clone().unwrap_or(Ok(()))
    }

    pub fn view(&self) -> View {
        let engine = self.engine.lock().expect("no call panics");
        let view = engine.view(self.started.elapsed());
        drop(engine);
        View { connections: self.connections(), samples: self.samples.lock().expect("samples").list(), ..view }
    }

    /// The page copies.
    pub fn copies(&self) -> Vec<u32> {
        self.engine.lock().expect("no call panics").held.copies().to_vec()
    }

    /// Why a record is still here: 0 and the chain, or a refusal.
    pub fn chain(&self, object: u32) -> (u32, Vec<u32>) {
        let (answer, chain) = self.engine.lock().expect("no call panics").chain(object);
        (answer.number, chain)
    }

    /// What a cut at this moment would leave, all of it on the disk: stored pages, stable records, and L.
    pub fn stable(&self) -> Result<(Vec<u32>, Vec<u32>, usize), End> {
        let mut engine = self.engine()?;
        engine.force_all();
        if engine.broken.is_some() {
            return Err(End::Server);
        }
        let records = kophdaen::RECORD_WORDS * engine.held.counts()[STABLE_COUNT] as usize;
        let stable = (engine.held.stored().to_vec(), engine.held.log()[..records].to_vec(), engine.room());
        let last = engine.handed;
        drop(engine);
        self.wait_for(last)?;
        Ok(stable)
    }

    /// Goes by this file of clients from now on.
    pub fn change_rights(&self, clients: Clients) -> Result<(), End> {
        self.engine()?.change_rights(clients);
        Ok(())
    }

    pub fn pages(&self) -> usize {
        self.engine.lock().expect("no call panics").pages()
    }
}

/// The store of the files, its reopening made to the end in memory.
pub fn open(found: &image::Found, progress: &mut dyn FnMut(&str)) -> Result<Held, Stop> {
    let pages = found.pages.len() / PAGE_WORDS;
    progress(&format!("reopening: {pages} pages, {} log records", found.records.len() / kophdaen::RECORD_WORDS));
    let opened = Held::open(&found.pages, &found.records, found.room);
    let mut held = opened.map_err(|why| Stop::new(DAMAGED, format!("the store does not reopen: {why}")))?;
    loop {
        let answer = held.reopen_step();
        if !answer.accepted() {
            return Err(Stop::new(DAMAGED, format!("a reopening step was answered {}", answer.number)));
        }
        if answer.value as usize == pages {
            return Ok(held);
        }
    }
}
