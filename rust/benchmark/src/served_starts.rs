//! From exec to ready after a kill -9: the server with a log as full as it gets, SQLite with a write-ahead log
//! that it would empty at the next commits.

use std::io::{BufRead, BufReader};
use std::path::Path;
use std::process::{Child, Command, Stdio};
use std::time::{Duration, Instant};

use model::layout::{object_at, SLOTS};

use crate::served_client::Client;
use crate::served_load::Visitor;
use crate::served_rounds::{Place, CLIENTS};
use crate::served_sqlite::{create, open_and_read, Connection, Wait};
use crate::served_tablet::{prepare, Manner, Tablet};
use crate::served_visit::{Crew, DATA};

/// Samples of each.
pub const SAMPLES: usize = 9;

/// Transactions that run when the server is killed, and what each has set.
pub const RUNNING: usize = 4;
pub const SETS: usize = 64;

/// Records of a visit, and some sweeps.
const ROOM: usize = 24;

/// SQLite's default: it empties its log at a commit that makes it so many pages long. A commit adds a few.
const LOG_PAGES: u64 = 1000;
const COMMIT_PAGES: u64 = 4;
/// Bytes of the log's header, and of one page in it with its own.
const LOG_HEADER: u64 = 32;
const FRAME: u64 = 24 + 4096;

/// What a program says to the one that waits for it.
const READY: &str = "ready";

/// Milliseconds from exec to ready, and how full the log was: records, or pages.
pub struct Starts {
    pub times: Vec<f64>,
    pub log: Vec<u64>,
}

pub fn depot(place: &Place) -> Starts {
    place.program.format(place.size);
    let mut depot = place.program.serve();
    prepare(&depot.address);
    let mut crew = Crew::new(0, CLIENTS[1], place.size.pages);
    let mut starts = Starts { times: Vec::new(), log: Vec::new() };
    for _ in 0..SAMPLES {
        let running = begin(&depot.address, place.size.pages);
        let (after, records) = fill(&depot.address, crew, place);
        crew = after;
        depot.kill();
        drop(running);
        starts.log.push(u64::from(records));
        let started = Instant::now();
        depot = place.program.serve();
        starts.times.push(milliseconds(started.elapsed()));
    }
    depot.stop();
    starts
}

/// Transactions that stay open, each on one of the last pages.
fn begin(address: &str, pages: usize) -> Client {
    let mut client = Client::connect(address);
    (0..RUNNING).for_each(|t| change(&mut client, t, pages - RUNNING + t));
    client
}

/// A record in the first free slot, and sets of its words.
fn change(client: &mut Client, t: usize, page: usize) {
    client.ask(format_args!("begin,{t}"));
    client.ask(format_args!("lockw,{t},{page}"));
    let mut created = |object: &u32| {
        client.say(format_args!("create,{t},{object}"));
        client.exchange()[0].accepted()
    };
    let object = (0..SLOTS).map(|slot| object_at(page, slot)).find(&mut created).expect("a free slot");
    for i in 0..SETS {
        client.ask(format_args!("set,{t},{object},{DATA},{i}"));
    }
}

/// Commits until the server would begin no more before the log is emptied; answers the records.
fn fill(address: &str, crew: Crew, place: &Place) -> (Crew, u32) {
    let mut tablet = Tablet::new(address, crew, place.size.pages, Manner::Together);
    let full = (place.size.records * 3 / 4 - ROOM) as u32;
    let mut visited = || {
        tablet.visit();
        tablet.received()
    };
    let records = (0..place.size.records).map(|_| visited()).find(|&records| records >= full);
    (tablet.into_crew(), records.expect("a log that transactions keep from being emptied"))
}

/// The same of SQLite, by programs of their own: one fills the log and is killed, one opens the file.
pub fn sqlite(place: &Place) -> Starts {
    let file = place.database();
    create(&file);
    let mut starts = Starts { times: Vec::new(), log: Vec::new() };
    for _ in 0..SAMPLES {
        let mut filler = run("sqlite-fill", &file);
        filler.kill().expect("killed");
        filler.wait().expect("ended");
        starts.log.push(log_pages(&file));
        let started = Instant::now();
        let mut opener = run("sqlite-open", &file);
        starts.times.push(milliseconds(started.elapsed()));
        assert!(opener.wait().expect("ended").success(), "SQLite opens its file");
    }
    starts
}

/// This program with other words; answers once it says that it is ready.
fn run(word: &str, file: &Path) -> Child {
    let program = std::env::current_exe().expect("this program");
    let mut command = Command::new(program);
    let mut child = command.arg(word).arg(file).stdout(Stdio::piped()).spawn().expect("it starts");
    let mut line = String::new();
    BufReader::new(child.stdout.take().expect("its output")).read_line(&mut line).expect("its output");
    assert_eq!(line.trim_end(), READY, "{word}");
    child
}

/// Commits until SQLite's log is nearly as long as it gets, and waits to be killed.
pub fn fill_sqlite(file: &Path, pages: usize) {
    let mut connection = Connection::new(file, Crew::new(0, CLIENTS[0], pages), Wait::Busy);
    while log_pages(file) + COMMIT_PAGES < LOG_PAGES {
        connection.visit();
    }
    println!("{READY}");
    std::thread::sleep(Duration::from_secs(600));
}

pub fn open_sqlite(file: &Path) {
    open_and_read(file, || println!("{READY}"));
}

fn log_pages(file: &Path) -> u64 {
    let bytes = std::fs::metadata(format!("{}-wal", file.display())).map_or(0, |log| log.len());
    bytes.saturating_sub(LOG_HEADER) / FRAME
}

fn milliseconds(time: Duration) -> f64 {
    time.as_secs_f64() * 1e3
}
