//! Visits made to SQLite, by connections of one process to one file.

use std::path::Path;
use std::sync::Mutex;

use kophdaen::OBJECT_WORDS;
use model::layout::ROOT;

use crate::served_load::Visitor;
use crate::served_visit::{area, site, ways, Crew, AREAS, DATA, SITES};
use crate::sqlite::{Database, Statement};

const COLUMNS: [&str; OBJECT_WORDS] = ["r0", "r1", "r2", "r3", "d4", "d5", "d6", "d7"];

/// How a connection waits until no other writes.
#[derive(Clone, Copy)]
pub enum Wait<'a> {
    /// By SQLite's own busy timeout, which sleeps and tries again.
    Busy,
    /// By a mutex of the program's, before it begins.
    Mutex(&'a Mutex<()>),
}

/// A connection, and the crew that uses it. Statements stand before the database, so that they are dropped
/// first.
pub struct Connection<'a> {
    begin: Statement,
    commit: Statement,
    read: Statement,
    insert: Statement,
    update: Statement,
    delete: Statement,
    _database: Database,
    wait: Wait<'a>,
    crew: Crew,
}

/// A new file with the records of the way.
pub fn create(file: &Path) {
    for suffix in ["", "-wal", "-shm"] {
        let _ = std::fs::remove_file(format!("{}{suffix}", file.display()));
    }
    let columns = COLUMNS.map(|column| format!("{column} INTEGER NOT NULL")).join(", ");
    let head = [
        "PRAGMA journal_mode = WAL".to_string(),
        format!("CREATE TABLE objects (id INTEGER PRIMARY KEY, {columns})"),
        "BEGIN".to_string(),
    ];
    let objects = std::iter::once(ROOT).chain((0..AREAS).map(area)).chain((0..SITES).map(site));
    let inserts = objects.map(|object| format!("INSERT INTO objects VALUES ({object}, 0, 0, 0, 0, 0, 0, 0, 0)"));
    let updates = ways().into_iter().map(|(object, word, named)| {
        format!("UPDATE objects SET {} = {named} WHERE id = {object}", COLUMNS[word])
    });
    let database = open(file);
    head.into_iter().chain(inserts).chain(updates).for_each(|text| database.run(&text));
    database.run("COMMIT");
}

/// The file opened, with the same settings by each: the journal's mode stands in the file.
pub fn open(file: &Path) -> Database {
    let database = Database::open(&file.display().to_string());
    database.run("PRAGMA busy_timeout = 60000");
    database.run("PRAGMA synchronous = FULL");
    database
}

/// Opens the file and reads the root, as a program does at its start, and goes on with it open.
pub fn open_and_read(file: &Path, go_on: impl FnOnce()) {
    let database = open(file);
    let read = database.prepare("SELECT r0 FROM objects WHERE id = ?1");
    let [first] = read.row::<1>(&[i64::from(ROOT)]);
    assert_eq!(first, i64::from(area(0)), "the root names its areas");
    go_on();
}

impl<'a> Connection<'a> {
    pub fn new(file: &Path, mut crew: Crew, wait: Wait<'a>) -> Connection<'a> {
        let database = open(file);
        let site = i64::from(site(crew.site));
        let [former, count] = database.prepare("SELECT r0, d4 FROM objects WHERE id = ?1").row::<2>(&[site]);
        crew.resume(former as u32, count as u32);
        Connection {
            begin: database.prepare("BEGIN IMMEDIATE"),
            commit: database.prepare("COMMIT"),
            read: database.prepare(&format!("SELECT {} FROM objects WHERE id = ?1", COLUMNS.join(", "))),
            insert: database.prepare("INSERT INTO objects VALUES (?1, 0, 0, 0, 0, ?2, ?3, ?4, 0)"),
            update: database.prepare("UPDATE objects SET r0 = ?2, d4 = ?3 WHERE id = ?1"),
            delete: database.prepare("DELETE FROM objects WHERE id = ?1"),
            _database: database,
            wait,
            crew,
        }
    }
}

impl Visitor for Connection<'_> {
    fn visit(&mut self) -> usize {
        let _alone = match self.wait {
            Wait::Busy => None,
            Wait::Mutex(mutex) => Some(mutex.lock().expect("the mutex")),
        };
        let visit = self.crew.visit();
        let [reading, count] = [visit.reading, visit.count].map(i64::from);
        let [a, b, c] = visit.words.map(i64::from);
        self.begin.run(&[]);
        let seen = self.crew.way().map(|object| self.read.row::<OBJECT_WORDS>(&[i64::from(object)]));
        assert_eq!(seen[2][DATA], i64::from(self.crew.count), "the visit before is there");
        self.insert.run(&[reading, a, b, c]);
        self.update.run(&[i64::from(site(self.crew.site)), reading, count]);
        self.delete.run(&[i64::from(self.crew.former)]);
        self.commit.run(&[]);
        self.crew.done(visit);
        0
    }
}
