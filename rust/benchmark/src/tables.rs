//! The workload's objects and pointers as rows of SQLite: a row for an object, an update for a word.

use std::path::Path;
use std::time::{Duration, Instant};

use crate::random::Random;
use crate::sqlite::{Database, Statement};
use crate::workload::Plan;

/// Where the journal is, and whether SQLite waits for the disk.
#[derive(Clone, Copy, PartialEq)]
pub enum Journal {
    /// The database too is in memory.
    Memory,
    /// The database is a file; the journal in memory, and nothing waits for the disk.
    MemoryOverFile,
    Rollback,
    WriteAhead,
}

impl Journal {
    /// Whether a commit waits for the disk.
    pub fn waits(self) -> bool {
        matches!(self, Journal::Rollback | Journal::WriteAhead)
    }
}

pub const JOURNALS: [(Journal, &str); 4] = [
    (Journal::Memory, "database and journal in memory"),
    (Journal::MemoryOverFile, "database a file, journal in memory, no sync"),
    (Journal::Rollback, "rollback journal on disk (DELETE), synchronous FULL"),
    (Journal::WriteAhead, "write-ahead log on disk (WAL), synchronous FULL"),
];

const COLUMNS: [&str; 8] = ["r0", "r1", "r2", "r3", "w0", "w1", "w2", "w3"];

/// Transactions between two collections: as many as a pass takes in the large store.
const BETWEEN: usize = 277;

/// Deletes what the root does not reach.
const COLLECT: &str = "
    WITH RECURSIVE live(id) AS (
        VALUES(1)
        UNION SELECT r0 FROM live JOIN objects USING (id) WHERE r0 <> 0
        UNION SELECT r1 FROM live JOIN objects USING (id) WHERE r1 <> 0
        UNION SELECT r2 FROM live JOIN objects USING (id) WHERE r2 <> 0
        UNION SELECT r3 FROM live JOIN objects USING (id) WHERE r3 <> 0)
    DELETE FROM objects WHERE id NOT IN (SELECT id FROM live)";

/// A database with its one client. Statements stand before the database, so that they are dropped first.
pub struct Shop {
    begin: Statement,
    commit: Statement,
    read: Statement,
    insert: Statement,
    updates: Vec<Statement>,
    collect: Statement,
    _database: Database,
    plan: Plan,
    random: Random,
    next: i64,
    run: usize,
    pub collecting: f64,
}

impl Shop {
    pub fn new(plan: Plan, journal: Journal, directory: &Path) -> Shop {
        let database = open(journal, directory);
        let columns = COLUMNS.map(|column| format!("{column} INTEGER NOT NULL")).join(", ");
        database.run(&format!("CREATE TABLE objects (id INTEGER PRIMARY KEY, {columns})"));
        let update = |column: &&str| database.prepare(&format!("UPDATE objects SET {column} = ?2 WHERE id = ?1"));
        let shop = Shop {
            begin: database.prepare("BEGIN IMMEDIATE"),
            commit: database.prepare("COMMIT"),
            read: database.prepare(&format!("SELECT {} FROM objects WHERE id = ?1", COLUMNS.join(", "))),
            insert: database.prepare("INSERT INTO objects VALUES (?1, 0, 0, 0, 0, 0, 0, 0, 0)"),
            updates: COLUMNS.iter().map(update).collect(),
            collect: database.prepare(COLLECT),
            _database: database,
            plan,
            random: Random::new(4),
            next: plan.directories() as i64 + 1,
            run: 0,
            collecting: 0.0,
        };
        shop.make_directory();
        shop
    }

    fn make_directory(&self) {
        self.begin.run(&[]);
        let directories = self.plan.directories() as i64;
        for id in 1..=directories {
            self.insert.run(&[id]);
            for field in 0..4 {
                let child = 4 * (id - 1) + 2 + field;
                if child <= directories {
                    self.updates[field as usize].run(&[id, child]);
                }
            }
        }
        self.commit.run(&[]);
    }

    /// Transactions in so much time, and the seconds taken; where there are collections it goes on to one, unless
    /// that takes far longer.
    pub fn run_for(&mut self, time: Duration) -> (usize, f64) {
        let before = self.run;
        let started = Instant::now();
        let collects = self.plan.steps > 0;
        let goes = |run: usize, spent: Duration| spent < time || collects && run < BETWEEN && spent < 5 * time;
        while goes(self.run - before, started.elapsed()) {
            self.transaction();
            if collects && self.run.is_multiple_of(BETWEEN) {
                let started = Instant::now();
                self.collect.run(&[]);
                self.collecting += started.elapsed().as_secs_f64();
            }
        }
        (self.run - before, started.elapsed().as_secs_f64())
    }

    pub fn transaction(&mut self) {
        self.begin.run(&[]);
        let mut lowest = 1;
        for _ in 0..self.plan.levels {
            lowest = self.read.row::<8>(&[lowest])[self.random.below(4)];
        }
        self.read.row::<8>(&[lowest]);
        let [a, b, c] = [self.next, self.next + 1, self.next + 2];
        self.next += 3;
        for object in [a, b, c] {
            self.insert.run(&[object]);
        }
        let field = self.random.below(4);
        let data = i64::from(self.random.word());
        for (object, field, word) in
            [(a, 0, b), (b, 0, c), (a, 4, data), (b, 4, data), (c, 4, data), (lowest, field, a)]
        {
            self.updates[field].run(&[object, word]);
        }
        self.commit.run(&[]);
        self.run += 1;
    }
}

fn open(journal: Journal, directory: &Path) -> Database {
    let file = directory.join("sqlite.db");
    for suffix in ["", "-journal", "-wal", "-shm"] {
        let _ = std::fs::remove_file(format!("{}{suffix}", file.display()));
    }
    let name = if journal == Journal::Memory { ":memory:".to_string() } else { file.display().to_string() };
    let database = Database::open(&name);
    let mode = match journal {
        Journal::Memory | Journal::MemoryOverFile => "MEMORY",
        Journal::Rollback => "DELETE",
        Journal::WriteAhead => "WAL",
    };
    let synchronous = if journal.waits() { "FULL" } else { "OFF" };
    database.run(&format!("PRAGMA journal_mode = {mode}"));
    database.run(&format!("PRAGMA synchronous = {synchronous}"));
    database
}
