//! The stable part of a store in files: what a caller does so that a power cut finds it.

use std::fs::{File, OpenOptions};
use std::os::unix::fs::FileExt;
use std::path::Path;
use std::time::Instant;

use kophdaen::RECORD_WORDS;

/// When the caller waits for the disk.
#[derive(Clone, Copy, PartialEq)]
pub enum Sync {
    /// After every force, as each is a stable store of its own.
    EachForce,
    /// Once after the forces of a transaction: nothing is stored or told to the client before.
    EachTransaction,
}

/// Bytes of a record with its turn in front, and of as many as a store may have.
const RECORD_BYTES: u64 = 4 * (RECORD_WORDS as u64 + 1);
const LOG_BYTES: u64 = 4096 * RECORD_BYTES;

/// A file of stable records and one of stored pages. The files are written and never read back here; that
/// a page of 516 bytes is whole or absent after a cut is left to the disk.
///
/// The file's log may be longer than the server's, as that of a server with room for 4096 records that makes
/// the same calls without emptying its log. Only where it is full are the pages synced, and the next records
/// written over the old ones, in a new turn. Who starts takes the records of the highest turn in the file,
/// from the first place on, and reopens with room for 4096. Where none of the new turn is there yet, the old
/// ones all are.
pub struct Disk {
    pub sync: Sync,
    log: File,
    pages: File,
    turn: u32,
    /// Bytes of the server's log.
    room: u64,
    /// Where in the file the next records go, and those that are not written yet.
    at: u64,
    waiting: Vec<u8>,
}

impl Disk {
    /// For a server with room for so many records.
    pub fn new(directory: &Path, sync: Sync, records: usize) -> Disk {
        let open = |name: &str| {
            let mut options = OpenOptions::new();
            options.create(true).truncate(true).write(true).open(directory.join(name)).expect("a file to write")
        };
        let room = RECORD_BYTES * records as u64;
        Disk { sync, log: open("log"), pages: open("pages"), turn: 1, room, at: 0, waiting: Vec::new() }
    }

    pub fn append(&mut self, record: &[u32]) {
        self.waiting.extend(self.turn.to_le_bytes());
        self.waiting.extend(record.iter().flat_map(|word| word.to_le_bytes()));
    }

    pub fn sync_log(&mut self) {
        self.log.write_all_at(&self.waiting, self.at).expect("written");
        self.log.sync_data().expect("synced");
        self.at += self.waiting.len() as u64;
        self.waiting.clear();
    }

    pub fn write_page(&mut self, page: usize, words: &[u32]) {
        let bytes: Vec<u8> = words.iter().flat_map(|word| word.to_le_bytes()).collect();
        self.pages.write_all_at(&bytes, (bytes.len() * page) as u64).expect("written");
    }

    /// Before records are written over, the pages are on the disk.
    pub fn empty_log(&mut self) {
        if self.at + self.room <= LOG_BYTES {
            return;
        }
        self.pages.sync_data().expect("synced");
        self.turn += 1;
        self.at = 0;
    }
}

/// Microseconds that an append of 28 bytes and its sync take: the median of some.
pub fn sync_time(directory: &Path) -> f64 {
    let mut disk = Disk::new(directory, Sync::EachForce, 4096);
    let mut times: Vec<f64> = (0..51)
        .map(|_| {
            let started = Instant::now();
            disk.append(&[0; RECORD_WORDS]);
            disk.sync_log();
            started.elapsed().as_secs_f64() * 1e6
        })
        .collect();
    times.sort_by(f64::total_cmp);
    times[times.len() / 2]
}
