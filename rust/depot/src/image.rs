//! The pure layer between the files and the areas: bytes in, stored pages and stable records out, and the other
//! way round. Nothing here touches a file. docs/SERVER.md has the layout, and why each state that a cut can leave
//! is read as a state between two calls.
//!
//! Two snapshots hold the stored pages at a moment when the log was empty; the log has a place for each record.
//! The whole snapshot with the higher epoch counts, and of the log the places from the first on that are right for
//! its epoch: their number is the stable count.

use std::fmt;

use kophdaen::layout::{MOST_PAGES, MOST_RECORDS};
use kophdaen::{PAGE_WORDS, RECORD_WORDS};

use crate::checksum::Sum;

pub const WORD_BYTES: usize = 4;
const MAGIC: &[u8; 8] = b"kophdaen";
const VERSION: u32 = 1;
const HEAD_BYTES: usize = 64;
const SUM_BYTES: usize = 8;
/// A place: the record, how many places were synced when it was written, and the low bytes of a sum. As it divides
/// a sector, no place lies in two.
pub const PLACE_BYTES: usize = 32;
const RECORD_BYTES: usize = WORD_BYTES * RECORD_WORDS;
const SYNCED_BYTES: usize = 2;

/// The bytes of the three files.
#[derive(Clone, PartialEq, Eq)]
pub struct Files {
    pub snapshots: [Vec<u8>; 2],
    pub log: Vec<u8>,
}

/// A whole snapshot. `room` is L, the number of log records.
pub struct Snapshot {
    pub id: u64,
    pub epoch: u64,
    pub room: usize,
    pub pages: Vec<u32>,
}

/// What the files hold: the stored pages, and the stable records.
pub struct Found {
    pub id: u64,
    pub epoch: u64,
    /// Which snapshot counts; the next one goes over the other.
    pub file: usize,
    pub pages: Vec<u32>,
    pub records: Vec<u32>,
    pub room: usize,
    /// Places behind a gap: written by a server that a cut ended before they were synced.
    pub behind: usize,
    /// The other snapshot is not whole: a cut fell into a checkpoint, or into the formatting.
    pub torn: bool,
}

/// Why the files are no store.
#[derive(Debug, PartialEq, Eq)]
pub enum Damage {
    NoSnapshot,
    /// The two snapshots, or the log, are of different stores.
    Strangers,
    LogLength,
    /// The newest snapshot is not whole, though records were written behind it.
    Newest,
    /// A place is not right, though a later one tells that it was synced.
    Place(usize),
}

impl fmt::Display for Damage {
    fn fmt(&self, out: &mut fmt::Formatter) -> fmt::Result {
        match self {
            Damage::NoSnapshot => write!(out, "neither depot.0 nor depot.1 is a whole snapshot"),
            Damage::Strangers => write!(out, "depot.0 and depot.1 are not of the same store"),
            Damage::LogLength => write!(out, "the file log has not the length of this store's log"),
            Damage::Newest => write!(out, "the newest snapshot is damaged, and records were written behind it"),
            Damage::Place(index) => write!(out, "log place {index} is damaged, and was on the disk before"),
        }
    }
}

pub fn words_to_bytes(words: &[u32]) -> Vec<u8> {
    words.iter().flat_map(|word| word.to_le_bytes()).collect()
}

pub fn bytes_to_words(bytes: &[u8]) -> Vec<u32> {
    bytes.chunks_exact(WORD_BYTES).map(|word| u32::from_le_bytes(word.try_into().expect("four bytes"))).collect()
}

/// Whether a store may have so many pages and records.
pub fn in_bounds(pages: usize, room: usize) -> bool {
    (1..=MOST_PAGES).contains(&pages) && (1..=MOST_RECORDS).contains(&room)
}

pub fn snapshot_bytes(pages: usize) -> usize {
    HEAD_BYTES + WORD_BYTES * PAGE_WORDS * pages + SUM_BYTES
}

pub fn log_bytes(room: usize) -> usize {
    PLACE_BYTES * room
}

/// All bytes of a snapshot's file.
pub fn snapshot(id: u64, epoch: u64, pages: &[u32], room: usize) -> Vec<u8> {
    let mut bytes = MAGIC.to_vec();
    for word in [VERSION, (pages.len() / PAGE_WORDS) as u32, room as u32, 0] {
        bytes.extend(word.to_le_bytes());
    }
    bytes.extend(epoch.to_le_bytes());
    bytes.extend(id.to_le_bytes());
    bytes.resize(HEAD_BYTES, 0);
    bytes.extend(words_to_bytes(pages));
    let sum = Sum::empty().and(&bytes).value();
    bytes.extend(sum.to_le_bytes());
    bytes
}

/// The snapshot that a file's bytes are, if they are a whole one.
pub fn read_snapshot(bytes: &[u8]) -> Option<Snapshot> {
    let (body, sum) = bytes.split_at_checked(bytes.len().checked_sub(SUM_BYTES)?)?;
    let (head, pages) = body.split_at_checked(HEAD_BYTES)?;
    let word = |at: usize| u32::from_le_bytes(head[at..at + 4].try_into().expect("four bytes"));
    let long = |at: usize| u64::from_le_bytes(head[at..at + 8].try_into().expect("eight bytes"));
    let (count, room) = (word(12) as usize, word(16) as usize);
    let whole = head.starts_with(MAGIC)
        && word(8) == VERSION
        && in_bounds(count, room)
        && bytes.len() == snapshot_bytes(count)
        && Sum::empty().and(body).value().to_le_bytes() == *sum;
    whole.then(|| Snapshot { epoch: long(24), id: long(32), room, pages: bytes_to_words(pages) })
}

/// The sum is of the store, the epoch and the place's number too: so a record that an earlier epoch left is no
/// record of this one.
fn place_sum(id: u64, epoch: u64, index: usize, body: &[u8]) -> [u8; SUM_BYTES] {
    let sum = Sum::empty().and(&id.to_le_bytes()).and(&epoch.to_le_bytes()).and(&(index as u64).to_le_bytes());
    sum.and(body).value().to_le_bytes()
}

/// A place's bytes. `synced` is how many places of this epoch were on the disk for sure when it was written.
pub fn place(id: u64, epoch: u64, index: usize, record: &[u32], synced: usize) -> [u8; PLACE_BYTES] {
    let mut bytes = [0; PLACE_BYTES];
    let (body, sum) = bytes.split_at_mut(RECORD_BYTES + SYNCED_BYTES);
    body[..RECORD_BYTES].copy_from_slice(&words_to_bytes(record));
    body[RECORD_BYTES..].copy_from_slice(&(synced as u16).to_le_bytes());
    sum.copy_from_slice(&place_sum(id, epoch, index, body)[..sum.len()]);
    bytes
}

/// The record in a place and how many places it tells were synced, if the place is right for this epoch.
pub fn read_place(id: u64, epoch: u64, index: usize, bytes: &[u8]) -> Option<(Vec<u32>, usize)> {
    let (body, sum) = bytes.split_at_checked(RECORD_BYTES + SYNCED_BYTES)?;
    let right = place_sum(id, epoch, index, body)[..sum.len()] == *sum && bytes.len() == PLACE_BYTES;
    let synced = u16::from_le_bytes(body[RECORD_BYTES..].try_into().expect("two bytes"));
    right.then(|| (bytes_to_words(&body[..RECORD_BYTES]), usize::from(synced)))
}

/// What the files hold, or why they are no store.
pub fn read(files: &Files) -> Result<Found, Damage> {
    let [first, second] = [0, 1].map(|file| read_snapshot(&files.snapshots[file]));
    let (file, torn, snapshot) = match (first, second) {
        (Some(first), Some(second)) => newer(first, second)?,
        (Some(first), None) => (0, true, first),
        (None, Some(second)) => (1, true, second),
        (None, None) => return Err(Damage::NoSnapshot),
    };
    if files.log.len() != log_bytes(snapshot.room) {
        return Err(Damage::LogLength);
    }
    // Records of the next epoch are written only once its snapshot is synced.
    let next = places(files, snapshot.id, snapshot.epoch + 1);
    if next.iter().any(Option::is_some) {
        return Err(Damage::Newest);
    }
    let places = places(files, snapshot.id, snapshot.epoch);
    let stable = places.iter().take_while(|place| place.is_some()).count();
    let behind = places.iter().skip(stable).flatten();
    if behind.clone().any(|(_, synced)| *synced > stable) {
        return Err(Damage::Place(stable));
    }
    let behind = behind.count();
    let records = places.into_iter().take(stable).flatten().flat_map(|(record, _)| record).collect();
    let Snapshot { id, epoch, room, pages } = snapshot;
    Ok(Found { id, epoch, file, pages, records, room, behind, torn })
}

fn newer(first: Snapshot, second: Snapshot) -> Result<(usize, bool, Snapshot), Damage> {
    let same = first.id == second.id && first.room == second.room && first.pages.len() == second.pages.len();
    match first.epoch.cmp(&second.epoch) {
        _ if !same => Err(Damage::Strangers),
        std::cmp::Ordering::Equal => Err(Damage::Strangers),
        std::cmp::Ordering::Greater => Ok((0, false, first)),
        std::cmp::Ordering::Less => Ok((1, false, second)),
    }
}

/// Each place that is right for this epoch.
fn places(files: &Files, id: u64, epoch: u64) -> Vec<Option<(Vec<u32>, usize)>> {
    let places = files.log.chunks_exact(PLACE_BYTES).enumerate();
    places.map(|(index, bytes)| read_place(id, epoch, index, bytes)).collect()
}
