//! Faults that are planted around the server, in what it writes and in what it reads back: each must be found.

use std::borrow::Cow;
use std::io::Result;
use std::sync::{Arc, Mutex};

use depot::disk::{Disk, Part};
use depot::image::{self, Files, Snapshot, PLACE_BYTES};
use kophdaen::RECORD_WORDS;

#[derive(Clone, Copy, PartialEq, Eq, Debug)]
pub enum Fault {
    None,
    /// A sync takes effect only at the next operation.
    ToldBeforeSync,
    LogNotSynced,
    SnapshotNotSynced,
    /// Places of every epoch are right for each.
    NoEpochInPlaces,
    EpochKeptAtStart,
    /// Records of the new epoch are written before its snapshot is synced.
    RecordsBeforeSnapshot,
    SnapshotOverNewer,
    /// A place's sum is of its first words alone.
    TornPlaceCounted,
}

pub const FAULTS: [(Fault, &str); 8] = [
    (Fault::ToldBeforeSync, "told before the sync: it takes effect at the next operation"),
    (Fault::LogNotSynced, "no sync of the log"),
    (Fault::SnapshotNotSynced, "no sync of the snapshots"),
    (Fault::NoEpochInPlaces, "no epoch in the places' sums"),
    (Fault::EpochKeptAtStart, "the epoch kept at a start"),
    (Fault::RecordsBeforeSnapshot, "records of the new epoch before its snapshot is synced"),
    (Fault::SnapshotOverNewer, "snapshots over the newer file"),
    (Fault::TornPlaceCounted, "a torn place counted: its sum is of the first two words"),
];

impl Fault {
    /// A place is torn only where the disk writes less than one at a time.
    pub fn tears_places(self) -> bool {
        self == Fault::TornPlaceCounted
    }
}

/// What of a record the sum of a faulty place is of.
const SUMMED_WORDS: usize = 2;

struct Head {
    id: u64,
    /// The epoch whose places the server writes.
    epoch: u64,
    /// The file of the newest snapshot at the start.
    file: usize,
    /// A sync that has not taken effect.
    late: Option<Part>,
}

/// A disk with a fault in it.
pub struct Planted {
    disk: Arc<dyn Disk>,
    fault: Fault,
    head: Mutex<Head>,
}

impl Planted {
    /// `files` are what the server starts from. Where they are no store nothing is written anyway.
    pub fn new(disk: Arc<dyn Disk>, fault: Fault, files: &Files) -> Planted {
        let head = match image::read(files) {
            Ok(found) => Head { id: found.id, epoch: found.epoch, file: found.file, late: None },
            Err(_) => Head { id: 0, epoch: 0, file: 0, late: None },
        };
        Planted { disk, fault, head: Mutex::new(head) }
    }

    /// A snapshot as the fault writes it, and where.
    fn snapshot(&self, head: &mut Head, part: Part, bytes: &[u8]) -> (Part, Vec<u8>) {
        let Some(Snapshot { id, epoch, room, pages, .. }) = image::read_snapshot(bytes) else {
            return (part, bytes.to_vec());
        };
        head.epoch = epoch;
        match self.fault {
            Fault::EpochKeptAtStart => (part, image::snapshot(id, epoch - 1, &pages, room)),
            Fault::SnapshotOverNewer => (Part::Snapshot(head.file), bytes.to_vec()),
            _ => (part, bytes.to_vec()),
        }
    }

    fn places(&self, head: &Head, at: u64, bytes: &[u8]) -> Vec<u8> {
        let first = at as usize / PLACE_BYTES;
        let places = bytes.chunks(PLACE_BYTES).enumerate();
        places.flat_map(|(i, place)| self.place(head, first + i, place)).collect()
    }

    /// A place as the fault writes it.
    fn place(&self, head: &Head, index: usize, bytes: &[u8]) -> Vec<u8> {
        let Some((record, synced)) = image::read_place(head.id, head.epoch, index, bytes) else {
            return bytes.to_vec();
        };
        match self.fault {
            // Without what a place tells of earlier ones, which would give the fault away.
            Fault::NoEpochInPlaces => image::place(head.id, 0, index, &record, 0).to_vec(),
            Fault::EpochKeptAtStart => image::place(head.id, head.epoch - 1, index, &record, synced).to_vec(),
            Fault::TornPlaceCounted => with_sum_of(bytes, &partly_summed(head.id, head.epoch, index, &record)),
            _ => bytes.to_vec(),
        }
    }

    /// What is late takes effect.
    fn catch_up(&self, head: &mut Head) -> Result<()> {
        head.late.take().map_or(Ok(()), |part| self.disk.sync(part))
    }
}

impl Disk for Planted {
    fn write(&self, part: Part, at: u64, bytes: &[u8]) -> Result<()> {
        let mut head = self.head.lock().expect("no operation panics");
        if self.fault != Fault::RecordsBeforeSnapshot || part != Part::Log {
            self.catch_up(&mut head)?;
        }
        let (part, bytes) = match part {
            Part::Snapshot(_) => self.snapshot(&mut head, part, bytes),
            Part::Log => (part, self.places(&head, at, bytes)),
        };
        self.disk.write(part, at, &bytes)?;
        self.catch_up(&mut head)
    }

    fn sync(&self, part: Part) -> Result<()> {
        let mut head = self.head.lock().expect("no operation panics");
        self.catch_up(&mut head)?;
        match (self.fault, part) {
            (Fault::LogNotSynced, Part::Log) | (Fault::SnapshotNotSynced, Part::Snapshot(_)) => Ok(()),
            (Fault::ToldBeforeSync, _) | (Fault::RecordsBeforeSnapshot, Part::Snapshot(_)) => {
                head.late = Some(part);
                Ok(())
            }
            (Fault::SnapshotOverNewer, Part::Snapshot(_)) => self.disk.sync(Part::Snapshot(head.file)),
            _ => self.disk.sync(part),
        }
    }
}

/// A place with the record's last words 0: its sum is of the first ones.
fn partly_summed(id: u64, epoch: u64, index: usize, record: &[u32]) -> [u8; PLACE_BYTES] {
    let mut summed = [0; RECORD_WORDS];
    summed[..SUMMED_WORDS].copy_from_slice(&record[..SUMMED_WORDS]);
    image::place(id, epoch, index, &summed, 0)
}

/// The bytes of a place with the sum of another.
fn with_sum_of(bytes: &[u8], other: &[u8]) -> Vec<u8> {
    let sum = SYNCED_AT + 2;
    bytes[..sum].iter().chain(&other[sum..]).copied().collect()
}

/// Where in a place the number of synced ones stands, behind the record.
const SYNCED_AT: usize = image::WORD_BYTES * RECORD_WORDS;

/// The files as a server with the fault reads them.
pub fn as_read(fault: Fault, files: &Files) -> Cow<'_, Files> {
    if ![Fault::NoEpochInPlaces, Fault::TornPlaceCounted].contains(&fault) {
        return Cow::Borrowed(files);
    }
    let snapshots = files.snapshots.iter().filter_map(|bytes| image::read_snapshot(bytes));
    let Some(newest) = snapshots.max_by_key(|snapshot| snapshot.epoch) else {
        return Cow::Borrowed(files);
    };
    let (id, epoch) = (newest.id, newest.epoch);
    let places = files.log.chunks(PLACE_BYTES).enumerate();
    let read = |(index, bytes): (usize, &[u8])| match fault {
        Fault::NoEpochInPlaces => match image::read_place(id, 0, index, bytes) {
            Some((record, synced)) => image::place(id, epoch, index, &record, synced).to_vec(),
            None => bytes.to_vec(),
        },
        Fault::TornPlaceCounted => summed_again(id, epoch, index, bytes),
        _ => bytes.to_vec(),
    };
    Cow::Owned(Files { snapshots: files.snapshots.clone(), log: places.flat_map(read).collect() })
}

/// A place that is right by its first words alone is made right by all.
fn summed_again(id: u64, epoch: u64, index: usize, bytes: &[u8]) -> Vec<u8> {
    let record = image::bytes_to_words(&bytes[..SYNCED_AT]);
    let synced = usize::from(bytes[SYNCED_AT]) + 256 * usize::from(bytes[SYNCED_AT + 1]);
    match with_sum_of(bytes, &partly_summed(id, epoch, index, &record)) == bytes {
        true => image::place(id, epoch, index, &record, synced).to_vec(),
        false => bytes.to_vec(),
    }
}
