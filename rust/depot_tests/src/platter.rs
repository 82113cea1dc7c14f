//! A file as a disk keeps it: the bytes that are there for sure, and every version of each unit that was written
//! since the file's last sync. A cut leaves any one of them, unit by unit.

use std::collections::BTreeMap;
use std::io::{Error, ErrorKind, Result};
use std::ops::Range;

use depot::disk::Part;
use depot::image::Files;

/// What a disk writes whole, if nothing else is said.
pub const SECTOR: usize = 512;
/// Less than a place of the log.
pub const TORN: usize = 8;

#[derive(Clone)]
pub struct Platter {
    unit: usize,
    durable: Vec<u8>,
    versions: BTreeMap<usize, Vec<Vec<u8>>>,
}

/// How many versions of each unit a sync that begins now makes durable.
pub type Covered = Vec<(usize, usize)>;

/// A unit that is not settled: its bytes' place, and what may stand there, the durable bytes first.
pub struct Choice<'a> {
    pub part: Part,
    pub range: Range<usize>,
    pub versions: Vec<&'a [u8]>,
}

impl Platter {
    fn new(durable: Vec<u8>, unit: usize) -> Platter {
        Platter { unit, durable, versions: BTreeMap::new() }
    }

    fn range(&self, unit: usize) -> Range<usize> {
        self.unit * unit..self.durable.len().min(self.unit * (unit + 1))
    }

    fn newest_of(&self, unit: usize) -> &[u8] {
        let last = self.versions.get(&unit).and_then(|versions| versions.last());
        last.map_or(&self.durable[self.range(unit)], |bytes| bytes)
    }

    /// A write of the server's. All files have their full length from formatting on: one that grows a file is an
    /// error.
    fn write(&mut self, at: usize, bytes: &[u8]) -> Result<()> {
        if at + bytes.len() > self.durable.len() {
            return Err(Error::new(ErrorKind::StorageFull, "a write grows a file"));
        }
        for unit in at / self.unit..(at + bytes.len()).div_ceil(self.unit) {
            let range = self.range(unit);
            let mut version = self.newest_of(unit).to_vec();
            let (from, to) = (range.start.max(at), range.end.min(at + bytes.len()));
            version[from - range.start..to - range.start].copy_from_slice(&bytes[from - at..to - at]);
            if version != self.newest_of(unit) {
                self.versions.entry(unit).or_default().push(version);
            }
        }
        Ok(())
    }

    fn covered(&self) -> Covered {
        self.versions.iter().map(|(&unit, versions)| (unit, versions.len())).collect()
    }

    /// A sync that covered so many versions has ended.
    fn settle(&mut self, covered: &Covered) {
        for &(unit, count) in covered {
            let range = self.range(unit);
            let Some(versions) = self.versions.get_mut(&unit) else { continue };
            let count = count.min(versions.len());
            if let Some(bytes) = versions.drain(..count).next_back() {
                self.durable[range].copy_from_slice(&bytes);
            }
        }
        self.versions.retain(|_, versions| !versions.is_empty());
    }

    fn newest(&self) -> Vec<u8> {
        let mut bytes = self.durable.clone();
        self.versions.keys().for_each(|&unit| bytes[self.range(unit)].copy_from_slice(self.newest_of(unit)));
        bytes
    }

    fn choices(&self, part: Part) -> impl Iterator<Item = Choice<'_>> {
        self.versions.iter().map(move |(&unit, versions)| {
            let durable = std::iter::once(&self.durable[self.range(unit)]);
            let versions = durable.chain(versions.iter().map(Vec::as_slice)).collect();
            Choice { part, range: self.range(unit), versions }
        })
    }
}

/// The three files of a store.
#[derive(Clone)]
pub struct Drive {
    snapshots: [Platter; 2],
    log: Platter,
}

pub fn part_of(files: &mut Files, part: Part) -> &mut Vec<u8> {
    match part {
        Part::Snapshot(which) => &mut files.snapshots[which],
        Part::Log => &mut files.log,
    }
}

impl Drive {
    pub fn new(files: Files, unit: usize) -> Drive {
        let Files { snapshots, log } = files;
        Drive { snapshots: snapshots.map(|bytes| Platter::new(bytes, unit)), log: Platter::new(log, unit) }
    }

    fn part(&mut self, part: Part) -> &mut Platter {
        match part {
            Part::Snapshot(which) => &mut self.snapshots[which],
            Part::Log => &mut self.log,
        }
    }

    pub fn write(&mut self, part: Part, at: u64, bytes: &[u8]) -> Result<()> {
        self.part(part).write(at as usize, bytes)
    }

    pub fn covered(&mut self, part: Part) -> Covered {
        self.part(part).covered()
    }

    pub fn settle(&mut self, part: Part, covered: &Covered) {
        self.part(part).settle(covered);
    }

    pub fn durable(&self) -> Files {
        let [first, second] = &self.snapshots;
        let snapshots = [first.durable.clone(), second.durable.clone()];
        Files { snapshots, log: self.log.durable.clone() }
    }

    /// What a reader sees while the machine runs.
    pub fn newest(&self) -> Files {
        let [first, second] = &self.snapshots;
        Files { snapshots: [first.newest(), second.newest()], log: self.log.newest() }
    }

    pub fn choices(&self) -> Vec<Choice<'_>> {
        let [first, second] = &self.snapshots;
        let snapshots = first.choices(Part::Snapshot(0)).chain(second.choices(Part::Snapshot(1)));
        snapshots.chain(self.log.choices(Part::Log)).collect()
    }
}
