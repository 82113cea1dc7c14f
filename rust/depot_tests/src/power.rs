//! A disk in memory that may lose its power at any operation, and that may be looked at before and after each.

use std::io::{Error, Result};
use std::sync::{Arc, Mutex, MutexGuard};
use std::time::Duration;

use depot::disk::{Disk, Part};
use depot::image::Files;

use crate::platter::Drive;
use crate::random::Random;
use crate::states;

/// Looks at the disk at each moment at which a cut might come.
pub trait Watch: Send {
    fn look(&mut self, drive: &Drive) -> std::result::Result<(), String>;
}

struct Inner {
    drive: Drive,
    operations: u64,
    /// The operation at which the power fails.
    cut_at: Option<u64>,
    /// What the cut left.
    left: Option<Files>,
    watch: Option<Box<dyn Watch>>,
    /// What the watch found.
    wrong: Option<String>,
    random: Random,
}

pub struct Power {
    inner: Mutex<Inner>,
    /// How long a sync takes.
    sync_time: Duration,
}

impl Inner {
    fn check(&self) -> Result<()> {
        match (&self.left, &self.wrong) {
            (None, None) => Ok(()),
            _ => Err(Error::other("the power is cut")),
        }
    }

    fn look(&mut self) -> Result<()> {
        if let Some(watch) = &mut self.watch {
            self.wrong = self.wrong.take().or(watch.look(&self.drive).err());
        }
        self.check()
    }

    fn cut(&mut self) {
        let kept = [0, 50, 100, self.random.below(101)][self.random.below(4)];
        self.left = Some(states::one(&self.drive, kept, &mut self.random));
    }

    /// Counts an operation; a write at which the power fails may still be on its way.
    fn enter(&mut self, write: Option<(Part, u64, &[u8])>) -> Result<()> {
        self.check()?;
        self.look()?;
        self.operations += 1;
        if self.cut_at.is_some_and(|at| self.operations >= at) {
            if let Some((part, at, bytes)) = write.filter(|_| self.random.percent(50)) {
                self.drive.write(part, at, bytes)?;
            }
            self.cut();
        }
        self.check()
    }
}

impl Power {
    pub fn new(files: Files, unit: usize, random: Random) -> Power {
        let drive = Drive::new(files, unit);
        let inner = Inner { drive, operations: 0, cut_at: None, left: None, watch: None, wrong: None, random };
        Power { inner: Mutex::new(inner), sync_time: Duration::ZERO }
    }

    pub fn slow(self, sync_time: Duration) -> Power {
        Power { sync_time, ..self }
    }

    pub fn watched(self, watch: Box<dyn Watch>) -> Power {
        self.lock().watch = Some(watch);
        self
    }

    fn lock(&self) -> MutexGuard<'_, Inner> {
        self.inner.lock().unwrap_or_else(|poisoned| poisoned.into_inner())
    }

    /// The power fails so many operations from now.
    pub fn cut_after(&self, operations: u64) {
        let mut inner = self.lock();
        inner.cut_at = Some(inner.operations + operations.max(1));
    }

    pub fn cut_now(&self) {
        let mut inner = self.lock();
        if inner.left.is_none() {
            inner.cut();
        }
    }

    pub fn is_cut(&self) -> bool {
        self.lock().left.is_some()
    }

    pub fn operations(&self) -> u64 {
        self.lock().operations
    }

    pub fn wrong(&self) -> Option<String> {
        self.lock().wrong.clone()
    }

    /// What the cut left; without one, what was written.
    pub fn left(&self) -> Files {
        let inner = self.lock();
        inner.left.clone().unwrap_or_else(|| inner.drive.newest())
    }
}

impl Disk for Power {
    fn write(&self, part: Part, at: u64, bytes: &[u8]) -> Result<()> {
        let mut inner = self.lock();
        inner.enter(Some((part, at, bytes)))?;
        inner.drive.write(part, at, bytes)?;
        inner.look()
    }

    /// Covers what was written before it began; what is written meanwhile it does not.
    fn sync(&self, part: Part) -> Result<()> {
        let mut inner = self.lock();
        inner.enter(None)?;
        let covered = inner.drive.covered(part);
        drop(inner);
        std::thread::sleep(self.sync_time);
        let mut inner = self.lock();
        inner.check()?;
        inner.drive.settle(part, &covered);
        inner.look()
    }
}

/// A disk that others keep too.
pub fn shared(power: &Arc<Power>) -> Arc<dyn Disk> {
    power.clone()
}
