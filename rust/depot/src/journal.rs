//! What waits to be written to the disk, in the order of the calls, and how far it is there.
//!
//! Whoever has to wait for the disk and finds nobody writing writes himself: all records that wait, with one sync
//! (group commit), or one snapshot. So a single tablet's commit goes through no second thread, and the store's lock
//! is never held while the disk is waited for.
//!
//! The order is what makes each state on the disk one that stood between two calls (docs/SERVER.md): records behind
//! a snapshot are written once it is synced, and what a work is told for is told once it is synced.

use std::collections::VecDeque;
use std::io;
use std::sync::{Arc, Condvar, Mutex, MutexGuard};
use std::time::Duration;

use kophdaen::RECORD_WORDS;

use crate::disk::{Disk, Part};
use crate::image::{self, Found, PLACE_BYTES};

enum Work {
    /// Records that became stable, from this place on.
    Records { first: usize, words: Vec<u32> },
    /// The stored pages, the log having been emptied.
    Snapshot { pages: Vec<u32> },
}

/// What the next write goes by; whoever writes has it.
struct Head {
    epoch: u64,
    /// The snapshot that counts.
    file: usize,
    /// Places of this epoch that are on the disk.
    synced: usize,
}

struct State {
    waiting: VecDeque<Work>,
    /// None while someone writes.
    head: Option<Head>,
    /// Works that were handed over, and that are on the disk.
    handed: u64,
    durable: u64,
    epoch: u64,
    /// Snapshots among those that are not on the disk yet.
    snapshots: usize,
    failed: Option<String>,
}

/// The disk failed: nothing is told any more.
#[derive(Debug)]
pub struct Failed;

pub struct Journal {
    disk: Arc<dyn Disk>,
    id: u64,
    room: usize,
    state: Mutex<State>,
    changed: Condvar,
    /// Something was handed over that nobody waits for.
    unwaited: Condvar,
}

impl Journal {
    /// Behind the files in which this was found. The first work is to be a snapshot: it makes a new epoch, so that
    /// places which a cut left behind a gap do not count again.
    pub fn new(disk: Arc<dyn Disk>, found: &Found) -> Journal {
        let head = Head { epoch: found.epoch, file: found.file, synced: 0 };
        let state = State {
            waiting: VecDeque::new(),
            head: Some(head),
            handed: 0,
            durable: 0,
            epoch: found.epoch,
            snapshots: 0,
            failed: None,
        };
        Journal {
            disk,
            id: found.id,
            room: found.room,
            state: Mutex::new(state),
            changed: Condvar::new(),
            unwaited: Condvar::new(),
        }
    }

    fn lock(&self) -> MutexGuard<'_, State> {
        self.state.lock().expect("no writer panics")
    }

    /// Hands over records; answers the work's number, to wait for.
    pub fn records(&self, first: usize, words: Vec<u32>) -> u64 {
        self.hand(Work::Records { first, words })
    }

    pub fn snapshot(&self, pages: Vec<u32>) -> u64 {
        self.hand(Work::Snapshot { pages })
    }

    fn hand(&self, work: Work) -> u64 {
        let mut state = self.lock();
        if let Work::Snapshot { .. } = work {
            state.snapshots += 1;
            self.unwaited.notify_all(); // the housekeeper writes it
        }
        state.waiting.push_back(work);
        state.handed += 1;
        state.handed
    }

    /// Waits until the work with this number is on the disk; writes what waits where nobody does.
    pub fn wait(&self, number: u64) -> Result<(), Failed> {
        let mut state = self.lock();
        loop {
            if state.failed.is_some() {
                return Err(Failed);
            }
            if state.durable >= number {
                return Ok(());
            }
            state = match state.head.take() {
                Some(head) if !state.waiting.is_empty() => self.turn(state, head),
                head => {
                    state.head = head;
                    self.changed.wait(state).expect("no writer panics")
                }
            };
        }
    }

    /// Writes what waits and nobody waits for, such as a checkpoint's snapshot.
    pub fn write_waiting(&self) {
        let handed = self.lock().handed;
        let _ = self.wait(handed);
    }

    /// Whether the snapshot of a checkpoint is still on its way: then there is no other one.
    pub fn in_checkpoint(&self) -> bool {
        self.lock().snapshots > 0
    }

    pub fn epoch(&self) -> u64 {
        self.lock().epoch
    }

    pub fn failed(&self) -> Option<String> {
        self.lock().failed.clone()
    }

    /// Waits until something is handed over that nobody waits for, or so much time has passed.
    pub fn pause(&self, time: Duration) {
        let state = self.lock();
        if state.snapshots == 0 {
            let _ = self.unwaited.wait_timeout(state, time).expect("no writer panics");
        }
    }

    /// Writes and syncs what a turn takes, the state's lock given up meanwhile.
    fn turn<'a>(&'a self, mut state: MutexGuard<'a, State>, mut head: Head) -> MutexGuard<'a, State> {
        let (works, work) = next_turn(&mut state.waiting);
        drop(state);
        let written = self.write(&mut head, &work);
        let mut state = self.lock();
        match written {
            Ok(()) => {
                state.durable += works;
                state.snapshots -= usize::from(matches!(work, Work::Snapshot { .. }));
                state.epoch = head.epoch;
            }
            Err(error) => state.failed = Some(format!("the disk failed: {error}")),
        }
        state.head = Some(head);
        self.changed.notify_all();
        state
    }

    fn write(&self, head: &mut Head, work: &Work) -> io::Result<()> {
        match work {
            Work::Records { first, words } => {
                let places = words.chunks_exact(RECORD_WORDS).enumerate();
                let bytes: Vec<u8> = places
                    .flat_map(|(i, record)| image::place(self.id, head.epoch, first + i, record, head.synced))
                    .collect();
                self.disk.write(Part::Log, (PLACE_BYTES * first) as u64, &bytes)?;
                self.disk.sync(Part::Log)?;
                head.synced = first + words.len() / RECORD_WORDS;
            }
            Work::Snapshot { pages } => {
                let next = Head { epoch: head.epoch + 1, file: 1 - head.file, synced: 0 };
                let bytes = image::snapshot(self.id, next.epoch, pages, self.room);
                self.disk.write(Part::Snapshot(next.file), 0, &bytes)?;
                self.disk.sync(Part::Snapshot(next.file))?;
                *head = next;
            }
        }
        Ok(())
    }
}

/// All records that wait before the next snapshot, as one work, or that snapshot; and how many works it was.
fn next_turn(waiting: &mut VecDeque<Work>) -> (u64, Work) {
    let mut turn = waiting.pop_front().expect("something waits");
    let mut works = 1;
    if let Work::Records { words, .. } = &mut turn {
        while let Some(Work::Records { words: more, .. }) = waiting.front() {
            words.extend(more);
            waiting.pop_front();
            works += 1;
        }
    }
    (works, turn)
}
