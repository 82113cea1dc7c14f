//! What a server of held calls pays once, at its start.

use std::hint::black_box;
use std::time::{Duration, Instant};

use kophdaen::{whole, Held, Store, RECORD_WORDS};
use model::layout::STABLE_COUNT;

use crate::states::{accept, act, crowded, fill_log, force_all, populated, Size, ACTOR_RECORDS};

/// Nanoseconds of a start on one disk, each the least of its samples.
pub struct Start {
    pub disk: &'static str,
    pub whole: f64,
    pub open: f64,
}

pub fn starts(size: Size, clock: f64, budget: Duration) -> Vec<Start> {
    let mut full = Store::new(size.pages, size.records);
    full.stored = crowded(size.pages);
    let empty = populated(size);
    let mut filled = empty.clone();
    fill_log(&mut filled, size.records - 2 * ACTOR_RECORDS - 4);
    act(&mut filled);
    force_all(&mut filled);
    let disks = [
        ("all 16 × P objects reached, no records", full),
        ("the store of *Every call*, no records", empty),
        ("the store of *Every call*, log full, one transaction to undo", filled),
    ];
    disks.map(|(disk, store)| start(disk, &store, clock, budget)).into()
}

fn start(disk: &'static str, store: &Store, clock: f64, budget: Duration) -> Start {
    let stable = &store.log[..RECORD_WORDS * store.counts[STABLE_COUNT] as usize];
    let records = store.log.len() / RECORD_WORDS;
    let opened = || Held::open(&store.stored, stable, records).expect("a disk that calls led to");
    let received = opened().received().to_vec();
    Start {
        disk,
        whole: least(budget, || accept(whole(black_box(&received)))) - clock,
        open: least(budget, || drop(black_box(opened()))) - clock,
    }
}

fn least(budget: Duration, mut made: impl FnMut()) -> f64 {
    let started = Instant::now();
    let mut least = f64::MAX;
    while started.elapsed() < budget {
        let sample = Instant::now();
        made();
        least = least.min(sample.elapsed().as_nanos() as f64);
    }
    least
}
