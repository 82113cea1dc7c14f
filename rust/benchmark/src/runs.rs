//! The workload run by each: the best of some rounds, in turns.

use std::path::Path;
use std::time::Duration;

use calls::Server;
use kophdaen::{Held, Store};
use model::Model;

use crate::disk::{sync_time, Disk, Sync};
use crate::tables::{Shop, JOURNALS};
use crate::workload::{Depot, Plan, Shares, Use};

/// Transactions a second, without and with the collector.
#[derive(Clone, Copy, Default)]
pub struct Rates {
    pub without: f64,
    pub with: f64,
    /// Of the time with the collector, the share of its calls.
    pub share: f64,
    /// Microseconds that a sync took just before; 0 where nothing is synced.
    pub sync: f64,
}

pub struct Workload {
    pub plan: Plan,
    /// Named, in the order of the page.
    pub rates: Vec<(String, Rates)>,
    /// In memory with the collector, by held and by lent calls.
    pub uses: [Shares; 2],
    /// Pass steps made because the client found no free slots.
    pub waits: usize,
}

/// A row of SQLite beside the rows that wait for the disk as it does, with the collector.
pub struct Against {
    pub name: String,
    pub rate: f64,
    pub own: [(&'static str, f64); 2],
}

impl Workload {
    pub fn against(&self) -> Vec<Against> {
        let rate =
            |who: &str| self.rates.iter().find(|(name, _)| name == who).map_or(0.0, |(_, rates)| rates.with);
        JOURNALS
            .map(|(journal, name)| {
                let sync = if journal.waits() { "one sync a transaction" } else { "in memory" };
                let own = [("Held", "held"), ("Lent", "lent")]
                    .map(|(form, who)| (form, rate(&format!("{who}, {sync}"))));
                Against { name: name.to_string(), rate: rate(&format!("SQLite, {name}")), own }
            })
            .into()
    }
}

const SLICES: usize = 3;
const SLICE: Duration = Duration::from_millis(200);

pub fn workload(plan: Plan, rounds: usize, directory: &Path, clock: f64) -> Workload {
    let mut rates: Vec<(String, Rates)> = Vec::new();
    for _ in 0..rounds {
        let mut round = vec![
            ("held, in memory".to_string(), depot::<Held>(plan, None, clock)),
            ("lent, in memory".to_string(), depot::<Store>(plan, None, clock)),
            ("model, in memory".to_string(), depot::<Model>(plan, None, clock)),
        ];
        for (sync, name) in [(Sync::EachTransaction, "transaction"), (Sync::EachForce, "force")] {
            let files = Some((directory, sync));
            round.push((format!("held, one sync a {name}"), depot::<Held>(plan, files, clock)));
            round.push((format!("lent, one sync a {name}"), depot::<Store>(plan, files, clock)));
        }
        for (journal, name) in JOURNALS {
            let sync = if journal.waits() { sync_time(directory) } else { 0.0 };
            let rates = shop(|plan| Shop::new(plan, journal, directory), plan);
            round.push((format!("SQLite, {name}"), Rates { sync, ..rates }));
        }
        keep_best(&mut rates, round);
    }
    let (held, waits) = uses::<Held>(plan, clock);
    let (lent, _) = uses::<Store>(plan, clock);
    Workload { plan, rates, uses: [held, lent], waits }
}

/// The time by use, in memory, and how often the client waited for the collector.
fn uses<S: Server>(plan: Plan, clock: f64) -> (Shares, usize) {
    let mut timed = Depot::<S>::new(plan, None);
    warm(&mut timed);
    (timed.run_timed(plan.slice(), 3 * SLICE, clock), timed.waits)
}

/// The rates of one round by one server, in memory or with its stable part on the disk.
fn depot<S: Server>(plan: Plan, files: Option<(&Path, Sync)>, clock: f64) -> Rates {
    let start = |steps| {
        let disk = files.map(|(directory, sync)| Disk::new(directory, sync, plan.size.records));
        Depot::<S>::new(Plan { steps, ..plan }, disk)
    };
    let sync = files.map_or(0.0, |(directory, _)| sync_time(directory));
    let mut best = Rates { sync, ..Rates::default() };
    for _ in 0..SLICES {
        let (run, seconds) = run_fresh(|| start(0), plan.slice());
        best.without = best.without.max(run as f64 / seconds);
    }
    let mut collected = start(plan.steps);
    warm(&mut collected);
    for _ in 0..SLICES {
        let (run, seconds) = collected.run_for(plan.slice(), SLICE);
        best.with = best.with.max(run as f64 / seconds);
    }
    best.share = collected.run_timed(plan.slice(), SLICE, clock)[Use::Collecting as usize];
    best
}

/// Without a collector a small store is full soon: it is made anew, outside the timed part.
fn run_fresh<S: Server>(start: impl Fn() -> Depot<S>, least: usize) -> (usize, f64) {
    let (mut all, mut time) = (0, 0.0);
    let slice = SLICE.as_secs_f64();
    while time < slice || all < least && time < 3.0 * slice {
        let (run, seconds) = start().run_for(least, SLICE);
        (all, time) = (all + run, time + seconds);
    }
    (all, time)
}

/// Until a pass has swept what became garbage before it, but not for long.
fn warm<S: Server>(depot: &mut Depot<S>) {
    depot.run_for(2 * depot.plan.pass_length(), SLICE);
}

/// The same of SQLite.
fn shop(open: impl Fn(Plan) -> Shop, plan: Plan) -> Rates {
    let mut best = Rates::default();
    let mut plain = open(Plan { steps: 0, ..plan });
    for _ in 0..SLICES {
        let (run, seconds) = plain.run_for(SLICE);
        best.without = best.without.max(run as f64 / seconds);
    }
    drop(plain);
    let mut collected = open(plan);
    let mut all = 0.0;
    for _ in 0..SLICES {
        let (run, seconds) = collected.run_for(SLICE);
        best.with = best.with.max(run as f64 / seconds);
        all += seconds;
    }
    best.share = collected.collecting / all;
    best
}

/// Noise only slows down: each rate is the highest of its rounds.
fn keep_best(best: &mut Vec<(String, Rates)>, round: Vec<(String, Rates)>) {
    if best.is_empty() {
        *best = round;
        return;
    }
    for ((_, best), (_, new)) in best.iter_mut().zip(round) {
        best.without = best.without.max(new.without);
        if new.with > best.with {
            (best.with, best.share, best.sync) = (new.with, new.share, new.sync);
        }
    }
}
