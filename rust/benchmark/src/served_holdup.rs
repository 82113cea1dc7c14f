//! How long the server's calls wait while checkpoints are made, as a client sees it.

use std::thread::sleep;
use std::time::{Duration, Instant};

use model::layout::ROOT;

use crate::served_client::Client;
use crate::served_load::{load, TIME, WARMING};
use crate::served_rounds::Place;
use crate::served_tablet::{prepare, Manner, Tablet};
use crate::served_visit::Crew;

/// Clients that commit meanwhile.
pub const BUSY: usize = 4;

/// Microseconds of each answer, in ascending order.
pub struct HoldUp {
    /// While nobody else comes, and while others commit.
    pub idle: Vec<f64>,
    pub busy: Vec<f64>,
    /// Of the visits of those others, and how many they make in a second.
    pub visits: Vec<f64>,
    pub rate: f64,
    /// Checkpoints that were made meanwhile, and microseconds that one held the store, at most.
    pub checkpoints: u64,
    pub longest: u64,
}

pub fn hold_up(place: &Place) -> HoldUp {
    let pages = place.size.pages;
    place.program.format(place.size);
    let depot = place.program.serve();
    prepare(&depot.address);
    let mut client = Client::connect(&depot.address);
    let idle = asked(&mut client, TIME / 4);
    let tablet = |site| Tablet::new(&depot.address, Crew::new(site, BUSY, pages), pages, Manner::Together);
    let (round, (before, busy, after)) = load(BUSY, tablet, || {
        sleep(WARMING);
        (depot.counts(), asked(&mut client, TIME * 9 / 10), depot.counts())
    });
    drop(client);
    depot.stop();
    let checkpoints = after.checkpoints - before.checkpoints;
    HoldUp { idle, busy, visits: round.times, rate: round.rate, checkpoints, longest: after.longest }
}

/// The root's chain, which needs the store and no transaction, asked for again and again.
fn asked(client: &mut Client, time: Duration) -> Vec<f64> {
    let mut times = Vec::new();
    let start = Instant::now();
    while start.elapsed() < time {
        let asked = Instant::now();
        client.ask(format_args!("chain,{ROOT}"));
        times.push(asked.elapsed().as_secs_f64() * 1e6);
    }
    times.sort_by(f64::total_cmp);
    times
}
