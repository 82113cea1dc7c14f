//! So many crews at once for some time, and what they saw.

use std::thread::scope;
use std::time::{Duration, Instant};

/// Who makes visits.
pub trait Visitor {
    /// One visit, up to the commit that is told; answers how often it was refused before.
    fn visit(&mut self) -> usize;
}

/// What crews saw.
#[derive(Clone, Default)]
pub struct Load {
    /// Commits a second, of all and of the crew that made the fewest.
    pub rate: f64,
    pub fewest: f64,
    /// Microseconds of each visit, in ascending order.
    pub times: Vec<f64>,
    /// Visits that were refused and made again.
    pub refused: usize,
}

/// The time that so large a part of ascending times does not exceed.
pub fn within(times: &[f64], part: f64) -> f64 {
    let so_many = (part * times.len() as f64).ceil() as usize;
    times.get(so_many.saturating_sub(1)).copied().unwrap_or(0.0)
}

pub fn mean(times: &[f64]) -> f64 {
    times.iter().sum::<f64>() / times.len().max(1) as f64
}

/// How long crews work before it counts, connecting included, and how long it counts.
pub const WARMING: Duration = Duration::from_millis(500);
pub const TIME: Duration = Duration::from_secs(2);

/// Visits by as many crews, each in a thread of its own; something else is done beside them, from their start.
pub fn load<V: Visitor, R>(
    crews: usize,
    make: impl Fn(usize) -> V + Sync,
    beside: impl FnOnce() -> R,
) -> (Load, R) {
    let start = Instant::now();
    let work = |crew: usize| visits(&mut make(crew), start);
    scope(|scope| {
        let work = &work;
        let threads: Vec<_> = (0..crews).map(|crew| scope.spawn(move || work(crew))).collect();
        let seen = beside();
        (together(threads.into_iter().map(|thread| thread.join().expect("a crew")).collect()), seen)
    })
}

/// What ends after the warming and within the time counts.
fn visits<V: Visitor>(visitor: &mut V, start: Instant) -> Load {
    let mut load = Load::default();
    let end = WARMING + TIME;
    let mut now = start.elapsed();
    while now < end {
        let refused = visitor.visit();
        let after = start.elapsed();
        if after >= WARMING && after < end {
            load.times.push((after - now).as_secs_f64() * 1e6);
            load.refused += refused;
        }
        now = after;
    }
    load
}

fn together(crews: Vec<Load>) -> Load {
    let a_second = |visits: usize| visits as f64 / TIME.as_secs_f64();
    let fewest = crews.iter().map(|crew| crew.times.len()).min().unwrap_or(0);
    let refused = crews.iter().map(|crew| crew.refused).sum();
    let mut times: Vec<f64> = crews.into_iter().flat_map(|crew| crew.times).collect();
    times.sort_by(f64::total_cmp);
    Load { rate: a_second(times.len()), fewest: a_second(fewest), times, refused }
}
