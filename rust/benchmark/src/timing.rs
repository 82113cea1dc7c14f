//! Times of one case on the library, lent and held, on the model and of the floor, taken in turns over the
//! same memory.

use std::hint::black_box;
use std::time::{Duration, Instant};

use calls::{Lent, Server};
use kophdaen::{Held, Store, CHAIN_WORDS};
use model::layout::{Areas, AREAS, RECORD_WORDS, STABLE_COUNT};
use model::Model;

use crate::cases::{Case, Floor};
use crate::search::search;

/// Nanoseconds, each the least of its samples.
#[derive(Clone, Copy)]
pub struct Times {
    pub lent: f64,
    /// Of the held form, where it may be called.
    pub held: Option<f64>,
    pub model: f64,
    pub floor: f64,
}

/// All are sampled in turns until the time is spent, at least so often. Before each sample the areas become
/// those of the case again, so that each finds them in the caches alike.
pub fn measure(case: &Case, clock: f64, budget: Duration) -> Times {
    check_same(case);
    let mut areas = case.areas.clone();
    let [mut lent, mut held, mut model, mut plain] = [f64::MAX; 4];
    let started = Instant::now();
    let mut samples = 0;
    while samples < 7 || started.elapsed() < budget {
        areas = sample::<Store>(case, areas, &mut lent);
        if case.has_held_form() {
            areas = sample::<Held>(case, areas, &mut held);
        }
        areas = sample::<Model>(case, areas, &mut model);
        plain = plain.min(floor(case, &mut areas));
        samples += 1;
    }
    let held = case.has_held_form().then_some(held - clock);
    Times { lent: lent - clock, held, model: model - clock, floor: plain - clock }
}

fn restore(areas: &mut Areas, from: &Areas) {
    AREAS.iter().for_each(|&area| areas.of_mut(area).copy_from_slice(from.of(area)));
}

/// One call, after which `least` is no longer than it took.
fn sample<S: Server>(case: &Case, mut areas: Areas, least: &mut f64) -> Areas {
    restore(&mut areas, &case.areas);
    // SAFETY: held only where the case has a held form.
    let mut side = unsafe { S::over(areas) };
    let mut buffer = vec![0; case.call.buffer_words()];
    let started = Instant::now();
    let lent = Lent { buffer: black_box(&mut buffer), image: black_box(&case.image) };
    black_box(side.perform(black_box(case.call), lent));
    *least = least.min(started.elapsed().as_nanos() as f64);
    side.into_areas()
}

fn floor(case: &Case, areas: &mut Areas) -> f64 {
    restore(areas, &case.areas);
    let stable = RECORD_WORDS * areas.stable_count();
    let lent: [&[u32]; 6] = match case.floor {
        Floor::All => AREAS.map(|area| &areas.of(area)[..]),
        Floor::Stable => [&areas.stored, &areas.log[..stable], &areas.counts[STABLE_COUNT..], &[], &[], &[]],
        Floor::Nothing => [&[]; 6],
        Floor::Search(object) => return searched(&areas.copies, object),
    };
    let started = Instant::now();
    black_box(sum(black_box(lent)));
    started.elapsed().as_nanos() as f64
}

fn searched(copies: &[u32], object: u32) -> f64 {
    let mut buffer = vec![0; CHAIN_WORDS];
    let started = Instant::now();
    black_box(search(black_box(copies), black_box(&mut buffer), black_box(object)));
    started.elapsed().as_nanos() as f64
}

fn sum(areas: [&[u32]; 6]) -> u32 {
    areas
        .iter()
        .map(|area| area.iter().fold(0, |sum: u32, &word| sum.wrapping_add(word)))
        .fold(0, u32::wrapping_add)
}

/// All must answer what the case says, and leave the same words.
fn check_same(case: &Case) {
    let library = made::<Store>(case);
    assert_eq!((library.0 >> 32) as u32, case.number, "{}", case.name);
    assert!(library == made::<Model>(case), "{}: library and model differ", case.name);
    assert!(!case.has_held_form() || library == made::<Held>(case), "{}: the held form differs", case.name);
}

/// What a server makes of the case: answer, buffer and areas.
fn made<S: Server>(case: &Case) -> (u64, Vec<u32>, Areas) {
    // SAFETY: held only where the case has a held form.
    let mut side = unsafe { S::over(case.areas.clone()) };
    let mut buffer = vec![1; case.call.buffer_words()];
    let answer = side.perform(case.call, Lent { buffer: &mut buffer, image: &case.image });
    (answer, buffer, side.into_areas())
}

/// What reading the clock twice takes.
pub fn clock() -> f64 {
    (0..10_000).map(|_| Instant::now().elapsed().as_nanos() as f64).fold(f64::MAX, f64::min)
}
