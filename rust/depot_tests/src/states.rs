//! The states that a cut may leave: each unit that is not synced at any of its versions, independently.

use depot::image::Files;

use crate::platter::{part_of, Choice, Drive};
use crate::random::Random;

/// What was tried.
#[derive(Default, Clone, Copy)]
pub struct Tried {
    /// Moments at which a cut might come.
    pub moments: u64,
    /// Of those, how many had every state tried.
    pub exhaustive: u64,
    pub states: u64,
}

impl Tried {
    pub fn add(&mut self, other: Tried) {
        self.moments += other.moments;
        self.exhaustive += other.exhaustive;
        self.states += other.states;
    }
}

fn put(files: &mut Files, choice: &Choice, version: usize) {
    part_of(files, choice.part)[choice.range.clone()].copy_from_slice(choice.versions[version]);
}

/// Goes to the next state, like an odometer; false after the last.
fn advance(files: &mut Files, choices: &[Choice], picks: &mut [usize]) -> bool {
    for (choice, pick) in choices.iter().zip(picks) {
        *pick = (*pick + 1) % choice.versions.len();
        put(files, choice, *pick);
        if *pick != 0 {
            return true;
        }
    }
    false
}

fn scatter(files: &mut Files, choices: &[Choice], random: &mut Random) {
    choices.iter().for_each(|choice| put(files, choice, random.below(choice.versions.len())));
}

/// How many states there are, as far as a number tells.
fn count(choices: &[Choice]) -> usize {
    choices.iter().fold(1, |count: usize, choice| count.saturating_mul(choice.versions.len()))
}

/// Shows every state that a cut may leave now, or where there are more than `most` so many by chance.
pub fn each(
    drive: &Drive,
    most: usize,
    random: &mut Random,
    visit: &mut dyn FnMut(&Files) -> Result<(), String>,
) -> Result<Tried, String> {
    let choices = drive.choices();
    let all = count(&choices) <= most;
    let mut picks = vec![0; choices.len()];
    let mut files = drive.durable();
    let mut tried = Tried { moments: 1, exhaustive: u64::from(all), states: 0 };
    loop {
        visit(&files)?;
        tried.states += 1;
        if !all {
            scatter(&mut files, &choices, random);
        }
        if all && !advance(&mut files, &choices, &mut picks) || tried.states >= most as u64 {
            return Ok(tried);
        }
    }
}

/// One state by chance; each unit is kept with this chance of a hundred, at any of its versions.
pub fn one(drive: &Drive, kept: usize, random: &mut Random) -> Files {
    let mut files = drive.durable();
    for choice in drive.choices().iter().filter(|_| random.percent(kept)).collect::<Vec<_>>() {
        let newest = choice.versions.len() - 1;
        let version = if random.percent(50) { newest } else { random.below(newest + 1) };
        put(&mut files, choice, version);
    }
    files
}
