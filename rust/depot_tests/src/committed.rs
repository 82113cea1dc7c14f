//! The committed state as its clients know it: what the root reaches after each commit, by the ledger of commits.

use std::collections::BTreeMap;

use kophdaen::layout::{object_at, occupied, REFERENCES, ROOT, SLOTS};
use kophdaen::{Held, OBJECT_WORDS, PAGE_WORDS};

pub type Words = [u32; OBJECT_WORDS];
pub type Objects = BTreeMap<u32, Words>;

pub fn object_in(page: usize, slot: usize) -> u32 {
    ROOT + (SLOTS * page + slot) as u32
}

pub fn references(words: &Words) -> impl Iterator<Item = u32> + '_ {
    words[..REFERENCES].iter().copied().filter(|&object| object != 0)
}

/// The object's words in a page area; none where its slot is free or beyond the store.
fn words_of(pages: &[u32], object: u32) -> Option<Words> {
    let at = object_at(object);
    let words = pages.get(at..at + OBJECT_WORDS)?;
    occupied(pages, object).then(|| words.try_into().expect("eight words"))
}

/// What the root reaches among these, object by object; an error names one that is not there.
pub fn reached(words: impl Fn(u32) -> Option<Words>) -> Result<Objects, u32> {
    let mut found = Objects::new();
    let mut ahead = vec![ROOT];
    while let Some(object) = ahead.pop() {
        if !found.contains_key(&object) {
            let words = words(object).ok_or(object)?;
            ahead.extend(references(&words));
            found.insert(object, words);
        }
    }
    Ok(found)
}

pub fn reached_in_pages(pages: &[u32]) -> Result<Objects, String> {
    reached(|object| words_of(pages, object)).map_err(|object| format!("object {object} is reached and not there"))
}

/// Reopens a store to its end: its pages.
pub fn reopened(pages: &[u32], records: &[u32], room: usize) -> Result<Vec<u32>, String> {
    let mut held = Held::open(pages, records, room).map_err(|error| error.to_string())?;
    let count = (pages.len() / PAGE_WORDS) as u32;
    let answers: Vec<_> = (0..=count).map(|_| held.reopen_step()).collect();
    match answers.last() {
        Some(last) if last.accepted() && last.value == count => Ok(held.stored().to_vec()),
        _ => Err(format!("the reopening ends with {answers:?}")),
    }
}

/// The states after each commit, in the order of the log.
pub struct Ledger {
    /// The state before the first that is kept, and after each commit behind it.
    states: Vec<Objects>,
    /// How many commits are dropped from the front.
    dropped: usize,
    told: usize,
}

impl Ledger {
    pub fn new(first: Objects) -> Ledger {
        Ledger { states: vec![first], dropped: 0, told: 0 }
    }

    /// A commit is about to be sent.
    pub fn send(&mut self, state: Objects) {
        self.states.push(state);
    }

    /// The last one sent was refused.
    pub fn refuse(&mut self) {
        self.states.pop();
    }

    /// All that were sent are told: what stood before may not come back.
    pub fn tell(&mut self) {
        self.told = self.sent();
        let before = self.states.len() - 1;
        self.states.drain(..before);
        self.dropped += before;
    }

    pub fn sent(&self) -> usize {
        self.dropped + self.states.len() - 1
    }

    pub fn told(&self) -> usize {
        self.told
    }

    /// The state after so many commits.
    pub fn state(&self, commits: usize) -> &Objects {
        &self.states[commits - self.dropped]
    }

    pub fn last(&self) -> &Objects {
        self.states.last().expect("a state is kept")
    }

    /// After how many commits the store was in this state, the last told one or a later one.
    pub fn find(&self, state: &Objects) -> Option<usize> {
        self.states.iter().position(|kept| kept == state).map(|at| self.dropped + at)
    }
}
