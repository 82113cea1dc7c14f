//! Document 01's fourteen examples of the refusal table, its bench input and its cases on L, each
//! with the answers that the document gives; and the examples of chains, of holders, of marks, of
//! passes and of their shares, of readers, of the sweeping step's order, of own numbers, of clients and
//! their rights, and of a page by columns.

use calls::Call::*;
use model::layout::*;

use crate::actions::*;
use crate::chains;
use crate::contractors;
use crate::holders;
use crate::marks;
use crate::old_stores;
use crate::own_sets;
use crate::passes;
use crate::readers;
use crate::rights;
use crate::run::*;
use crate::shares;
use crate::sides::Kind;
use crate::sweeps;
use crate::turns;

/// An action with its answer, number and value (0,0 for a poke or a cut), and, where the example tells it, every word
/// of the buffer after it, and words of the areas, from one of them on.
#[derive(Clone)]
pub struct Step {
    pub action: Action,
    pub number: u32,
    pub value: u32,
    pub buffer: Option<Vec<u32>>,
    pub words: Vec<(Area, usize, Vec<u32>)>,
}

impl Step {
    /// .. after which these words stand there.
    pub fn leaves(mut self, area: Area, from: usize, words: &[u32]) -> Step {
        self.words.push((area, from, words.to_vec()));
        self
    }
}

/// Steps from a formatted store on; client 0 has all rights on it, as on the bench's, but in those of rights.
pub struct Example {
    pub name: &'static str,
    pub pages: usize,
    pub records: usize,
    pub steps: Vec<Step>,
}

fn example(name: &'static str, records: usize, steps: &[Step]) -> Example {
    Example { name, pages: 4, records, steps: steps.to_vec() }
}

fn step(action: Action, number: u32, value: u32) -> Step {
    Step { action, number, value, buffer: None, words: Vec::new() }
}

pub fn ok(call: impl Into<Request>, value: u32) -> Step {
    step(Action::Call(call.into()), 0, value)
}

pub fn no(call: impl Into<Request>, number: u32) -> Step {
    step(Action::Call(call.into()), number, 0)
}

pub fn poke(area: Area, index: usize, word: u32) -> Step {
    step(Action::Poke(area, index, word), 0, 0)
}

pub fn cut() -> Step {
    step(Action::Cut, 0, 0)
}

/// After these two, transaction 0 may change page 0.
fn begun() -> [Step; 2] {
    [ok(Begin(0, 0), 1), ok(LockWrite(0, 0), 0)]
}

/// What follows `begun`.
fn then<const N: usize>(steps: [Step; N]) -> Vec<Step> {
    begun().into_iter().chain(steps).collect()
}

/// The refusal table, line by line.
fn refusals() -> Vec<Example> {
    let short = Request::flush(0, 0, Image::Long(128));
    let changed = Request::flush(0, 0, Image::Changed(5, 1));
    let held = [ok(Begin(0, 0), 1), ok(Begin(1, 0), 2), ok(LockWrite(0, 0), 0), no(LockWrite(1, 0), 6)];
    let kind = [poke(Area::Log, 0, 8), poke(Area::Counts, STABLE_COUNT, 1), no(Reopen, 14)];
    vec![
        example("1: image of 128 words", 64, &then([no(short, 1)])),
        example("2: begin,0 while reopening", 64, &[ok(Reopen, 0), no(Begin(0, 0), 2)]),
        example("2: begin,0 after a cut", 64, &[cut(), no(Begin(0, 0), 2)]),
        example("3: begin,16", 64, &[no(Begin(16, 0), 3)]),
        example("4: commit,3 first", 64, &[no(Commit(3), 4)]),
        example("5: read,0,1 unlocked", 64, &[ok(Begin(0, 0), 1), no(Read(0, 1), 5)]),
        example("6: lockw,1,0 after lockw,0,0", 64, &held),
        example("7: set,0,1,0,9", 64, &then([no(SetWord(0, 1, 0, 9), 7)])),
        example("8: create,0,1", 64, &then([no(Create(0, 1), 8)])),
        example("9: one word changed", 64, &then([no(changed, 9)])),
        example("10: commit,0 after a set", 64, &then([ok(SetWord(0, 1, 4, 7), 2), no(Commit(0), 10)])),
        example("11: create with L = 3", 3, &then([no(Create(0, 2), 11)])),
        example("12: store,0 after create,0,2, unforced", 64, &then([ok(Create(0, 2), 2), no(StorePage(0), 12)])),
        example("13: empty after begin", 64, &[ok(Begin(0, 0), 1), no(EmptyLog, 13)]),
        example("14: kind 8", 64, &kind),
    ]
}

fn room() -> Vec<Example> {
    vec![
        example("room: L = 1 refuses the first begin", 1, &[no(Begin(0, 0), 11)]),
        example("room: L = 2 takes it", 2, &[ok(Begin(0, 0), 1)]),
        example("room: L = 4 takes a create after it", 4, &then([ok(Create(0, 2), 2)])),
    ]
}

fn bench() -> Example {
    let steps = [
        ok(Begin(0, 0), 1),
        ok(LockWrite(0, 0), 0),
        ok(Create(0, 2), 2),
        ok(SetWord(0, 1, 0, 2), 3),
        ok(Flush(0, 0), 0),
        ok(Commit(0), 4),
        ok(Begin(1, 0), 5),
        ok(LockWrite(1, 0), 0),
        ok(SetWord(1, 1, 0, 0), 6),
        ok(Flush(1, 0), 0),
        ok(Commit(1), 7),
        ok(StartPass, 0),
        ok(PassStep, 1),
        ok(PassStep, 0),
        ok(PassStep, 1),
    ];
    example("the bench input", 64, &steps)
}

/// Makes a step on both sides: what went wrong.
fn made(pair: &mut Pair, Step { action, number, value, buffer, words }: &Step) -> Result<(), String> {
    let answer = pair.step(action)?;
    if answer != u64::from(*number) << 32 | u64::from(*value) {
        return Err(format!("answers {},{}", answer >> 32, answer as u32));
    }
    if buffer.as_ref().is_some_and(|buffer| *buffer != pair.buffer) {
        return Err("another buffer than the example's".to_string());
    }
    let stands =
        |(area, from, words): &&(Area, usize, Vec<u32>)| pair.left.area(*area)[*from..].starts_with(words);
    match words.iter().find(|place| !stands(place)) {
        Some((area, from, _)) => Err(format!("other words than the example's from {area:?} {from} on")),
        None => Ok(()),
    }
}

/// The steps, with all rights for client 0 after formatting and after each last reopening step (DECISIONS 95).
fn granting(Example { name, pages, records, steps }: Example) -> Example {
    let grants = || (0..pages as u32).map(|page| ok(Grant(0, page, WRITING), 0));
    let last = ok(ReopenStep, pages as u32);
    let is_last = |step: &Step| step.action == last.action && [step.number, step.value] == [0, last.value];
    let with_grants = |step: Step| {
        let reopened = is_last(&step);
        [step].into_iter().chain(grants().filter(move |_| reopened))
    };
    let steps = grants().chain(steps.into_iter().flat_map(with_grants)).collect();
    Example { name, pages, records, steps }
}

/// Every example of the calls.
fn all() -> Vec<Example> {
    let own = [refusals(), room(), vec![bench()]];
    let requests = [chains::examples(), holders::examples(), marks::examples()];
    let passes = [passes::examples(), shares::examples(), readers::examples(), sweeps::examples()];
    let own_numbers = [own_sets::examples(), old_stores::examples()];
    let granted = own.into_iter().chain(requests).chain(passes).chain(own_numbers).flatten().map(granting);
    granted.chain(rights::examples()).chain(contractors::examples()).collect()
}

/// Runs every example on both sides: how many examples and calls, or what went wrong.
pub fn run(left: Kind, right: Kind) -> Result<[u64; 2], String> {
    let mut calls = 0;
    let all = all();
    let examples = all.len() as u64;
    for Example { name, pages, records, steps } in all {
        let mut pair = Pair::new(left, right, pages, records);
        for step in [ok(Format, 0)].iter().chain(&steps) {
            made(&mut pair, step).map_err(|what| format!("{name}: {}: {what}", step.action))?;
            calls += u64::from(step.action.call().is_some());
        }
    }
    let turns = turns::run(left, right)?;
    Ok([examples + turns, calls + turns])
}
