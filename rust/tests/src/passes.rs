//! Examples of the steps of a pass (document 02, L4), each with its answers and the phase, the page and the step number
//! that it leaves.

use calls::Call::*;
use model::layout::*;

use crate::examples::{cut, no, ok, poke, Example, Step};

pub fn example(name: &'static str, pages: usize, steps: impl IntoIterator<Item = Step>) -> Example {
    with_records(name, pages, 64, steps)
}

pub fn with_records(
    name: &'static str,
    pages: usize,
    records: usize,
    steps: impl IntoIterator<Item = Step>,
) -> Example {
    Example { name, pages, records, steps: steps.into_iter().collect() }
}

impl Step {
    /// .. after which the pass has this phase, page and step number.
    pub fn stands(self, phase: u32, page: u32, number: u32) -> Step {
        self.leaves(Area::Work, PHASE, &[phase, page, number])
    }

    /// .. after which none runs.
    pub fn rests(self) -> Step {
        self.stands(NO_PASS, 0, 0)
    }
}

/// Objects 2 to so many, each named by the one before it, in a store of these pages, and committed.
pub fn row(pages: u32, objects: u32) -> Vec<Step> {
    let locks = (0..pages).map(|page| ok(LockWrite(0, page), 0));
    let link =
        |object| [ok(Create(0, object), 2 * object - 2), ok(SetWord(0, object - 1, 0, object), 2 * object - 1)];
    let flushes = (0..pages).map(|page| ok(Flush(0, page), 0));
    let links = (2..=objects).flat_map(link);
    [ok(Begin(0, 0), 1)]
        .into_iter()
        .chain(locks)
        .chain(links)
        .chain(flushes)
        .chain([ok(Commit(0), 2 * objects)])
        .collect()
}

/// The steps of a pass over a row, to its end: the objects, the turn, the pages.
pub fn pass(pages: u32, objects: u32) -> Vec<Step> {
    let scans = (1..=objects).map(|object| ok(PassStep, object).stands(MARKING, 0, object));
    let turn = ok(PassStep, 0).stands(SWEEPING, 0, objects + 1);
    let swept = (1..pages).map(|page| ok(PassStep, 0).stands(SWEEPING, page, objects + 1 + page));
    scans.chain([turn]).chain(swept).chain([ok(PassStep, 0).rests()]).collect()
}

pub fn start() -> Step {
    ok(StartPass, 0).stands(MARKING, 0, 0)
}

/// "A pass ends after at most 17 x P + 1 accepted steps: 16 x P objects scanned, one turn, P pages".
fn longest(name: &'static str, pages: u32) -> Example {
    let steps = pass(pages, 16 * pages);
    assert_eq!(steps.len() as u32, 17 * pages + 1);
    let over = [no(PassStep, 4).rests(), start()];
    let steps = row(pages, 16 * pages).into_iter().chain([start()]).chain(steps).chain(over);
    with_records(name, pages as usize, 64 * pages as usize, steps)
}

/// ".. whatever calls come between": object 2 and the unflushed 3 are pruned while the pass marks, 2 once more where it
/// is scanned already, and no call but an accepted step counts.
fn calls_between() -> Vec<Example> {
    let marking = [
        start(),
        ok(Begin(1, 0), 5).stands(MARKING, 0, 0),
        ok(LockWrite(1, 0), 0),
        no(StartPass, 4).stands(MARKING, 0, 0),
        ok(Read(1, 1), 2),
        ok(SetWord(1, 1, 0, 0), 6),
        ok(Create(1, 3), 7),
        ok(SetWord(1, 1, 1, 3), 8),
        ok(SetWord(1, 1, 1, 0), 9).stands(MARKING, 0, 0),
        ok(PassStep, 1).stands(MARKING, 0, 1),
        ok(PassStep, 2).stands(MARKING, 0, 2),
        ok(SetWord(1, 1, 2, 2), 10),
        ok(SetWord(1, 1, 2, 0), 11),
        ok(PassStep, 3).stands(MARKING, 0, 3),
    ];
    let ended = [
        ok(Abort(1), 18).stands(MARKING, 0, 3),
        ok(Force, 1).stands(MARKING, 0, 3),
        ok(PassStep, 0).stands(SWEEPING, 0, 4),
        ok(Begin(2, 0), 19).stands(SWEEPING, 0, 4),
        ok(PassStep, 0).rests(),
    ];
    vec![example("L4: whatever calls come between", 1, row(1, 2).into_iter().chain(marking).chain(ended))]
}

/// "a reopening ends it early".
fn ended_early() -> Vec<Example> {
    let steps = || [start(), ok(PassStep, 1).stands(MARKING, 0, 1), ok(PassStep, 0).stands(SWEEPING, 0, 2)];
    let reopened = || [ok(Reopen, 0).rests(), ok(ReopenStep, 0), ok(ReopenStep, 1).rests(), no(PassStep, 4)];
    let lost = [cut().rests(), no(PassStep, 2), no(StartPass, 2)];
    let again = steps().into_iter().chain([ok(PassStep, 0).rests()]);
    vec![
        example("L4: a reopening ends it early", 1, steps().into_iter().chain(reopened()).chain(again.clone())),
        example("L4: .. after a cut", 1, steps().into_iter().chain(lost).chain(reopened()).chain(again)),
    ]
}

/// "A step refused for log room is not counted."
fn log_room() -> Vec<Example> {
    let full = [
        ok(Begin(0, 0), 1),
        ok(LockWrite(0, 0), 0),
        ok(Create(0, 2), 2),
        ok(Flush(0, 0), 0),
        ok(Commit(0), 3),
        ok(Begin(1, 0), 4),
        ok(Abort(1), 5),
        start(),
        ok(PassStep, 1).stands(MARKING, 0, 1),
        ok(PassStep, 0).stands(SWEEPING, 0, 2),
        no(PassStep, 11).stands(SWEEPING, 0, 2),
        no(PassStep, 11).stands(SWEEPING, 0, 2),
    ];
    let forced = (1..=5).map(|count| ok(Force, count).stands(SWEEPING, 0, 2));
    let emptied =
        [ok(StorePage(0), 0), ok(EmptyLog, 0).stands(SWEEPING, 0, 2), ok(PassStep, 1).rests(), no(PassStep, 4)];
    let name = "L4: a step refused for log room is not counted";
    vec![with_records(name, 1, 5, full.into_iter().chain(forced).chain(emptied))]
}

/// "The step number kept with the pass must equal the steps of document 01 taken since its start": skipped pages too.
fn skipped() -> Vec<Example> {
    let locked = [ok(Begin(0, 0), 1), ok(LockWrite(0, 0), 0), ok(Begin(1, 0), 2), ok(LockWrite(1, 1), 0)];
    let steps = [
        start(),
        ok(PassStep, 1).stands(MARKING, 0, 1),
        ok(PassStep, 0).stands(SWEEPING, 0, 2),
        ok(PassStep, 0).stands(SWEEPING, 1, 3),
        ok(PassStep, 0).rests(),
    ];
    vec![example("L4: skipped pages are steps", 2, locked.into_iter().chain(steps))]
}

/// States that no calls lead to: a start sets the step number, and a step leaves it at its bound (DECISIONS 35).
fn odd_numbers() -> Vec<Example> {
    let pass = |[phase, number]: [u32; 2]| [poke(Area::Work, PHASE, phase), poke(Area::Work, PASS_STEP, number)];
    let none = pass([NO_PASS, 17]).into_iter().chain([no(PassStep, 4).stands(NO_PASS, 0, 17), start()]);
    let bound = [ok(PassStep, 0).stands(SWEEPING, 0, 17), ok(PassStep, 1).rests()]; // the root is white
    let above = pass([SWEEPING, 18]).into_iter().chain([no(PassStep, 1).stands(SWEEPING, 0, 18)]);
    vec![
        example("rubbish: a step number where no pass runs", 1, none),
        example("rubbish: .. at its bound", 1, pass([MARKING, 17]).into_iter().chain(bound)),
        example("1: .. above its bound", 1, above),
    ]
}

pub fn examples() -> Vec<Example> {
    let bounds = vec![longest("L4: 18 steps, P = 1", 1), longest("L4: 52 steps, P = 3", 3)];
    let sentences = [bounds, calls_between(), ended_early(), log_room(), skipped(), odd_numbers()];
    sentences.into_iter().flatten().collect()
}
