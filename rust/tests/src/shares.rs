//! Examples of a pass's share (document 02, L4), each with its answer and its buffer, and of passes made by it.

use calls::Call::*;
use kophdaen::SHARE_WORDS;
use model::layout::*;

use crate::actions::Request;
use crate::examples::{cut, no, ok, poke, Example, Step};
use crate::passes::{example, pass, row, start, with_records};
use crate::run::unwritten;

/// Of so many commits each owes the whole share, and the first `rest` of them one step more.
fn share(commits: u32, [whole, rest]: [u32; 2]) -> Step {
    Step { buffer: Some(vec![whole, rest]), ..ok(PassShare(commits), whole) }
}

fn refused(commits: u32, number: u32) -> Step {
    refused_with(SHARE_WORDS, commits, number)
}

/// The buffer, of so many words, keeps them.
fn refused_with(words: usize, commits: u32, number: u32) -> Step {
    Step { buffer: Some(unwritten(words)), ..no(Request::share(commits, words), number) }
}

/// "Give the whole share, 17 x P + 1 divided by n, and its remainder r, below n".
fn shares() -> Vec<Example> {
    let four = [share(69, [1, 0]), share(68, [1, 1]), share(70, [0, 69]), share(4096, [0, 69]), share(1, [69, 0])];
    let one = [share(1, [18, 0]), share(17, [1, 1]), share(18, [1, 0]), share(19, [0, 18])];
    let most = [share(1, [4353, 0]), share(3, [1451, 0]), share(4095, [1, 258]), share(4096, [1, 257])];
    vec![
        example("L4: with P = 4 and n = 10 this is 6 and 9", 4, [share(10, [6, 9])]),
        example("L4: the whole share and its remainder, P = 4", 4, four),
        example("L4: .. P = 1", 1, one),
        example("L4: .. P = 16", 16, [share(10, [27, 3])]),
        example("L4: .. P = 256", 256, most),
    ]
}

/// Of a whole pass, however far the one is that runs.
fn whole_passes() -> Vec<Example> {
    let marking =
        [ok(StartPass, 0), ok(PassStep, 1).stands(MARKING, 0, 1), share(10, [6, 9]).stands(MARKING, 0, 1)];
    let sweeping = [ok(PassStep, 0).stands(SWEEPING, 0, 2), share(10, [6, 9]).stands(SWEEPING, 0, 2)];
    let number = |number| poke(Area::Work, PASS_STEP, number);
    let odd = [number(68), share(10, [6, 9]).stands(NO_PASS, 0, 68), number(69), refused(10, 1)];
    vec![
        example("L4: the share while a pass runs", 4, marking.into_iter().chain(sweeping)),
        example("rubbish: the share with a step number at its bound, and above it", 4, odd),
    ]
}

/// "Errors: 17, n out of range, after 2."
fn refusals() -> Vec<Example> {
    let range = [0, 4097, 4353, u32::MAX].map(|commits| refused(commits, 17));
    let lengths = [0, 1, 3, 8].map(|words| refused_with(words, 1, 1));
    let colour = Table::Colours.first(1);
    let unsound = [poke(Area::Work, colour, 3), refused(1, 1), refused(0, 1), poke(Area::Work, colour, 2)];
    let reopening = || [refused(0, 2), refused(1, 2), refused_with(3, 0, 1), refused_with(1, 1, 1)];
    let finished = [ok(ReopenStep, 0), refused(0, 2), ok(ReopenStep, 1), refused(0, 17), share(1, [18, 0])];
    vec![
        example("17: n out of range", 256, range),
        example("1: share with another length", 1, lengths.into_iter().chain([refused_with(3, 0, 1)])),
        example("1: share with a colour out of range", 1, unsound.into_iter().chain([share(1, [18, 0])])),
        example("2: share while reopening", 1, [ok(Reopen, 0)].into_iter().chain(reopening()).chain(finished)),
        example("2: share after a cut", 1, [cut()].into_iter().chain(reopening())),
    ]
}

/// "the first r commits owe one step more": after the n-th of them no pass runs. The pass over the row is made so, and
/// where it is over before, a step that is owed is answered 4.
fn spread(name: &'static str, [pages, objects]: [u32; 2], commits: u32) -> Example {
    let all = 17 * pages + 1;
    let [whole, rest] = [all / commits, all % commits];
    let mut left = pass(pages, objects).into_iter();
    let mut steps = row(pages, objects);
    steps.extend([share(commits, [whole, rest]), start()]);
    for commit in 0..commits {
        let count = 2 * (objects + commit);
        steps.extend([ok(Begin(3, 0), count + 1), ok(Commit(3), count + 2)]);
        let owed = whole + u32::from(commit < rest);
        steps.extend((0..owed).map(|_| left.next().unwrap_or_else(|| no(PassStep, 4).rests())));
    }
    steps.push(no(PassStep, 4).rests());
    let records = 4 * (objects + commits) as usize;
    with_records(name, pages as usize, records, steps)
}

fn spreads() -> Vec<Example> {
    vec![
        spread("L4: all steps after one commit", [1, 16], 1),
        spread("L4: the first r commits owe one step more, P = 1 and n = 5", [1, 16], 5),
        spread("L4: .. P = 1 and n = 18", [1, 16], 18),
        spread("L4: .. P = 1 and n = 40", [1, 16], 40),
        spread("L4: .. P = 2 and n = 9", [2, 32], 9),
        spread("L4: .. P = 4 and n = 10", [4, 64], 10),
        spread("L4: .. where the pass is over before", [4, 3], 10),
    ]
}

pub fn examples() -> Vec<Example> {
    [shares(), whole_passes(), spreads(), refusals()].into_iter().flatten().collect()
}
