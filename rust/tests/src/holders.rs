//! Examples of who has the page (document 02, L2), each with its answer.

use calls::Call;
use calls::Call::*;
use model::layout::*;

use crate::examples::{cut, no, ok, poke, Example, Step};

/// Refused with 6, which tells the holder.
fn held(call: Call, holder: u32) -> Step {
    Step { value: holder, ..no(call, 6) }
}

/// Both locks of the page so refused.
fn both_held(t: u32, page: u32, holder: u32) -> [Step; 2] {
    [held(LockRead(t, page), holder), held(LockWrite(t, page), holder)]
}

fn example(name: &'static str, steps: impl IntoIterator<Item = Step>) -> Example {
    Example { name, pages: 4, records: 64, steps: steps.into_iter().collect() }
}

/// A new store in which these transactions, in this order, have begun.
fn begun(transactions: &[u32]) -> impl Iterator<Item = Step> + '_ {
    (1..).zip(transactions).map(|(count, &t)| ok(Begin(t, 0), count))
}

/// A writer, and nobody else.
fn writers() -> Vec<Example> {
    let zero = begun(&[0, 1]).chain([ok(LockWrite(0, 0), 0)]).chain(both_held(1, 0, 0));
    let one = begun(&[0, 1]).chain([ok(LockWrite(1, 2), 0)]).chain(both_held(0, 2, 1));
    let last = begun(&[15, 0, 14]).chain([ok(LockWrite(15, 3), 0)]).chain(both_held(0, 3, 15));
    let locks = [ok(LockWrite(3, 0), 0), ok(LockWrite(8, 1), 0), held(LockWrite(8, 0), 3)];
    let pages = begun(&[3, 8, 9]).chain(locks).chain(both_held(9, 1, 8)).chain(both_held(9, 0, 3));
    vec![
        example("6: the holder is 0", zero),
        example("6: the holder is 1", one),
        example("6: the holder is 15", last.chain(both_held(14, 3, 15)).chain([ok(LockRead(15, 3), 0)])),
        example("6: the holder of this page", pages),
    ]
}

/// Readers 2 and 11, then 5 too, until they end.
fn readers() -> Vec<Example> {
    let two = [
        ok(LockRead(11, 1), 0),
        held(LockWrite(2, 1), 11),
        ok(LockRead(2, 1), 0),
        held(LockWrite(2, 1), 11),
        held(LockWrite(11, 1), 2),
        held(LockWrite(5, 1), 2),
    ];
    let three = [
        ok(LockRead(5, 1), 0),
        held(LockWrite(5, 1), 2),
        held(LockWrite(2, 1), 5),
        held(LockWrite(11, 1), 2),
        ok(Commit(2), 4),
        held(LockWrite(11, 1), 5),
        held(LockWrite(5, 1), 11),
        ok(Abort(5), 5),
        ok(LockWrite(11, 1), 0),
        ok(Begin(2, 0), 6),
    ];
    let steps = begun(&[2, 11, 5]).chain(two).chain(three).chain(both_held(2, 1, 11));
    vec![example("6: readers", steps)]
}

/// Page 0 is held, and what is refused with another number tells 0.
fn other_refusals() -> Vec<Example> {
    let locked = || begun(&[4, 6]).chain([ok(LockWrite(4, 0), 0), held(LockWrite(6, 0), 4)]);
    let tests = [
        no(LockRead(6, 4), 3),
        no(LockWrite(16, 0), 3),
        no(LockRead(9, 0), 4),
        no(LockWrite(9, 0), 4),
        no(Read(6, 1), 5),
        no(Create(6, 2), 5),
    ];
    let reopened = [ok(Reopen, 0), no(LockRead(6, 0), 2), no(LockWrite(6, 0), 2)];
    let steps = (0..=4).map(|page| ok(ReopenStep, page));
    let again = [no(LockWrite(6, 0), 4), ok(Begin(6, 0), 1), ok(LockWrite(6, 0), 0)];
    vec![
        example("3, 4 and 5: no holder is told", locked().chain(tests)),
        example("2: no holder is told", locked().chain(reopened).chain(steps).chain(again)),
        example("2: no holder is told after a cut", locked().chain([cut(), no(LockWrite(6, 0), 2)])),
    ]
}

/// Page 1 has these readers and writers, 7 alone is active, and 7 asks for the lock for reading, then for that for
/// writing.
fn rubbish(name: &'static str, readers: &[u32], writers: &[u32], asked: [Step; 2]) -> Example {
    let mask = |transactions: &[u32]| transactions.iter().map(|&t| bit(t)).sum();
    let masks = [
        poke(Area::Work, ACTIVE, bit(7)),
        poke(Area::Work, Table::Readers.first(4) + 1, mask(readers)),
        poke(Area::Work, Table::Writers.first(4) + 1, mask(writers)),
    ];
    example(name, masks.into_iter().chain(asked))
}

/// States that no calls lead to.
fn masks() -> Vec<Example> {
    let all: Vec<u32> = (0..16).collect();
    let then_held = |holder| [ok(LockRead(7, 1), 0), held(LockWrite(7, 1), holder)];
    let out_of_range = || [no(LockRead(7, 1), 1), no(LockWrite(7, 1), 1)];
    vec![
        rubbish("6: the reader below the writer in the way", &[2], &[9], both_held(7, 1, 2)),
        rubbish("6: .. with the one that asks", &[2, 7], &[9], both_held(7, 1, 2)),
        rubbish("6: the writer below the reader", &[14], &[3], both_held(7, 1, 3)),
        rubbish("6: two writers", &[], &[7, 12], both_held(7, 1, 12)),
        rubbish("6: both bits of the one that asks", &[7, 10], &[7, 12], both_held(7, 1, 10)),
        rubbish("6: the writer that asks beside a reader", &[7, 9], &[7], then_held(9)),
        rubbish("6: all sixteen read", &all, &[], then_held(0)),
        rubbish("6: all sixteen write", &[], &all, both_held(7, 1, 0)),
        rubbish("6: a reader that is not active", &[5], &[], then_held(5)),
        rubbish("1: a bit too many of the readers", &[16], &[], out_of_range()),
        rubbish("1: a bit too many of the writers", &[2], &[9, 16], out_of_range()),
    ]
}

pub fn examples() -> Vec<Example> {
    [writers(), readers(), other_refusals(), masks()].into_iter().flatten().collect()
}
