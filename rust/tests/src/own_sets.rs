//! Examples of sets that would write an object's own number (document 02, L8), each with its answers and the words that
//! it leaves.

use calls::Call::*;
use model::layout::*;

use crate::examples::{cut, no, ok, poke, Example, Step};

const PAGES: usize = 4;

fn example(name: &'static str, steps: impl IntoIterator<Item = Step>) -> Example {
    with_records(name, 64, steps)
}

fn with_records(name: &'static str, records: usize, steps: impl IntoIterator<Item = Step>) -> Example {
    Example { name, pages: PAGES, records, steps: steps.into_iter().collect() }
}

/// Transaction 0 may change page 0, where it has made these objects.
fn made(objects: &[u32]) -> impl Iterator<Item = Step> + '_ {
    let creates = (2..).zip(objects).map(|(count, &object)| ok(Create(0, object), count));
    [ok(Begin(0, 0), 1), ok(LockWrite(0, 0), 0)].into_iter().chain(creates)
}

/// A set of the object's own number, refused.
fn own(t: u32, object: u32, field: u32, number: u32) -> Step {
    no(SetWord(t, object, field, object), number)
}

/// The request's own lines; and the least log in which 18 comes before 11.
fn lines() -> Vec<Example> {
    let bench = [
        own(0, 1, 0, 18),
        ok(SetWord(0, 1, 4, 1), 2),
        ok(Create(0, 2), 3),
        own(0, 2, 3, 18),
        ok(SetWord(0, 2, 3, 1), 4),
        ok(SetWord(0, 1, 0, 2), 5),
        own(0, 3, 0, 7),
        ok(Flush(0, 0), 0),
        ok(Commit(0), 6),
        ok(StartPass, 0),
        ok(PassStep, 1),
        ok(PassStep, 2),
        ok(PassStep, 0),
    ];
    let full = [ok(SetWord(0, 1, 4, 1), 2), own(0, 1, 0, 18), no(SetWord(0, 1, 5, 1), 11), own(0, 1, 3, 18)];
    vec![
        example("L8: a part cannot contain itself", made(&[]).chain(bench)),
        with_records("18: before 11, L = 5", 5, made(&[]).chain(full)),
        with_records(
            "18: .. L = 2",
            2,
            made(&[]).chain([own(0, 1, 0, 18), no(Create(0, 2), 11), ok(Commit(0), 2)]),
        ),
    ]
}

/// "into one of its reference words", of every object: the root, slot 15, another page, the last one.
fn words() -> Vec<Example> {
    let each = |object: u32, page: u32| {
        let created = (object != ROOT).then(|| ok(Create(0, object), 2));
        let count = 2 + u32::from(object != ROOT);
        let references = (0..4).map(move |field| own(0, object, field, 18));
        let data = (4..8).map(move |field| ok(SetWord(0, object, field, object), count + field - 4));
        let begun = [ok(Begin(0, 0), 1), ok(LockWrite(0, page), 0)];
        begun.into_iter().chain(created).chain(references).chain(data)
    };
    vec![
        example("18: the root's reference words, and its data words", each(1, 0)),
        example("18: .. another object's", each(2, 0)),
        example("18: .. in slot 15", each(16, 0)),
        example("18: .. on another page", each(17, 1)),
        example("18: .. of the last object", each(64, 3)),
    ]
}

/// "Errors: 18, self-reference written, after 7".
fn order() -> Vec<Example> {
    let early = [
        own(0, 1, 0, 4),
        ok(Begin(0, 0), 1),
        own(16, 1, 0, 3),
        own(0, 0, 0, 3),
        own(0, 65, 0, 3),
        own(0, 1, 8, 3),
        own(0, 1, 0, 5),
        ok(LockRead(0, 0), 0),
        own(0, 1, 0, 5),
        own(0, 2, 0, 5),
        ok(LockWrite(0, 0), 0),
        own(0, 2, 0, 7),
        own(0, 17, 0, 5),
        own(0, 1, 0, 18),
        own(0, 1, 8, 3),
    ];
    let linked = [ok(SetWord(0, 1, 2, 2), 3), ok(Flush(0, 0), 0), ok(Commit(0), 4)];
    let other = [ok(Begin(1, 0), 5), ok(LockWrite(1, 0), 0), own(1, 2, 0, 7), own(1, 1, 0, 18), ok(Read(1, 1), 0)];
    let reopening =
        [ok(Begin(0, 0), 1), ok(LockWrite(0, 0), 0), ok(Reopen, 0), own(0, 1, 0, 2), cut(), own(0, 1, 0, 2)];
    let colour = Table::Colours.first(PAGES) + 9;
    let range = [poke(Area::Work, colour, 3), own(0, 1, 0, 1), poke(Area::Work, colour, 2), own(0, 1, 0, 18)];
    vec![
        example("18: after 3, 4, 5 and 7", early),
        example(
            "7: an object that t does not know",
            made(&[2]).chain(linked).chain(other).chain([own(1, 2, 3, 18)]),
        ),
        example("2: an own number while reopening", reopening),
        example("1: an own number, and a colour out of range", made(&[]).chain(range)),
    ]
}

/// Refused, nothing changes: no record, no word, no PRT entry, nothing to flush, nothing to undo.
fn unchanged() -> Vec<Example> {
    let kept = |step: Step| {
        step.leaves(Area::Received, word_at(2, 0), &[3, 0])
            .leaves(Area::Counts, 0, &[4, 0])
            .leaves(Area::Log, RECORD_WORDS * 4, &[0; RECORD_WORDS])
            .at_page(Table::Unflushed, 0, 0)
            .has(Table::Pruned, 0, &[0; 16])
    };
    let refused = [kept(own(0, 2, 0, 18)), kept(own(0, 2, 1, 18)), kept(own(0, 1, 0, 18)), ok(Commit(0), 5)];
    let flushed = [ok(SetWord(0, 2, 0, 3), 4), ok(Flush(0, 0), 0)];
    let marked = [
        own(0, 1, 0, 18),
        ok(Mark(0, 0), 0).has(Table::LeftAtMarks, 0, &[0]),
        own(0, 1, 0, 18),
        ok(Mark(0, 1), 0).has(Table::LeftAtMarks, 0, &[0, 0]),
        ok(Back(0, 0), 0).appends(1, &[]),
        own(0, 1, 0, 18),
        ok(Abort(0), 2).appends(1, &[[5, 0, 0, 0, 0]]),
    ];
    let room = [own(0, 1, 0, 18), own(0, 1, 1, 18), ok(Create(0, 2), 2), own(0, 2, 2, 18), ok(Abort(0), 4)];
    vec![
        example("18: nothing changes", made(&[2, 3]).chain(flushed).chain(refused)),
        example("18: .. and nothing is to be undone", made(&[]).chain(marked)),
        with_records("18: .. or reserved, L = 4", 4, made(&[]).chain(room)),
    ]
}

/// .. nor does a pass that marks learn of it.
fn while_marking() -> Vec<Example> {
    let linked = [ok(SetWord(0, 1, 0, 2), 3), ok(Flush(0, 0), 0), ok(Commit(0), 4), ok(Begin(1, 0), 5)];
    let colours = |step: Step| step.has(Table::Colours, 0, &[GREY, WHITE]).has(Table::Pruned, 0, &[0, 0]);
    let marking = [
        ok(LockWrite(1, 0), 0),
        ok(Read(1, 1), 2),
        ok(StartPass, 0),
        colours(own(1, 1, 0, 18)),
        colours(own(1, 2, 0, 18)),
        ok(SetWord(1, 1, 0, 0), 6).has(Table::Colours, 0, &[GREY, GREY]).has(Table::Pruned, 0, &[0, 2]),
    ];
    vec![example("18: while marking, nothing turns grey", made(&[2]).chain(linked).chain(marking))]
}

/// What is no own number: rings of two objects or three, other objects of the page, the same slot of another page, the
/// number of the word, and the word that is there already.
fn taken() -> Vec<Example> {
    let rings = [
        ok(SetWord(0, 2, 0, 3), 5),
        ok(SetWord(0, 3, 0, 2), 6),
        ok(SetWord(0, 1, 0, 2), 7),
        ok(SetWord(0, 2, 1, 1), 8),
        ok(SetWord(0, 3, 1, 4), 9),
        ok(SetWord(0, 4, 3, 2), 10),
        own(0, 4, 3, 18),
        ok(SetWord(0, 4, 3, 2), 11),
        ok(Flush(0, 0), 0),
        ok(Commit(0), 12),
    ];
    let slots = [
        ok(LockWrite(0, 1), 0),
        ok(Create(0, 18), 3),
        ok(SetWord(0, 2, 0, 18), 4),
        ok(SetWord(0, 18, 0, 2), 5),
        own(0, 18, 0, 18),
        own(0, 2, 0, 18),
    ];
    let numbers = [
        ok(SetWord(0, 1, 1, 2), 4),
        ok(SetWord(0, 2, 2, 3), 5),
        ok(SetWord(0, 3, 3, 1), 6),
        own(0, 3, 3, 18),
        ok(SetWord(0, 3, 3, 0), 7),
    ];
    vec![
        example("L8: rings of two objects and of three are taken", made(&[2, 3, 4]).chain(rings)),
        example("L8: the same slot of another page", made(&[2]).chain(slots)),
        example("L8: the number of the word", made(&[2, 3]).chain(numbers)),
    ]
}

/// A known object whose slot is free, which no calls lead to: all of 1 to 7 pass.
fn rubbish() -> Vec<Example> {
    let known = poke(Area::Work, Table::Known.first(PAGES) + 4, 1);
    let refused =
        [known, own(0, 5, 0, 18), own(0, 5, 3, 18), ok(SetWord(0, 5, 0, 0), 2), ok(SetWord(0, 5, 3, 1), 3)];
    vec![example("rubbish: a free slot would name itself", made(&[]).chain(refused).chain([no(Commit(0), 1)]))]
}

pub fn examples() -> Vec<Example> {
    let all = [lines(), words(), order(), unchanged(), while_marking(), taken(), rubbish()];
    all.into_iter().flatten().collect()
}
