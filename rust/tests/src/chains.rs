//! Examples of chains of references (document 02, L1), each with its answer and every word of its buffer.

use std::collections::BTreeMap;

use calls::Call::*;
use kophdaen::CHAIN_WORDS;
use model::layout::*;

use crate::actions::Request;
use crate::examples::{cut, no, ok, poke, Example, Step};
use crate::run::unwritten;

/// These objects are the chain to the last of them, or to none.
pub fn chain(object: u32, objects: &[u32]) -> Step {
    let mut buffer = objects.to_vec();
    buffer.resize(CHAIN_WORDS, 0);
    Step { buffer: Some(buffer), ..ok(Chain(object), objects.len() as u32) }
}

fn refused(object: u32, number: u32) -> Step {
    refused_with(CHAIN_WORDS, object, number)
}

/// The buffer, of so many words, keeps them.
fn refused_with(words: usize, object: u32, number: u32) -> Step {
    Step { buffer: Some(unwritten(words)), ..no(Request::chain(object, words), number) }
}

/// The page copies get these objects, each with its references from word 0 on, and what those name.
fn graph(objects: &[(u32, &[u32])]) -> Vec<Step> {
    graph_in(Area::Copies, objects)
}

/// .. or another page area does.
pub fn graph_in(area: Area, objects: &[(u32, &[u32])]) -> Vec<Step> {
    let mut maps = BTreeMap::from([(page_of(ROOT), bit(slot_of(ROOT) as u32))]);
    let mut steps = Vec::new();
    for &(object, references) in objects {
        for &there in [object].iter().chain(references) {
            *maps.entry(page_of(there)).or_insert(0) |= bit(slot_of(there) as u32);
        }
        let words = references.iter().enumerate();
        steps.extend(words.map(|(field, &word)| poke(area, word_at(object, field), word)));
    }
    steps.extend(maps.into_iter().map(|(page, map)| poke(area, map_at(page), map)));
    steps
}

/// So many pages with a graph in the copies, and what is asked then.
fn shown<const N: usize>(
    name: &'static str,
    pages: usize,
    objects: &[(u32, &[u32])],
    asked: [Step; N],
) -> Example {
    Example { name, pages, records: 64, steps: graph(objects).into_iter().chain(asked).collect() }
}

/// In each a wrong search shows another chain, or one where there is none.
fn searches() -> Vec<Example> {
    let words = [chain(3, &[1, 3]), chain(4, &[1, 4]), chain(2, &[1, 3, 2])];
    let levels = [chain(5, &[1, 2, 5]), chain(4, &[1, 3, 4]), chain(6, &[1, 2, 5, 6])];
    let fewest = [chain(4, &[1, 16, 4]), chain(3, &[1, 2, 3])];
    let cycle = [chain(5, &[]), chain(6, &[]), chain(1, &[1]), refused(2, 15)];
    let itself = [chain(1, &[1]), chain(2, &[1, 2])];
    let next: Vec<u32> = (2..=4096).collect();
    let long: Vec<(u32, &[u32])> = next.iter().map(|v| (v - 1, std::slice::from_ref(v))).collect();
    let all: Vec<u32> = (1..=4096).collect();
    vec![
        shown("chain: not in word order", 1, &[(1, &[4, 3]), (3, &[2]), (4, &[2])], words),
        shown("chain: not by level", 1, &[(1, &[3, 2]), (2, &[5]), (3, &[4]), (4, &[6]), (5, &[6])], levels),
        shown("chain: fewest links", 1, &[(1, &[2, 16]), (2, &[3]), (3, &[4]), (16, &[4])], fewest.clone()),
        shown("chain: .. in another order", 1, &[(1, &[16, 2]), (2, &[3]), (3, &[4]), (16, &[4])], fewest),
        shown("chain: a cycle that the root does not reach", 1, &[(5, &[6]), (6, &[5])], cycle),
        shown("chain: a root that names itself", 1, &[(1, &[2, 1]), (2, &[1])], itself),
        shown("chain: all 4096 objects", 256, &long, [chain(4096, &all), chain(17, &all[..17]), refused(4097, 3)]),
    ]
}

/// Words 0 to 3 lead on, words 4 to 7 do not; and a word that names a free slot.
fn words() -> Vec<Example> {
    let word = |field| poke(Area::Copies, word_at(1, field), 2);
    let data = [word(4), word(7), chain(2, &[]), word(3), chain(2, &[1, 2])];
    let free = [poke(Area::Copies, word_at(1, 1), 9), refused(9, 15), chain(2, &[])];
    vec![
        shown("chain: data words", 1, &[(2, &[])], data),
        shown("15: a free slot that the root names", 1, &[(2, &[])], free),
    ]
}

fn refusals() -> Vec<Example> {
    let lengths = [0, 8, 16, 4095, 4097].map(|words| refused_with(words, 1, 1));
    let colour = Table::Colours.first(1);
    let unsound = [poke(Area::Copies, map_at(0), 1 << 16 | 1), refused(1, 1), poke(Area::Copies, map_at(0), 1)];
    let range = [chain(1, &[1]), poke(Area::Work, colour, 3), refused(1, 1), poke(Area::Work, colour, 2)];
    let formatted = [chain(1, &[1]), refused(2, 15), refused(17, 3), refused(0, 3)];
    let short = refused_with(8, 0, 1);
    vec![
        shown("chain: formatted", 1, &[], formatted),
        shown("1: chain with another length", 1, &[], lengths),
        shown("1: chain in unsound copies", 1, &[], unsound),
        shown("1: chain with a colour out of range", 1, &[], range),
        shown("2: chain while reopening", 1, &[], [ok(Reopen, 0), refused(0, 2), short.clone()]),
        shown("2: chain after a cut", 1, &[], [cut(), refused(1, 2), short]),
    ]
}

/// By calls: what is flushed shows, and nothing else.
fn flushes() -> Vec<Example> {
    let created = [
        ok(Begin(0, 0), 1),
        ok(LockWrite(0, 0), 0),
        ok(LockWrite(0, 1), 0),
        ok(Create(0, 17), 2),
        ok(SetWord(0, 1, 0, 17), 3),
        refused(17, 15),
        ok(Flush(0, 0), 0),
        refused(17, 15),
        ok(Flush(0, 1), 0),
        chain(17, &[1, 17]),
    ];
    let cleared = [ok(SetWord(0, 1, 0, 0), 4), chain(17, &[1, 17]), ok(Flush(0, 0), 0), chain(17, &[])];
    let aborted = [ok(Abort(0), 8), refused(17, 15)];
    let steps = created.into_iter().chain(cleared).chain(aborted).collect();
    vec![Example { name: "chain: flushed and not", pages: 4, records: 64, steps }]
}

pub fn examples() -> Vec<Example> {
    [searches(), words(), refusals(), flushes()].into_iter().flatten().collect()
}
