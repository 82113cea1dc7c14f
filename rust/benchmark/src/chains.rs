//! Chains of references in a store that has all its objects: the calls beside a plain search over the same words.

use std::time::Duration;

use calls::{Call, Server};
use kophdaen::{Store, CHAIN_WORDS};
use model::layout::*;

use crate::cases::{Case, Floor};
use crate::random::Random;
use crate::search::{last_found, search};
use crate::states::{accept, crowded, occupy, shuffle, Size};
use crate::timing::{measure, Times};

/// The times of one graph; the floor is the plain search.
pub struct Chain {
    pub graph: &'static str,
    /// In the chain.
    pub objects: u32,
    pub times: Times,
}

pub fn chains(size: Size, clock: f64, budget: Duration) -> Vec<Chain> {
    let numbered: Vec<u32> = (ROOT..).take(SLOTS * size.pages).collect();
    let mut shuffled = numbered.clone();
    shuffle(&mut shuffled, &mut Random::new(1));
    let wide = wide(size.pages);
    let last = |pages: &[u32]| [true, false].map(|ascending| last_found(pages, ascending));
    let graphs = [
        ("all objects in one chain, by number, in word 0", one_chain(&numbered, 1)),
        ("all objects in one chain, in an order and words by chance", one_chain(&shuffled, 4)),
        ("four references each, in an order by chance", wide.clone()),
    ];
    let mut lines: Vec<Chain> =
        graphs.map(|(graph, pages)| chain(graph, size, &pages, last(&pages), clock, budget)).into();
    lines.push(chain("the root itself", size, &wide, [ROOT; 2], clock, budget));
    lines
}

/// Each object names the next, in one of the first words.
fn one_chain(objects: &[u32], words: usize) -> Vec<u32> {
    let mut random = Random::new(1);
    let mut pages = vec![0; PAGE_WORDS * objects.len() / SLOTS];
    objects.iter().for_each(|&object| occupy(&mut pages, object, &mut random));
    for pair in objects.windows(2) {
        pages[word_at(pair[0], random.below(words))] = pair[1];
    }
    pages
}

/// A tree of four references each; the words that are left over name any object.
fn wide(pages: usize) -> Vec<u32> {
    let mut random = Random::new(2);
    let mut area = crowded(pages);
    let objects = SLOTS * pages;
    for at in (ROOT..).take(objects).flat_map(|object| (0..4).map(move |field| word_at(object, field))) {
        if area[at] == 0 {
            area[at] = 1 + random.below(objects) as u32;
        }
    }
    area
}

/// The calls are asked for the first object, the plain search for the second: each for the one that it finds last.
fn chain(
    graph: &'static str,
    size: Size,
    pages: &[u32],
    [object, plain]: [u32; 2],
    clock: f64,
    budget: Duration,
) -> Chain {
    let mut store = Store::new(size.pages, size.records);
    accept(store.format());
    for area in [&mut store.stored, &mut store.copies, &mut store.received] {
        area.copy_from_slice(pages);
    }
    let objects = store.chain(&mut [0; CHAIN_WORDS], object).value;
    assert_eq!(objects, search(pages, &mut [0; CHAIN_WORDS], plain), "{graph}: chains of one length");
    let case = Case {
        name: "chain",
        number: 0,
        call: Call::Chain(object),
        image: Vec::new(),
        areas: store.into_areas(),
        floor: Floor::Search(plain),
    };
    Chain { graph, objects, times: measure(&case, clock, budget) }
}
