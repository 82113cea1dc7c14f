//! Copies in which many chains of references lead from the root to an object, so that the one to be shown must be
//! chosen: shortest ones of several objects, of equal length.

use model::layout::*;

use crate::random::Random;
use crate::rubbish::{mask, odd_word};

/// Sound pages in place of what the area holds.
pub fn linked_pages(area: &mut [u32], pages: usize, random: &mut Random) {
    area.fill(0);
    let thin = random.between(1, 3);
    for page in 0..pages {
        area[map_at(page)] = mask(random, thin) | u32::from(page == 0);
    }
    let mut there: Vec<u32> = (ROOT..=(SLOTS * pages) as u32).filter(|&object| occupied(area, object)).collect();
    for i in (2..there.len()).rev() {
        there.swap(i, random.between(1, i));
    }
    match random.weighted(&[70, 15, 15]) {
        0 => levels(area, &there, random),
        1 => one_chain(area, &there, random),
        _ => there.iter().for_each(|&object| set_four(area, object, &there, 60, random)),
    }
    for &object in &there {
        (4..8).for_each(|field| area[word_at(object, field)] = data(pages, random));
    }
}

/// Data that would lead on if it were followed, mostly.
fn data(pages: usize, random: &mut Random) -> u32 {
    match random.below(4) {
        0 => odd_word(0, pages, random),
        _ => random.below(SLOTS * pages + 1) as u32,
    }
}

/// Some of the object's references name one of these.
fn set_four(area: &mut [u32], object: u32, among: &[u32], chance: usize, random: &mut Random) {
    for field in 0..4 {
        if random.percent(chance) {
            area[word_at(object, field)] = random.pick(among).unwrap_or(0);
        }
    }
}

/// Levels of a few objects, each of which names some of the next level. What is left over, nothing of that names.
fn levels(area: &mut [u32], there: &[u32], random: &mut Random) {
    let depth = random.between(2, 6);
    let mut level: &[u32] = &there[..1];
    let mut rest = &there[1..];
    for _ in 0..depth {
        let (next, after) = rest.split_at(random.between(2, 5).min(rest.len()));
        for &object in level {
            set_four(area, object, next, 65, random);
            stray(area, object, there, random);
        }
        (level, rest) = (next, after);
    }
    rest.iter().for_each(|&object| set_four(area, object, there, 40, random));
}

/// Seldom a reference that leads back, further on, nowhere, or to a slot that may be free.
fn stray(area: &mut [u32], object: u32, there: &[u32], random: &mut Random) {
    let word = word_at(object, random.below(4));
    match random.below(24) {
        0 => area[word] = object,
        1 => area[word] = random.pick(there).unwrap_or(0),
        2 => area[word] = there[0],
        3 => area[word] = random.between(1, SLOTS * (area.len() / PAGE_WORDS)) as u32,
        _ => {}
    }
}

/// Each names the next.
fn one_chain(area: &mut [u32], there: &[u32], random: &mut Random) {
    for pair in there.windows(2) {
        area[word_at(pair[0], random.below(4))] = pair[1];
    }
}
