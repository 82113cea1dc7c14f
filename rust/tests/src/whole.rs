//! `whole` of the library against the model's, on random page areas: references that lead to occupied slots, mostly
//! with one word that does not, sound pages, rubbish, and wrong lengths.

use model::layout::*;
use model::{coded, Fault};

use crate::random::Random;
use crate::rubbish::{mask, odd_word, sound_pages};

/// The answers of the library and of the model with a fault, as the C functions code them.
fn answers(area: &[u32], fault: Fault) -> [u64; 2] {
    [kophdaen::whole(area).code(), coded(model::whole(area, fault))]
}

/// After how many page areas the two differ, and on which.
pub fn noticed(fault: Fault, seed: u64, areas: u64) -> Option<(u64, Vec<u32>)> {
    let mut random = Random::new(seed);
    (1..=areas).find_map(|n| {
        let area = page_area(&mut random);
        let [library, model] = answers(&area, fault);
        (library != model).then_some((n, area))
    })
}

/// Prints a page area on which the two differ.
pub fn report(area: &[u32], fault: Fault) {
    let [library, model] = answers(area, fault);
    println!("DIFFERENCE: whole of {} words is {library:#x} by the library, {model:#x} by the model", area.len());
    print_words(area);
}

/// Prints the words other than 0.
pub fn print_words(words: &[u32]) {
    let words = words.iter().enumerate().filter(|(_, &word)| word != 0);
    words.for_each(|(at, word)| println!("  {at}: {word}"));
}

pub fn run(seed: u64, areas: u64) -> bool {
    let mut random = Random::new(seed);
    let mut told = [0; 3];
    for _ in 0..areas {
        let area = page_area(&mut random);
        let [library, model] = answers(&area, Fault::None);
        if library != model {
            report(&area, Fault::None);
            return false;
        }
        told[if library >> 32 == 0 { library as usize } else { 2 }] += 1;
    }
    let [not, whole, refused] = told;
    println!("whole: {areas} page areas, {whole} whole, {not} not, {refused} refused, no difference");
    true
}

fn page_area(random: &mut Random) -> Vec<u32> {
    let pages = match random.below(50) {
        0 => 256,
        1..=4 => random.between(9, 40),
        _ => random.between(1, 8),
    };
    let mut area = vec![0; PAGE_WORDS * pages];
    match random.weighted(&[85, 10, 5]) {
        0 => joined(&mut area, pages, random),
        1 => sound_pages(&mut area, pages, random),
        _ => area.fill_with(|| random.word()),
    }
    if random.percent(8) {
        let len = match random.below(6) {
            0 => 0,
            1 => area.len() - 1,
            2 => area.len() + 1,
            3 => PAGE_WORDS * 257,
            4 => PAGE_WORDS * 256,
            _ => area.len() + random.below(2 * PAGE_WORDS),
        };
        area.resize(len, 0);
    }
    area
}

/// Objects whose references lead to each other; data words and free slots hold numbers of objects too.
pub fn joined(area: &mut [u32], pages: usize, random: &mut Random) {
    let objects = (SLOTS * pages) as u32;
    let thin = random.between(1, 4);
    for page in 0..pages {
        area[map_at(page)] = mask(random, thin) | u32::from(page == 0);
    }
    let (there, free): (Vec<u32>, Vec<u32>) = (1..=objects).partition(|&object| occupied(area, object));
    let dense = random.pick(&[5, 20, 50]).unwrap();
    for &object in &there {
        for field in 0..8 {
            area[word_at(object, field)] = match field {
                0..=3 if random.percent(dense) => random.pick(&there).unwrap(),
                0..=3 => 0,
                _ => random.below(objects as usize + 2) as u32,
            };
        }
    }
    if random.percent(60) {
        spoil(area, pages, &there, &free, random);
    }
}

/// A reference to an object that is not there, an object gone, or words that nothing looks at.
fn spoil(area: &mut [u32], pages: usize, there: &[u32], free: &[u32], random: &mut Random) {
    let object = random.pick(there).unwrap();
    let reference = word_at(object, random.below(4));
    match random.below(6) {
        0 => area[reference] = (SLOTS * pages + 1) as u32,
        1 => area[reference] = odd_word(area[reference], pages, random),
        2 => area[map_at(page_of(object))] ^= bit(slot_of(object) as u32),
        3 => area[map_at(page_of(object))] |= random.word() << 16,
        4 => free.iter().for_each(|&slot| area[word_at(slot, random.below(8))] = random.word()),
        _ => area[reference] = random.pick(free).unwrap_or(0),
    }
}
