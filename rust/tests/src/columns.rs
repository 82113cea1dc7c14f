//! `to_columns` and `from_columns` of the library against the model's, on random pages: sound ones, unsound ones,
//! rubbish, and wrong lengths. Each after the other must give the page back.

use model::coded;
use model::layout::*;

use crate::random::Random;
use crate::rubbish::{odd_word, sound_pages};
use crate::run::{show, unlike, unwritten};
use crate::sides::{Kind, MODEL};
use crate::whole::print_words;

#[derive(Clone, Copy, PartialEq, Eq, Debug)]
pub enum Turn {
    ToColumns,
    FromColumns,
}

pub const TURNS: [Turn; 2] = [Turn::ToColumns, Turn::FromColumns];

impl Turn {
    fn inverse(self) -> Turn {
        match self {
            Turn::ToColumns => Turn::FromColumns,
            Turn::FromColumns => Turn::ToColumns,
        }
    }

    /// Fills `out`; the answer as the C functions code it.
    fn fill(self, side: Kind, page: &[u32], out: &mut [u32]) -> u64 {
        match (side, self) {
            (Kind::Library, Turn::ToColumns) => kophdaen::to_columns(page, out).code(),
            (Kind::Library, Turn::FromColumns) => kophdaen::from_columns(page, out).code(),
            (Kind::Model(fault), Turn::ToColumns) => coded(model::to_columns(page, out, fault)),
            (Kind::Model(fault), Turn::FromColumns) => coded(model::from_columns(page, out, fault)),
            (Kind::Held(_), _) => self.fill(MODEL, page, out), // there is no held form
        }
    }

    /// The answer, and what it leaves in an out of so many words, none of them 0 before; or what differs.
    pub fn made(self, [left, right]: [Kind; 2], page: &[u32], words: usize) -> Result<(u64, Vec<u32>), String> {
        let [mut out, mut other] = [unwritten(words), unwritten(words)];
        let [answer, answered] = [self.fill(left, page, &mut out), self.fill(right, page, &mut other)];
        if answer != answered {
            return Err(format!("answers {} and {}", show(answer), show(answered)));
        }
        unlike(&out, &other).map(|_| (answer, out))
    }
}

/// A page, and how many words out has.
pub struct Lent {
    page: Vec<u32>,
    out: usize,
}

impl Lent {
    fn new(random: &mut Random) -> Lent {
        let mut page = page(random);
        let [words, out] = lengths(random);
        page.resize_with(words, || random.word());
        Lent { page, out }
    }

    /// Makes the turn, and where it is accepted the other after it: whether it is accepted, or what is wrong.
    fn try_turn(&self, turn: Turn, sides: [Kind; 2]) -> Result<bool, String> {
        let (answer, out) = turn.made(sides, &self.page, self.out)?;
        let accepted = answer >> 32 == 0;
        if accepted {
            let (answer, back) = turn.inverse().made(sides, &out, self.page.len())?;
            // "Either order gives the page back, for all words."
            let same = if answer >> 32 == 0 { unlike(&back, &self.page) } else { Err(show(answer)) };
            same.map_err(|what| format!("not given back: {what}"))?;
        }
        Ok(accepted)
    }

    /// Whether both turns are accepted, or what is wrong.
    fn try_both(&self, sides: [Kind; 2]) -> Result<bool, String> {
        let [to, from] = TURNS.map(|turn| self.try_turn(turn, sides).map_err(|what| format!("{turn:?}: {what}")));
        Ok(to? & from?)
    }

    /// Prints what is wrong, and the page.
    pub fn report(&self, sides: [Kind; 2]) {
        let what = self.try_both(sides).err().unwrap_or_default();
        println!("DIFFERENCE: a page of {} words into {}: {what}", self.page.len(), self.out);
        print_words(&self.page);
    }
}

/// After how many pages the sides differ, or the left one does not give a page back, and for which.
pub fn noticed(sides: [Kind; 2], seed: u64, pages: u64) -> Option<(u64, Lent)> {
    let mut random = Random::new(seed);
    (1..=pages).find_map(|n| {
        let lent = Lent::new(&mut random);
        lent.try_both(sides).is_err().then_some((n, lent))
    })
}

pub fn run(seed: u64, pages: u64) -> bool {
    let sides = [Kind::Library, MODEL];
    let mut random = Random::new(seed);
    let mut turned = 0;
    for _ in 0..pages {
        let lent = Lent::new(&mut random);
        match lent.try_both(sides) {
            Ok(accepted) => turned += u64::from(accepted),
            Err(_) => {
                lent.report(sides);
                return false;
            }
        }
    }
    let refused = pages - turned;
    println!("columns: {pages} pages, {turned} turned both ways and back, {refused} refused, no difference");
    true
}

/// Each word tells where it stands; or noise; or a page of a store, sound or not; or one word unlike all others.
fn page(random: &mut Random) -> Vec<u32> {
    let first = random.word();
    match random.below(5) {
        0 => (0..PAGE_WORDS as u32).map(|i| first.wrapping_add(i)).collect(),
        1 => (0..PAGE_WORDS).map(|_| random.word()).collect(),
        2 => {
            let mut page = vec![random.pick(&[0, u32::MAX]).unwrap(); PAGE_WORDS];
            page[random.below(PAGE_WORDS)] = first;
            page
        }
        kind => stored_page(kind == 3, random),
    }
}

fn stored_page(sound: bool, random: &mut Random) -> Vec<u32> {
    let pages = random.between(1, 8);
    let mut area = vec![0; PAGE_WORDS * pages];
    sound_pages(&mut area, pages, random);
    let mut page = area[page_range(random.below(pages))].to_vec();
    if !sound {
        for at in [0, random.below(PAGE_WORDS), random.below(PAGE_WORDS)] {
            page[at] = odd_word(page[at], pages, random);
        }
    }
    page
}

/// Of page and out: mostly right; else one is wrong, or both are, alike or not.
fn lengths(random: &mut Random) -> [usize; 2] {
    let mut wrong = || {
        let any = random.below(3 * PAGE_WORDS);
        random.pick(&[0, 1, 128, 130, 145, 258, any]).unwrap()
    };
    let [one, other] = [wrong(), wrong()];
    match random.weighted(&[80, 5, 5, 5, 5]) {
        0 => [PAGE_WORDS; 2],
        1 => [one, PAGE_WORDS],
        2 => [PAGE_WORDS, one],
        3 => [one, one],
        _ => [one, other],
    }
}
