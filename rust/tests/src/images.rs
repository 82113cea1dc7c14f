//! Images that a flush sends (document 02, L6): like the received page where it counts or not, where it does not count
//! or not, and as a tablet has seen the page before a sweep.

use calls::Call;
use kophdaen::OBJECT_WORDS;
use model::layout::*;

use crate::actions::{Action, Image};
use crate::random::Random;

/// The slots that a map has.
pub fn occupied_slots(map: u32) -> Vec<usize> {
    (0..SLOTS).filter(|&slot| map & bit(slot as u32) != 0).collect()
}

fn slot_words(slot: usize) -> std::ops::Range<usize> {
    1 + OBJECT_WORDS * slot..1 + OBJECT_WORDS * (slot + 1)
}

/// The map and the words at free slots become any.
pub fn loosen(page: &mut [u32], seed: u64) {
    let mut random = Random::new(seed);
    let map = page[0];
    page[0] = other_map(map, &mut random);
    let [slots, words] = [random.between(1, 100), random.between(1, 100)];
    for slot in occupied_slots(!map).into_iter().filter(|_| random.percent(slots)).collect::<Vec<_>>() {
        for at in slot_words(slot) {
            if random.percent(words) {
                page[at] = random.word() >> random.below(32);
            }
        }
    }
}

/// The same, none, all, more, fewer, above 65535, any.
fn other_map(map: u32, random: &mut Random) -> u32 {
    let one = bit(random.below(SLOTS) as u32);
    let maps = [map, 0, 0xffff, map | one, map & !one, map ^ one, !map & 0xffff, map | 1 << 16, !map, u32::MAX];
    match random.below(maps.len() + 1) {
        n if n < maps.len() => maps[n],
        _ => random.word(),
    }
}

/// A page as a tablet has seen it, with what stands now in the slots that are occupied now.
pub fn sent_back(seen: &[u32], now: &[u32]) -> Vec<u32> {
    let mut image = seen.to_vec();
    image[0] |= now[0];
    for slot in occupied_slots(now[0]) {
        image[slot_words(slot)].copy_from_slice(&now[slot_words(slot)]);
    }
    image
}

/// One word of an occupied slot changed, often in the first or the last slot, the first or the last word.
fn wrong(r: &mut Random) -> Image {
    let any = r.below(SLOTS);
    let slot = r.pick(&[0, SLOTS - 1, any, any]).unwrap();
    let any = r.below(OBJECT_WORDS);
    let word = r.pick(&[0, OBJECT_WORDS - 1, any, any]).unwrap();
    let bits = match r.below(3) {
        0 => bit(r.below(32) as u32),
        1 => r.word() | 1,
        _ => r.between(1, 40) as u32,
    };
    let loose = r.percent(50).then(|| r.next());
    Image::Wrong { slot, word, bits, loose }
}

/// Flush images of every kind.
pub fn any(r: &mut Random) -> Image {
    match r.below(16) {
        0 => Image::Copy,
        1 => Image::Zeros,
        2 => Image::Noise(r.next()),
        3 => Image::Long(r.pick(&[0, 1, 9, 128, 130, 258]).unwrap()),
        4 => Image::Long(r.below(300)),
        5 => Image::Changed(0, r.pick(&[0, 0xffff, 1 << 16, u32::MAX]).unwrap()),
        6 => Image::Changed(0, r.word() & 0xffff),
        7 => Image::Changed(128, r.word()),
        8 => Image::Changed(r.below(PAGE_WORDS), r.word() >> r.below(32)),
        9..=11 => wrong(r),
        12..=14 => Image::Loose(r.next()),
        _ => Image::Received,
    }
}

/// Pages as they stood when someone asked to read them, or just before a step that sweeps them.
#[derive(Default)]
pub struct Seen {
    pages: Vec<(u32, Vec<u32>)>,
    next: usize,
}

/// How many are remembered.
const REMEMBERED: usize = 6;

impl Seen {
    /// The state before an action.
    pub fn note(&mut self, action: &Action, a: &Areas) {
        let page = match action {
            Action::Call(request) => match request.call {
                Call::LockRead(_, page) => page,
                Call::PassStep if a.work[PHASE] == SWEEPING => a.work[PASS_PAGE],
                _ => return,
            },
            _ => return,
        };
        let Some(words) = a.received.get(page_range(page as usize)) else { return };
        let seen = (page, words.to_vec());
        match self.pages.get_mut(self.next) {
            Some(place) => *place = seen,
            None => self.pages.push(seen),
        }
        self.next = (self.next + 1) % REMEMBERED;
    }

    /// The page as it once stood, alone or with what stands now, if it is remembered.
    pub fn image(&self, page: u32, r: &mut Random) -> Option<Image> {
        let seen: Vec<&Vec<u32>> =
            self.pages.iter().filter(|(of, _)| *of == page).map(|(_, words)| words).collect();
        let words = r.pick(&seen)?.clone();
        Some(if r.percent(70) { Image::Stale(words) } else { Image::Seen(words) })
    }
}
