//! The states that calls are measured in: a populated store, and logs of committed transactions.

use kophdaen::{Store, OBJECT_WORDS};
use model::layout::*;

use crate::random::Random;

#[derive(Clone, Copy, PartialEq, Debug)]
pub struct Size {
    pub pages: usize,
    pub records: usize,
}

#[derive(Clone, Copy, PartialEq, Debug)]
pub enum Fill {
    Empty,
    Half,
    Full,
}

impl Fill {
    pub fn name(self) -> &'static str {
        match self {
            Fill::Empty => "empty",
            Fill::Half => "half full",
            Fill::Full => "full",
        }
    }
}

pub const FILLS: [Fill; 3] = [Fill::Empty, Fill::Half, Fill::Full];

/// The transaction that the measured call belongs to; another fills the log before it.
pub const ACTOR: u32 = 0;
const FILLER: u32 = 1;
pub const OTHER: u32 = 2;
/// The client that every transaction begins as.
pub const CLIENT: u32 = 0;
/// Records that the actor appends: a begin, a create and a set.
pub const ACTOR_RECORDS: usize = 3;

/// A formatted store whose client has all rights.
pub fn formatted(size: Size) -> Store {
    let mut store = Store::new(size.pages, size.records);
    accept(store.format());
    for page in 0..size.pages {
        accept(store.grant(CLIENT, page as u32, 2));
    }
    store
}

/// A formatted store with nine objects to a page, in slots by chance: eight in a tree of three
/// references each under the root, with a fourth across it, and one that nothing points to. Written
/// straight into the three page areas: calls lead to the same words.
pub fn populated(size: Size) -> Store {
    let mut random = Random::new(1);
    let mut store = formatted(size);
    let mut tree = vec![ROOT];
    let mut garbage = Vec::new();
    for page in 0..size.pages {
        let mut slots: Vec<usize> = (usize::from(page == 0)..SLOTS).collect();
        let taken: Vec<u32> = (0..9 - usize::from(page == 0))
            .map(|_| object_at(page, slots.swap_remove(random.below(slots.len()))))
            .collect();
        garbage.push(taken[0]);
        tree.extend(&taken[1..]);
    }
    shuffle(&mut tree, &mut random);
    for &object in tree.iter().chain(&garbage) {
        occupy(&mut store.stored, object, &mut random);
    }
    for i in 0..tree.len() {
        let other = (i + 1 + random.below(tree.len() - 1)) % tree.len();
        store.stored[word_at(tree[i], 3)] = tree[other];
        if i > 0 {
            store.stored[word_at(tree[(i - 1) / 3], (i - 1) % 3)] = tree[i];
        }
    }
    store.copies.clone_from(&store.stored);
    store.received.clone_from(&store.stored);
    store
}

/// A page area in which every slot is occupied, and the root reaches all objects: a tree of four references
/// each, in an order by chance.
pub fn crowded(pages: usize) -> Vec<u32> {
    let mut random = Random::new(1);
    let mut area = vec![0; PAGE_WORDS * pages];
    let mut tree: Vec<u32> = (ROOT..).take(SLOTS * pages).collect();
    shuffle(&mut tree, &mut random);
    for (i, &object) in tree.iter().enumerate() {
        occupy(&mut area, object, &mut random);
        if i > 0 {
            area[word_at(tree[(i - 1) / 4], (i - 1) % 4)] = object;
        }
    }
    area
}

/// All but the first, the root, change places.
pub fn shuffle(tree: &mut [u32], random: &mut Random) {
    for i in (2..tree.len()).rev() {
        tree.swap(i, 1 + random.below(i));
    }
}

pub fn occupy(area: &mut [u32], object: u32, random: &mut Random) {
    area[map_at(page_of(object))] |= 1 << (slot_of(object));
    for field in 4..8 {
        area[word_at(object, field)] = random.word();
    }
}

/// Appends ended transactions, all of it forced, until the log has `target` records: some commit up to
/// eight sets, one in four creates an object, sets it and aborts. The kinds come in no regular order.
pub fn fill_log(store: &mut Store, target: usize) {
    let mut random = Random::new(2);
    let records = store.log.len() / RECORD_WORDS;
    while received(store) < target {
        let left = target - received(store);
        if random.below(4) == 0 && left >= 10 && received(store) + 10 <= records {
            abort_one(store, &mut random);
            continue;
        }
        // A set needs room for its undoing too. What is left over must be told in transactions of two
        // records or more, near the end of a full log of exactly two.
        let most = (records - received(store) - 2) / 2;
        let most = random.below(9).min(left - 2).min(most);
        let fits = |sets: &usize| !matches!(left - sets - 2, 1 | 3);
        let sets = (0..=most).rev().find(fits).unwrap_or(left - 2);
        accept(store.begin(FILLER, CLIENT));
        walk(store, FILLER, sets, &mut random);
        flush_all(store, FILLER);
        accept(store.commit(FILLER));
    }
    force_all(store);
}

/// Six records: begin, create, set, the two that undo them, aborted.
fn abort_one(store: &mut Store, random: &mut Random) {
    accept(store.begin(FILLER, CLIENT));
    accept(store.lock_write(FILLER, 0));
    let object = free_object(store);
    accept(store.create(FILLER, object));
    accept(store.set_word(FILLER, object, 4, random.word()));
    accept(store.abort(FILLER));
}

/// t walks down from the root and sets a word of each object that it comes to: mostly data, sometimes the
/// reference across the tree, to the object that it came from.
pub fn walk(store: &mut Store, t: u32, sets: usize, random: &mut Random) {
    let mut at = ROOT;
    let mut before = ROOT;
    for _ in 0..sets {
        let mut words = [0; OBJECT_WORDS];
        accept(store.lock_write(t, page_of(at) as u32));
        accept(store.read(&mut words, t, at));
        let (field, word) = match random.below(4) {
            0 if before != at => (3, before),
            _ => (4 + random.below(4) as u32, random.word()),
        };
        accept(store.set_word(t, at, field, word));
        before = at;
        let next = words[random.below(3)];
        at = if next == 0 { ROOT } else { next };
    }
}

/// t flushes every page that it has locked for writing.
pub fn flush_all(store: &mut Store, t: u32) {
    let pages = store.stored.len() / PAGE_WORDS;
    for page in 0..pages {
        let writers = store.work[Table::Writers.first(pages) + page];
        if writers & 1 << t != 0 {
            let image = page_image(store, page);
            accept(store.flush(&image, t, page as u32));
        }
    }
}

pub fn page_image(store: &Store, page: usize) -> Vec<u32> {
    store.received[page_range(page)].to_vec()
}

pub fn force_all(store: &mut Store) {
    while store.counts[STABLE_COUNT] < store.counts[RECEIVED_COUNT] {
        accept(store.force());
    }
}

pub fn received(store: &Store) -> usize {
    store.counts[RECEIVED_COUNT] as usize
}

pub fn accept(answer: kophdaen::Answer) {
    assert!(answer.accepted(), "refused with {}", answer.number);
}

/// The first slot of page 0 that is free, as an object.
pub fn free_object(store: &Store) -> u32 {
    (0..SLOTS).find(|slot| store.received[0] & 1 << slot == 0).map(|slot| object_at(0, slot)).expect("a free slot")
}

/// The actor's begin, write lock of page 0, and a create and a set of a reference to it there.
pub fn act(store: &mut Store) {
    accept(store.begin(ACTOR, CLIENT));
    change(store);
}

/// .. after its begin.
pub fn change(store: &mut Store) {
    accept(store.lock_write(ACTOR, 0));
    accept(store.read(&mut [0; OBJECT_WORDS], ACTOR, ROOT));
    let object = free_object(store);
    accept(store.create(ACTOR, object));
    accept(store.set_word(ACTOR, ROOT, 3, object));
}
