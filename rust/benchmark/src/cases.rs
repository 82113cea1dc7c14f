//! For each call the state that it is measured in: accepted, refused on its own account, and
//! refused with 1.

use calls::{Call, Server};
use kophdaen::{Store, OBJECT_WORDS};
use model::layout::*;

use crate::random::Random;
use crate::search::last_found;
use crate::states::*;

/// No kind of record, and a bit above every map and mask.
pub const NO_KIND: u32 = 8;
pub const HIGH_BIT: u32 = 1 << 16;

/// What the floor does: which words it adds up, or a search.
#[derive(Clone, Copy, PartialEq)]
pub enum Floor {
    /// All six areas.
    All,
    /// What reopening looks at: the stored pages, the stable records and their count.
    Stable,
    /// None: the call looks at lengths alone.
    Nothing,
    /// No sum, but a plain search of the copies for this object.
    Search(u32),
}

pub struct Case {
    pub name: &'static str,
    /// 0 where accepted, else the refusal.
    pub number: u32,
    pub call: Call,
    /// Flush's.
    pub image: Vec<u32>,
    pub areas: Areas,
    pub floor: Floor,
}

impl Case {
    /// Calls have led to every case's store but those that are refused with 1, which no held call may find.
    pub fn has_held_form(&self) -> bool {
        self.number != 1 && self.call.can_be_held()
    }
}

/// The states that most cases start from.
struct Base {
    size: Size,
    fill: Fill,
    /// No transaction active, every record stable.
    quiet: Store,
    /// The actor has begun, locked, created and set; its records are not stable, its page not flushed.
    acting: Store,
    /// .. and flushed.
    flushed: Store,
    /// The actor has acted, and another, which does nothing, has begun before every record in the log.
    behind: Store,
}

impl Base {
    fn new(size: Size, fill: Fill) -> Base {
        let records = size.records;
        let (alone, before_actor) = match fill {
            Fill::Empty => (0, 0),
            Fill::Half => (records / 2, records / 2 - ACTOR_RECORDS),
            // A begin still fits; beside the actor, which reserves 3, another begin and a change.
            Fill::Full => (records - 2, records - 2 * ACTOR_RECORDS - 4),
        };
        let mut acting = populated(size);
        fill_log(&mut acting, before_actor);
        let mut quiet = acting.clone();
        fill_log(&mut quiet, alone);
        act(&mut acting);
        let mut flushed = acting.clone();
        flush_all(&mut flushed, ACTOR);
        Base { size, fill, quiet, acting, flushed, behind: behind(size, before_actor) }
    }
}

/// The other's begin, and the record that is reserved to end it, take the room of two.
fn behind(size: Size, before_actor: usize) -> Store {
    let mut store = populated(size);
    accept(store.begin(OTHER, CLIENT));
    fill_log(&mut store, before_actor.saturating_sub(2));
    act(&mut store);
    store
}

pub fn cases(size: Size, fill: Fill) -> Vec<Case> {
    let base = Base::new(size, fill);
    let mut list = Vec::new();
    formatting(&base, &mut list);
    transactions(&base, &mut list);
    locks(&base, &mut list);
    objects(&base, &mut list);
    flushing(&base, &mut list);
    stability(&base, &mut list);
    passes(&base, &mut list);
    reopening(&base, &mut list);
    chains(&base, &mut list);
    shares(&base, &mut list);
    list
}

fn add(list: &mut Vec<Case>, name: &'static str, number: u32, store: &Store, call: Call) {
    let areas = store.clone().into_areas();
    list.push(Case { name, number, call, image: Vec::new(), areas, floor: Floor::All });
}

/// Accepted in one state, refused with `number` in another, and refused with 1 where the accepting
/// state has one word damaged.
fn add_three(
    list: &mut Vec<Case>,
    name: &'static str,
    accepting: (&Store, Call),
    number: u32,
    refusing: (&Store, Call),
) {
    add(list, name, 0, accepting.0, accepting.1);
    add(list, name, number, refusing.0, refusing.1);
    add(list, name, 1, &damaged(accepting.0), accepting.1);
}

/// One word unsound where both sides look last: in the last record, or, without records, in the last
/// page copy. So the whole check runs.
pub fn damaged(store: &Store) -> Store {
    let mut store = store.clone();
    match received(&store) {
        0 => {
            let last = store.copies.len() - PAGE_WORDS;
            store.copies[last] = HIGH_BIT;
        }
        count => store.log[RECORD_WORDS * (count - 1)] = NO_KIND,
    }
    store
}

fn formatting(base: &Base, list: &mut Vec<Case>) {
    add(list, "format", 0, &base.flushed, Call::Format);
    let mut long = base.flushed.clone();
    long.counts.push(0);
    add(list, "format", 1, &long, Call::Format);
    list.iter_mut().for_each(|case| case.floor = Floor::Nothing);
    list[0].floor = Floor::All;
}

fn transactions(base: &Base, list: &mut Vec<Case>) {
    let begin = Call::Begin(ACTOR, CLIENT);
    add_three(list, "begin", (&base.quiet, begin), 4, (&base.flushed, begin));
    let commit = Call::Commit(ACTOR);
    add_three(list, "commit", (&base.flushed, commit), 10, (&base.acting, commit));
    let abort = Call::Abort(ACTOR);
    let undone = changing(base);
    add_three(list, "abort", (&undone, abort), 4, (&base.quiet, abort));
    let mark = Call::Mark(ACTOR, UNSET);
    add_three(list, "mark", (&undone, mark), 4, (&base.quiet, mark));
    let back = |mark| Call::Back(ACTOR, mark);
    add_three(list, "back", (&undone, back(AT_BEGIN)), 16, (&undone, back(UNSET)));
}

/// Marks of the actor: one set before its changes, and one that is not set.
const AT_BEGIN: u32 = 0;
const UNSET: u32 = 1;

/// The actor has made half of the records in the log: with what it reserves, the log is then as full
/// as calls make it.
fn changing(base: &Base) -> Store {
    let records = base.size.records;
    let (others, own) = match base.fill {
        Fill::Empty => (0, ACTOR_RECORDS),
        Fill::Half => (records / 4, records / 4),
        Fill::Full => (0, records / 2),
    };
    let mut store = populated(base.size);
    fill_log(&mut store, others);
    accept(store.begin(ACTOR, CLIENT));
    accept(store.mark(ACTOR, AT_BEGIN));
    change(&mut store);
    walk(&mut store, ACTOR, own - ACTOR_RECORDS, &mut Random::new(3));
    flush_all(&mut store, ACTOR);
    store
}

fn locks(base: &Base, list: &mut Vec<Case>) {
    let page = base.size.pages as u32 - 1;
    let grant = Call::Grant(CLIENT, page, 1);
    add_three(list, "grant", (&base.quiet, grant), 4, (&base.flushed, grant));
    let read = |t| Call::LockRead(t, page);
    add_three(list, "lock_read", (&base.flushed, read(ACTOR)), 4, (&base.flushed, read(OTHER)));
    let mut held = base.flushed.clone();
    accept(held.begin(OTHER, CLIENT));
    accept(held.lock_write(OTHER, page));
    let write = Call::LockWrite(ACTOR, page);
    add_three(list, "lock_write", (&base.flushed, write), 6, (&held, write));
}

fn objects(base: &Base, list: &mut Vec<Case>) {
    let state = &base.flushed;
    let child = state.received[word_at(ROOT, 0)];
    let read = |object| Call::Read(ACTOR, object);
    let unlocked = (1..).find(|&o| page_of(o) == 1).unwrap();
    add_three(list, "read", (state, read(ROOT)), 5, (state, read(unlocked)));
    let create = |object| Call::Create(ACTOR, object);
    add_three(list, "create", (state, create(free_object(state))), 8, (state, create(ROOT)));
    let set = |word| Call::SetWord(ACTOR, ROOT, 1, word);
    let unknown = (SLOTS * base.size.pages) as u32 + 1;
    add_three(list, "set_word", (state, set(child)), 7, (state, set(unknown)));
    add(list, "set_word (old begin)", 0, &base.behind, set(child));
}

/// Refused where the last word of the page's last object differs.
fn flushing(base: &Base, list: &mut Vec<Case>) {
    let first = list.len();
    let slot = (0..SLOTS).rev().find(|slot| base.acting.received[0] & 1 << slot != 0).expect("an object");
    let last = word_at(object_at(0, slot), OBJECT_WORDS - 1);
    let flush = Call::Flush(ACTOR, 0);
    add_three(list, "flush", (&base.acting, flush), 9, (&base.acting, flush));
    for case in &mut list[first..] {
        case.image = page_image(&base.acting, 0);
        case.image[last] ^= u32::from(case.number == 9);
    }
}

fn stability(base: &Base, list: &mut Vec<Case>) {
    add_three(list, "force", (&base.flushed, Call::Force), 4, (&base.quiet, Call::Force));
    let store = Call::StorePage;
    let last = base.size.pages as u32 - 1;
    add_three(list, "store_page", (&base.flushed, store(last)), 12, (&base.flushed, store(0)));
    let mut stored = base.quiet.clone();
    (0..=last).for_each(|page| accept(stored.store_page(page)));
    add_three(list, "empty_log", (&stored, Call::EmptyLog), 13, (&base.flushed, Call::EmptyLog));
}

fn passes(base: &Base, list: &mut Vec<Case>) {
    let mut state = base.quiet.clone();
    accept(state.start_pass());
    add_three(list, "start_pass", (&base.quiet, Call::StartPass), 4, (&state, Call::StartPass));
    (0..4 * base.size.pages).for_each(|_| accept(state.pass_step()));
    add_three(list, "pass_step (mark)", (&state, Call::PassStep), 4, (&base.quiet, Call::PassStep));
    while state.work[PHASE] == MARKING {
        let before = state.clone();
        accept(state.pass_step());
        if state.work[PHASE] == SWEEPING {
            add(list, "pass_step (turn)", 0, &before, Call::PassStep);
        }
    }
    add(list, "pass_step (sweep)", 0, &state, Call::PassStep);
    add(list, "pass_step (sweep)", 1, &damaged(&state), Call::PassStep);
    // The actor writes page 0.
    let mut written = base.acting.clone();
    accept(written.start_pass());
    while written.work[PHASE] == MARKING {
        accept(written.pass_step());
    }
    add(list, "pass_step (skip)", 0, &written, Call::PassStep);
}

fn reopening(base: &Base, list: &mut Vec<Case>) {
    // The actor's records are stable too, so that it is undone.
    let mut cut = base.flushed.clone();
    force_all(&mut cut);
    cut.cut();
    let first = list.len();
    add(list, "reopen", 0, &cut, Call::Reopen);
    let mut unsound = cut.clone();
    unsound.log[RECORD_WORDS * (cut.counts[STABLE_COUNT] as usize - 1)] = NO_KIND;
    add(list, "reopen", 14, &unsound, Call::Reopen);
    list[first..].iter_mut().for_each(|case| case.floor = Floor::Stable);
    let mut open = cut;
    accept(open.reopen());
    add_three(list, "reopen_step", (&open, Call::ReopenStep), 4, (&base.quiet, Call::ReopenStep));
}

/// Of the object that the search finds last; refused where the slot is free.
fn chains(base: &Base, list: &mut Vec<Case>) {
    let state = &base.flushed;
    let last = Call::Chain(last_found(&state.copies, true));
    add_three(list, "chain", (state, last), 15, (state, Call::Chain(free_object(state))));
}

/// Of ten commits; refused where there are none.
fn shares(base: &Base, list: &mut Vec<Case>) {
    let state = &base.flushed;
    add_three(list, "pass_share", (state, Call::PassShare(10)), 17, (state, Call::PassShare(0)));
}
