//! Random lists led by the state, so that they go deep: most calls are ones that the state takes,
//! the log is drained when it is full, passes and reopenings run to their end.

use calls::Call;
use kophdaen::{CHAIN_WORDS, OBJECT_WORDS, SHARE_WORDS};
use model::layout::*;

use crate::actions::*;
use crate::crowd;
use crate::grants::Giving;
use crate::images::{self, Seen};
use crate::random::Random;
use crate::rubbish::odd_word;
use crate::tablets;

/// How often, in a thousand actions, a list leaves the straight path.
#[derive(Clone, Copy, Debug)]
pub struct Style {
    pub cuts: usize,
    pub damage: usize,
    pub lengths: usize,
    /// Calls with arguments taken at random.
    pub wild: usize,
    /// Of a hundred sets of a reference, those that write the object's own number.
    pub own: usize,
    /// Transactions that run side by side, about.
    pub crowd: usize,
    pub habit: Habit,
    pub giving: Giving,
    /// The list begins with areas so filled, and again now and then.
    pub filling: Option<Filling>,
}

/// What most calls of a list's transactions do.
#[derive(Clone, Copy, Debug, PartialEq)]
pub enum Habit {
    Mixed,
    /// Create objects and link them, so that chains grow.
    Building,
    /// Set marks, change, go back and change again, and seldom end.
    Trying,
    /// Take every slot and link it, so that passes take as many steps as they may.
    Crowding,
    /// Keep pages locked for reading and read on, then lock them for writing and flush them.
    Reading,
}

pub struct Generator {
    pub random: Random,
    pub style: Style,
    /// The pages that the list is of.
    pub hot: Vec<u32>,
    /// Grants still to be made.
    pub giving: Vec<Call>,
    /// The damaged word as it was, and after how many actions it comes back.
    restore: Option<(usize, Action)>,
    /// A call to be made so many times more.
    burst: (Call, usize),
    /// What is still to be asked of areas just filled.
    asking: Vec<Call>,
    /// Pages as they stood before.
    seen: Seen,
    begun: bool,
}

impl Generator {
    pub fn new(mut random: Random, style: Style, pages: usize) -> Generator {
        let mut hot = vec![0, pages as u32 - 1];
        for _ in 0..random.between(0, 3) {
            hot.push(random.below(pages) as u32);
        }
        let burst = (Call::Force, 0);
        let (asking, giving, seen) = (Vec::new(), Vec::new(), Seen::default());
        Generator { random, style, hot, giving, restore: None, burst, asking, seen, begun: false }
    }

    /// From a store that calls have led to: no first action that makes one.
    pub fn going_on(self) -> Generator {
        Generator { begun: true, ..self }
    }

    pub fn next(&mut self, a: &Areas) -> Action {
        let action = self.action(a);
        self.seen.note(&action, a);
        action
    }

    fn action(&mut self, a: &Areas) -> Action {
        if !self.begun {
            self.begun = true;
            return match self.style.filling {
                Some(filling) => self.fill(filling, a),
                None => Call::Format.into(),
            };
        }
        match self.restore.take() {
            Some((0, action)) => return action,
            Some((n, action)) => self.restore = Some((n - 1, action)),
            None => {}
        }
        let Style { cuts, damage, lengths, .. } = self.style;
        let roll = self.random.below(1000);
        if roll < cuts {
            return Action::Cut;
        }
        if roll < cuts + damage && self.restore.is_none() {
            return self.damage(a);
        }
        if roll < cuts + damage + lengths {
            let request = self.call(a);
            return self.resized(a, request);
        }
        if let Some(filling) = self.style.filling {
            let every = match filling {
                Filling::Old => 60,
                Filling::Sound | Filling::Linked | Filling::Marked => 12,
                _ => 4,
            };
            if self.asking.is_empty() && self.random.below(every) == 0 {
                return self.fill(filling, a);
            }
        }
        Action::Call(self.call(a))
    }

    /// Areas so filled. Where they are linked, every object's chain is asked for then, in no order, and that of
    /// two that are none; where pages are contended, locks and grants.
    fn fill(&mut self, filling: Filling, a: &Areas) -> Action {
        self.burst.1 = 0;
        self.asking = match filling {
            Filling::Linked => (0..=a.objects() + 1).map(Call::Chain).collect(),
            Filling::Contended => (0..40).map(|n| if n < 30 { self.any_lock(a) } else { self.grant(a) }).collect(),
            _ => Vec::new(),
        };
        Action::Fill(filling, self.random.next())
    }

    fn any_lock(&mut self, a: &Areas) -> Call {
        let (t, page) = (self.random.below(16) as u32, self.random.below(a.pages()) as u32);
        if self.random.percent(50) {
            Call::LockRead(t, page)
        } else {
            Call::LockWrite(t, page)
        }
    }

    fn resized(&mut self, a: &Areas, request: Request) -> Action {
        let r = &mut self.random;
        let area = AREAS[r.below(6)];
        let old = a.of(area).len();
        let len = match r.below(8) {
            0 => 0,
            1 => old + 1,
            2 => old - 1,
            3 => old + if area == Area::Log { RECORD_WORDS } else { PAGE_WORDS },
            4 => old.saturating_sub(if area == Area::Log { RECORD_WORDS } else { PAGE_WORDS }),
            5 => r.below(2 * old),
            6 if area == Area::Log => RECORD_WORDS * 4097,
            6 if area == Area::Stored => PAGE_WORDS * 257,
            _ => old + r.below(70),
        };
        Action::Resized(area, len, request)
    }

    /// One damaged word, in any area and any working table.
    fn damage(&mut self, a: &Areas) -> Action {
        let (pages, records) = (a.pages(), a.records());
        let r = &mut self.random;
        let area = AREAS[r.weighted(&[10, 11, 11, 15, 8, 45])];
        let index = match area {
            Area::Work => match r.below(ACTIVE + 1 + TABLES.len()) {
                single if single <= ACTIVE => single,
                table => {
                    let table = TABLES[table - ACTIVE - 1];
                    table.first(pages) + r.below(table.len(pages, records))
                }
            },
            Area::Log => {
                let near = (a.received_count() + 1).min(records);
                r.below(RECORD_WORDS * near)
            }
            Area::Counts => r.below(2),
            _ => {
                let page = self.hot[r.below(self.hot.len())] as usize;
                let word = if r.percent(25) { 0 } else { r.below(PAGE_WORDS) };
                PAGE_WORDS * page + word
            }
        };
        let old = a.of(area)[index];
        let value = match (area, bound(area, index, pages, records)) {
            (Area::Work, Some(largest)) if r.percent(25) => largest + 1,
            (Area::Work, Some(largest)) if r.percent(35) => r.below(largest as usize + 1) as u32,
            _ => odd_word(old, pages, r),
        };
        if r.percent(85) {
            let after = r.below(3);
            self.restore = Some((after, Action::Poke(area, index, old)));
        }
        Action::Poke(area, index, value)
    }

    fn call(&mut self, a: &Areas) -> Request {
        if !self.asking.is_empty() {
            let next = self.random.below(self.asking.len());
            return match self.asking.swap_remove(next) {
                Call::Chain(object) => chain(object, &mut self.random),
                call => call.into(),
            };
        }
        if self.burst.1 > 0 {
            self.burst.1 -= 1;
            let goes_on = a.work[REOPENING] == 2 && (self.burst.0 == Call::Force || a.work[PHASE] != NO_PASS);
            if goes_on {
                return self.burst.0.into();
            }
            self.burst.1 = 0;
        }
        if self.random.below(1000) < self.style.wild {
            return self.wild(a);
        }
        match a.work[REOPENING] {
            0 => match self.random.below(20) {
                0 => Call::ReopenStep.into(),
                1 if self.random.percent(10) => Call::Format.into(),
                2 => self.wild(a),
                _ => Call::Reopen.into(),
            },
            1 => match self.random.below(40) {
                0 => Call::Reopen.into(),
                1..=3 => self.wild(a),
                _ => Call::ReopenStep.into(),
            },
            _ => self.led(a),
        }
    }

    /// Any call with arguments about their bounds.
    fn wild(&mut self, a: &Areas) -> Request {
        let pages = a.pages();
        let r = &mut self.random;
        let number = |r: &mut Random, n: usize| about(n, pages, r);
        let few = r.percent(50);
        let t = number(r, if few { 3 } else { 16 });
        let page = number(r, pages);
        let object = number(r, SLOTS * pages + 1);
        let field = number(r, 8);
        let word = any_word(object, pages, r);
        let mark = number(r, MARKS as usize);
        let client = number(r, CLIENTS as usize);
        let call = match r.below(46) {
            0 if r.percent(10) => Call::Format,
            0..=2 => Call::Begin(t, client),
            3 | 4 => Call::Commit(t),
            5 | 6 => Call::Abort(t),
            7 | 8 => Call::LockRead(t, page),
            9 | 10 => Call::LockWrite(t, page),
            11 | 12 => return Request::read(t, object, if r.percent(80) { OBJECT_WORDS } else { r.below(20) }),
            13 | 14 => Call::Create(t, object),
            15..=18 => Call::SetWord(t, object, field, word),
            19..=21 => return Request::flush(t, page, images::any(r)),
            22 | 23 => Call::Force,
            24 | 25 => Call::StorePage(page),
            26 => Call::EmptyLog,
            27 => Call::StartPass,
            28..=30 => Call::PassStep,
            31 if r.percent(20) => Call::Reopen,
            31..=33 => Call::ReopenStep,
            34 | 35 => Call::Mark(t, mark),
            36 | 37 => Call::Back(t, mark),
            38 | 39 => return chain(object, r),
            40 | 41 => return share(pages, r),
            _ => Call::Grant(client, page, number(r, WRITING as usize + 1)),
        };
        call.into()
    }

    /// A call that the state takes, mostly.
    fn led(&mut self, a: &Areas) -> Request {
        let active: Vec<u32> = (0..16).filter(|&t| a.work[ACTIVE] & bit(t) != 0).collect();
        if let Some(call) = self.start_giving(a, &active) {
            return call.into();
        }
        let room = a.records() as isize - a.received_count() as isize - reserved(a) as isize;
        // one that tries goes back in a full log too
        let drained = if self.style.habit == Habit::Trying { 30 } else { 60 };
        if room < 2 && self.random.percent(drained) {
            return self.drain(a, &active);
        }
        let weights = self.weights(active.len(), a);
        match self.random.weighted(&weights) {
            0 => Call::Begin(self.random.below(self.style.crowd + 1) as u32 % 16, self.client(a)).into(),
            1 => {
                let t = self.random.pick(&active).unwrap();
                self.end_barred(a, t).unwrap_or_else(|| self.of_transaction(a, t))
            }
            2 => self.force(a).into(),
            3 => Call::StorePage(self.page()).into(),
            4 => Call::EmptyLog.into(),
            5 => Call::StartPass.into(),
            7 if self.random.below(6) == 0 => Call::Reopen.into(),
            7 => Call::Force.into(),
            8 => self.drain(a, &active),
            9 => self.chain(a),
            10 => share(a.pages(), &mut self.random),
            11 => self.grant(a).into(),
            _ => self.step().into(),
        }
    }

    /// How often each kind of call is made, with so many transactions and a pass or none.
    fn weights(&self, active: usize, a: &Areas) -> [usize; 12] {
        let pass = a.work[PHASE] != NO_PASS;
        let building = self.style.habit == Habit::Building;
        let step = match self.style.habit {
            _ if !pass => 1,
            Habit::Reading if a.work[PASS_STEP] == 0 => 4,
            Habit::Reading => 15,
            _ => 40,
        };
        [
            if active < self.style.crowd { 12 } else { 1 }, // begin
            if active == 0 { 0 } else { 100 },              // of a transaction
            8,                                              // force
            6,                                              // store
            2,                                              // empty
            if pass || building { 1 } else { 8 },           // start
            step,                                           // step
            1,                                              // reopen, one time in six
            1,                                              // drain
            if building { 30 } else { 5 },                  // chain
            2,                                              // share
            3,                                              // grant
        ]
    }

    /// One force, or the first of as many as make every record stable.
    fn force(&mut self, a: &Areas) -> Call {
        if self.random.percent(30) {
            let unstable = a.received_count().saturating_sub(a.stable_count());
            self.burst = (Call::Force, unstable.saturating_sub(1));
        }
        Call::Force
    }

    /// One step, or the first of some.
    fn step(&mut self) -> Call {
        if self.random.percent(20) {
            self.burst = (Call::PassStep, self.random.below(20));
        }
        Call::PassStep
    }

    pub fn page(&mut self) -> u32 {
        self.random.pick(&self.hot).unwrap()
    }

    fn of_transaction(&mut self, a: &Areas, t: u32) -> Request {
        let written: Vec<u32> =
            (0..a.pages() as u32).filter(|&p| a.get(Table::Writers, p as usize) & bit(t) != 0).collect();
        if let (Habit::Crowding, true) = (self.style.habit, self.random.percent(80)) {
            if let Some(call) = crowd::next(a, t, &written) {
                return call.into();
            }
        }
        if let (Habit::Reading, true) = (self.style.habit, self.random.percent(80)) {
            match self.of_tablet(a, t) {
                Some(Call::Flush(_, page)) => return self.flush_page(t, page),
                Some(call) => return call.into(),
                None => {}
            }
        }
        let weights = match self.style.habit {
            Habit::Reading if written.is_empty() => [10, 2, 10, 1, 1, 1, 2, 1, 1, 1],
            _ if written.is_empty() => [10, 40, 8, 1, 2, 1, 3, 2, 3, 2],
            Habit::Mixed => [4, 6, 12, 18, 34, 10, 5, 2, 3, 3],
            Habit::Building => [4, 6, 30, 14, 50, 10, 5, 0, 1, 1],
            Habit::Reading => [8, 2, 24, 8, 14, 24, 3, 1, 2, 2],
            Habit::Trying => [4, 6, 10, 24, 40, 8, 2, 1, 12, 16],
            Habit::Crowding => [4, 10, 30, 0, 0, 20, 6, 0, 1, 0],
        };
        match self.random.weighted(&weights) {
            0 => Call::LockRead(t, self.page()).into(),
            1 => self.lock_write(a, t).into(),
            2 => self.read(a, t),
            3 => self.create(a, t, &written).into(),
            4 => self.set_word(a, t).into(),
            5 => self.flush(a, t, &written),
            6 if self.unflushed(a, t).is_some() && self.random.percent(85) => self.flush(a, t, &written),
            6 => Call::Commit(t).into(),
            7 => Call::Abort(t).into(),
            8 => Call::Mark(t, self.any_mark()).into(),
            _ => self.back(a, t).into(),
        }
    }

    /// Builds, as long as there is little to read.
    fn of_tablet(&mut self, a: &Areas, t: u32) -> Option<Call> {
        let other = self.page();
        if tablets::builds(a, t) {
            tablets::build(a, t, other, &mut self.random)
        } else {
            tablets::next(a, t, &mut self.random)
        }
    }

    /// One of the four, seldom one that is none.
    fn any_mark(&mut self) -> u32 {
        let marks = if self.random.percent(10) { MARKS + 1 } else { MARKS };
        self.random.below(marks as usize) as u32
    }

    /// Mostly to a mark that is set; where none is, one is set mostly.
    fn back(&mut self, a: &Areas, t: u32) -> Call {
        let set: Vec<u32> = (0..MARKS).filter(|&mark| a.get(Table::MarkOrder, mark_at(t, mark)) != 0).collect();
        match self.random.pick(&set) {
            _ if self.random.percent(10) => Call::Back(t, self.any_mark()),
            Some(mark) => Call::Back(t, mark),
            None => Call::Mark(t, self.any_mark()),
        }
    }

    /// Of a known object under a lock.
    fn read(&mut self, a: &Areas, t: u32) -> Request {
        let locked = |o: u32| {
            let p = page_of(o);
            (a.get(Table::Writers, p) | a.get(Table::Readers, p)) & bit(t) != 0
        };
        let object = self.known(a, t, locked).unwrap_or(ROOT);
        let words = if self.random.percent(98) { OBJECT_WORDS } else { self.random.below(12) };
        Request::read(t, object, words)
    }

    /// In a free slot, seldom in an occupied one.
    fn create(&mut self, a: &Areas, t: u32, written: &[u32]) -> Call {
        let page = self.random.pick(written).unwrap_or(0) as usize;
        let full = self.random.below(16) == 0;
        let free: Vec<u32> =
            (0..SLOTS).map(|s| object_at(page, s)).filter(|&o| occupied(&a.received, o) == full).collect();
        Call::Create(t, self.random.pick(&free).unwrap_or(ROOT + 1))
    }

    fn unflushed(&mut self, a: &Areas, t: u32) -> Option<u32> {
        (0..a.pages()).find(|&p| a.get(Table::Unflushed, p) & bit(t) != 0).map(|p| p as u32)
    }

    fn flush(&mut self, a: &Areas, t: u32, written: &[u32]) -> Request {
        let page = match self.unflushed(a, t) {
            Some(page) if self.random.percent(85) => page,
            _ => self.random.pick(written).unwrap_or(0),
        };
        self.flush_page(t, page)
    }

    /// With the received page, or the page as it once stood, or any image.
    fn flush_page(&mut self, t: u32, page: u32) -> Request {
        let r = &mut self.random;
        let image = match r.below(100) {
            0..=64 => Image::Received,
            65..=79 => self.seen.image(page, r).unwrap_or(Image::Received),
            _ => images::any(r),
        };
        Request::flush(t, page, image)
    }

    /// An object that t knows.
    pub fn known(&mut self, a: &Areas, t: u32, also: impl Fn(u32) -> bool) -> Option<u32> {
        let pages = a.pages();
        let table = &a.work[Table::Known.first(pages)..][..SLOTS * pages];
        let known: Vec<u32> =
            (1..=a.objects()).filter(|&o| table[o as usize - 1] & bit(t) != 0 && also(o)).collect();
        self.random.pick(&known)
    }

    /// An object that exists, known or not.
    pub fn existing(&mut self, a: &Areas) -> u32 {
        let page = self.page() as usize;
        let there: Vec<u32> =
            (0..SLOTS).map(|s| object_at(page, s)).filter(|&o| occupied(&a.received, o)).collect();
        self.random.pick(&there).unwrap_or(ROOT)
    }

    /// Mostly of an object that the copies have, other than the root.
    fn chain(&mut self, a: &Areas) -> Request {
        let there: Vec<u32> = (ROOT + 1..=a.objects()).filter(|&o| occupied(&a.copies, o)).collect();
        let object = match self.random.below(12) {
            0 => self.random.below(SLOTS * a.pages() + 2) as u32,
            1 => self.existing(a),
            _ => self.random.pick(&there).unwrap_or(ROOT),
        };
        chain(object, &mut self.random)
    }

    /// A call on the way to an empty log.
    fn drain(&mut self, a: &Areas, active: &[u32]) -> Request {
        if let Some(t) = self.random.pick(active) {
            let call = match self.unflushed(a, t) {
                Some(page) if self.random.percent(80) => Call::Flush(t, page),
                Some(_) => Call::Abort(t),
                None => Call::Commit(t),
            };
            return call.into();
        }
        if a.stable_count() < a.received_count() {
            return Call::Force.into();
        }
        let unlike = (0..a.pages()).find(|&p| a.copies[page_range(p)] != a.stored[page_range(p)]);
        match unlike {
            Some(page) => Call::StorePage(page as u32).into(),
            None => Call::EmptyLog.into(),
        }
    }
}

/// A word to set of this object: its own number, a word about a bound, or an object's number or about one.
fn any_word(object: u32, pages: usize, r: &mut Random) -> u32 {
    match r.below(6) {
        0 => object,
        1 | 2 => odd_word(0, pages, r),
        _ => about(SLOTS * pages + 1, pages, r),
    }
}

/// A number below n, or about it.
fn about(n: usize, pages: usize, r: &mut Random) -> u32 {
    match r.below(12) {
        0 => n as u32,
        1 => odd_word(n as u32, pages, r),
        _ => r.below(n) as u32,
    }
}

/// The largest value of a working word.
fn bound(area: Area, index: usize, pages: usize, records: usize) -> Option<u32> {
    if area != Area::Work {
        return None;
    }
    if index <= ACTIVE {
        return Some(largest_single(index, pages));
    }
    let table = TABLES.into_iter().find(|table| table.range(pages, records).contains(&index));
    table.map(|table| table.largest(records))
}

/// With a buffer of another length now and then.
fn chain(object: u32, r: &mut Random) -> Request {
    let words = match r.below(40) {
        0 => r.pick(&[0, OBJECT_WORDS, CHAIN_WORDS - 1, CHAIN_WORDS + 1]).unwrap(),
        1 => r.below(CHAIN_WORDS + 1000),
        _ => CHAIN_WORDS,
    };
    Request::chain(object, words)
}

/// Of commits at and about their bounds and the steps of a pass, or as many as there may be; with a buffer of another
/// length now and then.
fn share(pages: usize, r: &mut Random) -> Request {
    let steps = 17 * pages as u32 + 1;
    let bounds = [0, 1, 4095, 4096, 4097, u32::MAX, steps - 1, steps, steps + 1];
    let commits = match r.below(10) {
        0..=3 => r.pick(&bounds).unwrap(),
        4 => odd_word(steps, pages, r),
        5 | 6 => r.between(1, steps as usize) as u32,
        _ => r.between(1, 4096) as u32,
    };
    let words = if r.below(12) == 0 { r.pick(&[0, 1, 3, OBJECT_WORDS]).unwrap() } else { SHARE_WORDS };
    Request::share(commits, words)
}

fn reserved(a: &Areas) -> usize {
    let mut changes = [0usize; 16];
    for i in 0..a.received_count().min(a.records()) {
        let [kind, t, ..] = a.record(i);
        let left = &mut changes[t as usize % 16];
        match kind {
            1 => *left = 0,
            2 | 3 | 6 if a.get(Table::Undoing, i) != 0 => *left = left.saturating_sub(1),
            2 | 3 => *left += 1,
            _ => {}
        }
    }
    (0..16).filter(|&t| a.work[ACTIVE] & bit(t as u32) != 0).map(|t| 1 + changes[t]).sum()
}

/// What lists may hold.
#[derive(Clone, Copy, PartialEq)]
pub enum Scope {
    /// Calls (some of wrong lengths) and cuts alone, from the formatted store, small sizes.
    Legal,
    /// .. from stores of before L8.
    Old,
    /// Damage, rubbish and wrong lengths too.
    Small,
    /// Sizes up to P = 256 and L = 4096 too.
    Large,
}

/// Size, style and length of a list.
pub fn plan(random: &mut Random, scope: Scope) -> (usize, usize, Style, usize) {
    let large = scope == Scope::Large;
    let style = style(random, scope);
    let (pages, records) = match style.habit {
        // a store that a transaction or two can fill
        Habit::Crowding => (random.between(1, 2), random.between(80, 160)),
        // pages to read side by side, and room to go on
        Habit::Reading if !large => (random.between(1, 4), random.between(80, 160)),
        _ => size(random, large),
    };
    let calls = match style.filling {
        None if large => random.between(200, 3000),
        None => random.between(100, 1200),
        Some(Filling::Noise | Filling::Reopening | Filling::Damaged) => random.between(20, 300),
        Some(_) => random.between(100, 900),
    };
    (pages, records, style, calls)
}

/// Pages and records.
pub fn size(random: &mut Random, large: bool) -> (usize, usize) {
    let pages = match random.weighted(&[30, 25, 15, 15, 15]) {
        0 => 1,
        1 => 2,
        2 => 3,
        3 => 4,
        _ if large => random.between(5, 256),
        _ => random.between(5, 8),
    };
    let records = match random.weighted(&[2, 10, 28, 40, 20]) {
        0 => 1,
        1 => random.between(2, 9),
        2 => random.between(10, 40),
        3 => random.between(40, 90),
        _ if large => random.between(100, 4096),
        _ => random.between(90, 160),
    };
    match random.below(8) {
        0 if large => (256, 4096),
        1 if large => (256, records),
        2 if large => (pages, 4096),
        _ => (pages, records),
    }
}

/// Calls and cuts that most states take.
pub const PLAIN: Style = Style {
    cuts: 3,
    damage: 0,
    lengths: 4,
    wild: 20,
    own: 5,
    crowd: 2,
    habit: Habit::Mixed,
    giving: Giving::Several,
    filling: None,
};

/// One of the habits by which transactions change much.
pub fn old_style(style: Style, random: &mut Random) -> Style {
    let habits = [Habit::Mixed, Habit::Building, Habit::Trying, Habit::Reading];
    Style { habit: habits[random.weighted(&[30, 15, 40, 15])], crowd: style.crowd.min(5), ..style }
}

fn style(random: &mut Random, scope: Scope) -> Style {
    let crowd = random.pick(&[1, 1, 2, 2, 3, 3, 5, 16]).unwrap();
    let giving = [Giving::Several, Giving::One, Giving::Nothing][random.weighted(&[50, 46, 4])];
    let plain = Style { wild: 40, crowd, giving, ..PLAIN };
    let styles = match scope {
        Scope::Legal => [45, 20, 25, 35, 10, 40, 0, 0, 0, 0, 0, 0, 0, 0, 0],
        Scope::Old => [0, 0, 0, 0, 0, 0, 0, 0, 0, 0, 0, 0, 0, 0, 1],
        _ => [45, 20, 15, 30, 8, 20, 15, 20, 2, 10, 6, 12, 5, 10, 25],
    };
    let trying = Style { cuts: 2, wild: 15, crowd: crowd.min(3), habit: Habit::Trying, ..plain };
    match random.weighted(&styles) {
        0 => plain,
        1 => Style { cuts: 12, wild: 20, ..plain },
        2 => Style { cuts: 1, wild: 10, crowd: crowd.min(2), habit: Habit::Building, ..plain },
        3 => trying,
        4 => {
            let crowd = crowd.min(2);
            Style { cuts: 1, wild: 10, crowd, habit: Habit::Crowding, giving: Giving::One, ..plain }
        }
        5 => Style { cuts: 2, wild: 15, crowd: crowd.clamp(2, 5), habit: Habit::Reading, ..plain },
        6 => Style { damage: 150, ..plain },
        7 => Style { wild: 250, lengths: 15, cuts: 1, damage: 80, filling: Some(Filling::Sound), ..plain },
        8 => Style { wild: 600, filling: Some(Filling::Noise), ..plain },
        9 => Style { filling: Some(Filling::Reopening), ..plain },
        10 => Style { filling: Some(Filling::Damaged), ..plain },
        11 => Style { damage: 30, lengths: 10, filling: Some(Filling::Linked), ..plain },
        12 => Style { damage: 30, filling: Some(Filling::Contended), ..plain },
        13 => Style { damage: 30, filling: Some(Filling::Marked), ..trying },
        _ => old_style(Style { wild: 20, own: 12, filling: Some(Filling::Old), ..plain }, random),
    }
}
