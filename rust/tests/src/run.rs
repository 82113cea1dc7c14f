//! Runs actions on two sides and compares every answer and every lent word after each; shrinks a
//! list on which they differ. Beside the library's calls their held forms are made; the steps of its
//! passes are tallied, what its transactions read is held to what they read before, its pages to the own
//! numbers that they began with, and locks, reads and pages to the rights that were given.

use std::panic::{catch_unwind, AssertUnwindSafe};

use calls::{Call, Lent, Side, NAMES};
use model::layout::*;
use model::{Fault, Model};

use crate::actions::*;
use crate::ledger::Ledger;
use crate::owns::Owns;
use crate::reads::Reads;
use crate::rubbish::fill;
use crate::sides::{Holder, Kind};
use crate::steps::Steps;

/// What the left side is held to, beside the right one.
#[derive(Clone, Copy, PartialEq)]
pub enum Watch {
    All,
    Steps,
    Reads,
    Owns,
    Rights,
}

pub struct Pair {
    pub left: Box<dyn Side>,
    pub right: Box<dyn Side>,
    /// Where one side has held forms: who makes them, over the same words.
    held: Option<Holder>,
    /// How many of those were made.
    pub held_calls: u64,
    /// What the last call left in the buffer that it was lent.
    pub buffer: Vec<u32>,
    /// Of the left side's passes.
    pub steps: Steps,
    /// Of its reads.
    pub reads: Reads,
    /// Of its own numbers.
    pub owns: Owns,
    /// Of clients and their rights.
    pub ledger: Ledger,
    pub watch: Watch,
    /// Flushes that it took, of images that were not the received page.
    pub unlike_flushes: u64,
    pages: usize,
    records: usize,
}

/// Answer numbers: 0 and the refusals.
const NUMBERS: usize = 20;

/// The answers that a run saw, by call and answer number (the last for others), and what it reached.
#[derive(Clone, Default)]
pub struct Tally {
    pub answers: Vec<[u64; NUMBERS + 1]>,
    pub calls: u64,
    pub held: u64,
    pub cuts: u64,
    pub freed: u64,
    /// .. on pages that someone reads.
    pub freed_read: u64,
    pub longest_chain: u64,
    pub full_passes: u64,
    pub unlike_flushes: u64,
    pub reads_again: u64,
    /// Own numbers overwritten, put back, reopened and swept.
    pub owns: [u64; 4],
    /// Locks refused for a right, reads, and calls that were not to change a page, all held to the ledger.
    pub rights: [u64; 3],
}

/// Who reads the page that a sweeping step would meet, if the pass sweeps.
pub fn readers_of_swept(a: &Areas) -> Option<u32> {
    let page = a.work[PASS_PAGE] as usize;
    (a.work[PHASE] == SWEEPING && page < a.pages()).then(|| a.get(Table::Readers, page))
}

impl Tally {
    pub fn new() -> Tally {
        let answers = vec![[0; NUMBERS + 1]; NAMES.len()];
        Tally { answers, ..Tally::default() }
    }

    /// What a list reached.
    pub fn add(&mut self, pair: &Pair) {
        self.held += pair.held_calls;
        self.full_passes += pair.steps.full_passes;
        self.unlike_flushes += pair.unlike_flushes;
        self.reads_again += pair.reads.again;
        let Owns { overwritten, put_back, reopened, swept, .. } = pair.owns;
        let counted = [overwritten, put_back, reopened, swept];
        self.owns.iter_mut().zip(counted).for_each(|(all, more)| *all += more);
        let Ledger { refused, reads, spared, .. } = pair.ledger;
        self.rights.iter_mut().zip([refused, reads, spared]).for_each(|(all, more)| *all += more);
    }

    /// An action and its answer, and who read the page that a sweeping step met, where the pass swept.
    pub fn note(&mut self, action: &Action, answer: u64, swept: Option<u32>) {
        if let Some(call) = action.call() {
            self.calls += 1;
            let number = ((answer >> 32) as usize).min(NUMBERS);
            let kind = NAMES.iter().position(|&name| name == call.name()).unwrap();
            self.answers[kind][number] += 1;
            match call {
                Call::PassStep if number == 0 => {
                    self.freed += swept.map_or(0, |_| answer);
                    self.freed_read += swept.filter(|&readers| readers != 0).map_or(0, |_| answer);
                }
                Call::Chain(_) if number == 0 => self.longest_chain = self.longest_chain.max(answer),
                _ => {}
            }
        }
        if *action == Action::Cut {
            self.cuts += 1;
        }
    }

    pub fn print(&self) {
        print!("{:>8}", "call");
        (0..NUMBERS).for_each(|n| print!("{n:>8}"));
        println!();
        for (name, row) in NAMES.iter().zip(&self.answers) {
            print!("{name:>8}");
            row[..NUMBERS].iter().for_each(|n| print!("{n:>8}"));
            println!();
        }
        println!(
            "{} calls, {} of them held too, {} cuts, {} slots freed, longest chain {}, {} passes of 17 x P + 1 steps",
            self.calls, self.held, self.cuts, self.freed, self.longest_chain, self.full_passes
        );
        println!(
            "{} of the slots on pages that were read, {} images taken that were not the received page, {} reads held to one before",
            self.freed_read, self.unlike_flushes, self.reads_again
        );
        let [overwritten, put_back, reopened, swept] = self.owns;
        println!(
            "own numbers: {overwritten} overwritten, {put_back} put back, {reopened} reopened, {swept} swept"
        );
        let [refused, reads, spared] = self.rights;
        println!(
            "by the ledger of rights: {refused} answers 19, {reads} reads, {spared} calls that could not write every page"
        );
    }
}

pub fn show(answer: u64) -> String {
    format!("{},{}", answer >> 32, answer & 0xffff_ffff)
}

/// A buffer before its call: each word tells where it stands, and none is 0.
pub fn unwritten(words: usize) -> Vec<u32> {
    (0..words as u32).map(|i| 0xb0f0 << 16 | i).collect()
}

/// Where two buffers differ.
pub fn unlike(left: &[u32], right: &[u32]) -> Result<(), String> {
    match left.iter().zip(right).position(|(l, r)| l != r) {
        Some(at) => Err(format!("word {at} of the buffer: {} and {}", left[at], right[at])),
        None => Ok(()),
    }
}

impl Pair {
    pub fn new(left: Kind, right: Kind, pages: usize, records: usize) -> Pair {
        let held = [right, left].into_iter().find_map(|kind| kind.holder(pages, records));
        Pair {
            left: left.make(pages, records),
            right: right.make(pages, records),
            held,
            held_calls: 0,
            buffer: Vec::new(),
            steps: Steps::default(),
            reads: Reads::default(),
            owns: Owns::default(),
            ledger: Ledger::default(),
            watch: Watch::All,
            unlike_flushes: 0,
            pages,
            records,
        }
    }

    fn sides(&mut self) -> impl Iterator<Item = &mut (dyn Side + 'static)> + '_ {
        let held = self.held.as_mut().map(Holder::side_mut);
        [&mut *self.left, &mut *self.right].into_iter().chain(held)
    }

    /// What the left side's areas hold.
    pub fn areas(&self) -> Areas {
        let mut areas = Areas::default();
        AREAS.iter().for_each(|&area| self.left.area(area).clone_into(areas.of_mut(area)));
        areas
    }

    /// Does the action on both sides: the left side's answer, or what differs, or what does not hold of its steps, its
    /// reads, its own numbers or its clients' rights.
    pub fn step(&mut self, action: &Action) -> Result<u64, String> {
        let answer = self.act(action)?;
        let watched = |watch| [Watch::All, watch].contains(&self.watch);
        let [steps, reads, owns, rights] = [Watch::Steps, Watch::Reads, Watch::Owns, Watch::Rights].map(watched);
        if steps {
            self.steps.after(action, answer, &mut *self.left)?;
        }
        if reads {
            self.reads.after(action, answer, &self.buffer)?;
        }
        if owns {
            self.owns.after(action, answer, &*self.left)?;
        }
        if rights {
            self.ledger.after(action, answer, &self.buffer, &*self.left)?;
        }
        Ok(answer)
    }

    fn act(&mut self, action: &Action) -> Result<u64, String> {
        match action {
            Action::Call(request) => self.call(request),
            Action::Resized(area, len, request) => self.resized(*area, *len, request),
            Action::Cut => {
                self.sides().for_each(Side::cut);
                self.compare().map(|_| 0)
            }
            Action::Poke(area, index, value) => {
                for side in self.sides() {
                    if let Some(word) = side.area_mut(*area).get_mut(*index) {
                        *word = *value;
                    }
                }
                Ok(0)
            }
            Action::Fill(filling, seed) => {
                let areas = fill(*filling, *seed, self.pages, self.records);
                self.load(&areas);
                Ok(0)
            }
        }
    }

    /// The call, made while an area of every side has so many words.
    fn resized(&mut self, area: Area, len: usize, request: &Request) -> Result<u64, String> {
        let cut = |side: &mut (dyn Side + 'static)| {
            let words = side.area_mut(area);
            let tail = words.get(len..).unwrap_or(&[]).to_vec();
            let before = words.len();
            words.resize(len, 0);
            (before, tail)
        };
        let whole: Vec<(usize, Vec<u32>)> = self.sides().map(cut).collect();
        let answer = self.call(request)?;
        for (side, (before, tail)) in self.sides().zip(whole) {
            let words = side.area_mut(area);
            words.extend(tail);
            words.resize(before, 0);
        }
        self.compare().map(|_| answer)
    }

    pub fn load(&mut self, areas: &Areas) {
        self.steps = Steps::default();
        self.reads = Reads::default();
        self.owns.forget();
        self.ledger.forget();
        for side in self.sides() {
            AREAS.iter().for_each(|&area| side.area_mut(area).clone_from(areas.of(area)));
        }
    }

    fn call(&mut self, request: &Request) -> Result<u64, String> {
        let image = request.image(self.left.area(Area::Received), self.left.area(Area::Copies));
        let mut buffer = unwritten(request.buffer());
        let right = catch_unwind(AssertUnwindSafe(|| {
            self.right.perform(request.call, Lent { buffer: &mut buffer, image: &image })
        }));
        let Ok(right) = right else { return Err("the right side panics".to_string()) };
        self.buffer = unwritten(request.buffer());
        let left = self.left.perform(request.call, Lent { buffer: &mut self.buffer, image: &image });
        if left != right {
            return Err(format!("answers {} and {}", show(left), show(right)));
        }
        unlike(&self.buffer, &buffer)?;
        self.held_call(request, &image, left).map_err(|what| format!("held: {what}"))?;
        if let (Call::Flush(_, page), 0) = (request.call, left >> 32) {
            let received = &self.left.area(Area::Received)[page_range(page as usize)];
            self.unlike_flushes += u64::from(received != image);
        }
        self.compare().map(|_| left)
    }

    /// The held form of a call, held to the answer and the buffer that the call gave. Where the sides agree on
    /// refusal 1 there is none: the store may not be well formed.
    fn held_call(&mut self, request: &Request, image: &[u32], answer: u64) -> Result<(), String> {
        let Some(holder) = self.held.take_if(|_| answer >> 32 != 1) else { return Ok(()) };
        let mut buffer = unwritten(request.buffer());
        // SAFETY: well formed, since both sides have found it so.
        let (holder, made) = unsafe { holder.perform(request.call, Lent { buffer: &mut buffer, image }) };
        self.held = Some(holder);
        self.held_calls += u64::from(request.call.can_be_held());
        if made != answer {
            return Err(format!("answers {} and {}", show(answer), show(made)));
        }
        unlike(&self.buffer, &buffer)
    }

    /// Whether every side has the left one's words.
    fn compare(&self) -> Result<(), String> {
        self.compare_with(&*self.right)?;
        let held = self.held.as_ref().map_or(Ok(()), |holder| self.compare_with(holder.side()));
        held.map_err(|what| format!("held: {what}"))
    }

    /// Whether this one has the left one's words.
    pub fn compare_with(&self, other: &dyn Side) -> Result<(), String> {
        for area in AREAS {
            let (left, right) = (self.left.area(area), other.area(area));
            if left == right {
                continue;
            }
            if left.len() != right.len() {
                return Err(format!("{area:?} has {} and {} words", left.len(), right.len()));
            }
            let at = (0..left.len()).find(|&i| left[i] != right[i]).unwrap();
            let place = place(area, at, self.pages, self.records);
            return Err(format!("{place}: {} and {}", left[at], right[at]));
        }
        Ok(())
    }
}

/// Where two sides differ on a list: the action's index and what differs.
pub fn differs(list: &List, left: Kind, right: Kind) -> Option<(usize, String)> {
    let mut pair = Pair::new(left, right, list.pages, list.records);
    list.actions.iter().enumerate().find_map(|(i, action)| pair.step(action).err().map(|what| (i, what)))
}

/// A shorter list on which the two still differ: runs of actions are left out, long runs first.
pub fn shrink(list: &List, left: Kind, right: Kind) -> List {
    let mut best = list.clone();
    if let Some((i, _)) = differs(&best, left, right) {
        best.actions.truncate(i + 1);
    }
    let started = std::time::Instant::now();
    let mut run = best.actions.len().div_ceil(2);
    while run > 0 {
        let mut at = 0;
        let mut shorter = false;
        while at < best.actions.len() && started.elapsed().as_secs() < 20 {
            let mut tried = best.clone();
            tried.actions.drain(at..(at + run).min(best.actions.len()));
            match differs(&tried, left, right) {
                Some((i, _)) => {
                    tried.actions.truncate(i + 1);
                    best = tried;
                    shorter = true;
                }
                None => at += run,
            }
        }
        if run > 1 || !shorter {
            run /= 2;
        }
    }
    best
}

/// The state before the last action of a list, made as like the formatted store as the difference
/// allows: the words that differ from it, as pokes, and the last action.
pub fn distil(list: &List, left: Kind, right: Kind) -> Option<List> {
    let (last, before) = list.actions.split_last()?;
    let mut pair = Pair::new(left, right, list.pages, list.records);
    for action in before {
        pair.step(action).ok()?;
    }
    let mut state = pair.areas();
    for i in (0..list.records).rev() {
        let fewer = without_record(&state, i);
        pair.load(&fewer);
        if fewer != state && pair.step(last).is_err() {
            state = fewer;
        }
    }
    let mut formatted = Model::new(list.pages, list.records);
    formatted.fault = Fault::None;
    formatted.format().ok()?;
    let formatted = formatted.areas;
    let mut pokes: Vec<Action> = Vec::new();
    for area in AREAS {
        let (now, then) = (state.of(area), formatted.of(area));
        pokes.extend((0..now.len()).filter(|&i| now[i] != then[i]).map(|i| Action::Poke(area, i, now[i])));
    }
    let mut actions = vec![Action::from(Call::Format)];
    actions.extend(pokes);
    actions.push(last.clone());
    let whole = List { pages: list.pages, records: list.records, actions };
    differs(&whole, left, right)?;
    Some(shrink(&whole, left, right))
}

/// The areas with one log record fewer; what is noted of the others goes with them.
fn without_record(areas: &Areas, i: usize) -> Areas {
    let mut fewer = areas.clone();
    fewer.log.drain(RECORD_WORDS * i..RECORD_WORDS * (i + 1));
    fewer.log.extend([0; RECORD_WORDS]);
    let undoing = &mut fewer.table(Table::Undoing)[i..];
    undoing[0] = 0;
    undoing.rotate_left(1);
    for count in &mut fewer.counts {
        if *count as usize > i {
            *count -= 1;
        }
    }
    fewer
}

/// Prints a difference: the shrunk list, and the least state for its last call.
pub fn report(list: &List, left: Kind, right: Kind) {
    let short = shrink(list, left, right);
    let what = differs(&short, left, right).map_or(String::new(), |(_, what)| what);
    println!("DIFFERENCE between {} and {}: {what}", left.name(), right.name());
    println!("shrunk list, {short}");
    if let Some(least) = distil(&short, left, right) {
        println!("the last call alone, {least}");
    }
}
