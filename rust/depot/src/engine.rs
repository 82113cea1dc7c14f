//! The store, and every call on it. The server has one engine behind one lock; it never waits for the disk: what
//! becomes stable goes to the journal, in the order of the calls.

use std::collections::VecDeque;
use std::sync::{Arc, Condvar, Mutex};
use std::time::{Duration, Instant};

use kophdaen::layout::*;
use kophdaen::{Answer, Held, CHAIN_WORDS, OBJECT_WORDS, PAGE_WORDS, RECORD_WORDS};

use crate::collector::Share;
use crate::journal::Journal;
use crate::line::Call;
use crate::rights::Rights;
use crate::trace::Trace;
use crate::view::Counters;

/// A connection, as others see it.
pub struct Crew {
    pub client: u32,
    pub name: Mutex<String>,
}

/// A running transaction.
pub struct Running {
    /// Tells it from others that had the slot before.
    pub serial: u64,
    /// The connection's own number for it.
    pub own: u32,
    pub crew: Arc<Crew>,
    pub began: Instant,
    pub last: Instant,
}

/// A begin that waits its turn.
pub struct Waiting {
    pub ticket: u64,
    pub client: u32,
    pub since: Instant,
}

pub enum Tried {
    Answered(Answer),
    /// Began in this slot, with this serial number.
    Began(Answer, u32, u64),
    Wait,
}

pub struct Engine {
    pub(crate) held: Held,
    pub(crate) journal: Arc<Journal>,
    pub(crate) freed: Arc<Condvar>,
    pub(crate) running: [Option<Running>; SLOTS],
    serial: u64,
    pub(crate) line: VecDeque<Waiting>,
    /// Since when the log is to be emptied before another transaction begins.
    draining: Option<Instant>,
    pub(crate) stopping: bool,
    /// A call of the server's own was refused, which no list of calls leads to.
    pub(crate) broken: Option<String>,
    pub(crate) rights: Rights,
    pub(crate) share: Share,
    pub(crate) counters: Counters,
    pub(crate) trace: Trace,
    pub(crate) last_call: Instant,
    /// The work with the last commit's record, and the last one that was handed to the journal.
    pub(crate) committed: u64,
    pub(crate) handed: u64,
}

/// Document 01's refusal: no room in the log.
pub(crate) const NO_ROOM: u32 = 11;
/// Of the server's own answers: docs/SERVER.md.
pub const BUSY: u32 = 100;
pub const LOST: u32 = 101;
pub const STOPS: u32 = 102;
pub const MANY: u32 = 103;
pub const NOT_ALL: u32 = 104;

pub fn refusal(number: u32) -> Answer {
    Answer { number, value: 0 }
}

impl Engine {
    pub fn new(
        held: Held,
        journal: Arc<Journal>,
        freed: Arc<Condvar>,
        rights: Rights,
        commits: u32,
        trace: Trace,
    ) -> Engine {
        Engine {
            held,
            journal,
            freed,
            running: Default::default(),
            serial: 0,
            line: VecDeque::new(),
            draining: None,
            stopping: false,
            broken: None,
            rights,
            share: Share::new(commits),
            counters: Counters::default(),
            trace,
            last_call: Instant::now(),
            committed: 0,
            handed: 0,
        }
    }

    pub fn pages(&self) -> usize {
        self.held.stored().len() / PAGE_WORDS
    }

    pub fn room(&self) -> usize {
        self.held.log().len() / RECORD_WORDS
    }

    pub fn received(&self) -> usize {
        self.held.counts()[RECEIVED_COUNT] as usize
    }

    pub fn active(&self) -> bool {
        self.running.iter().any(Option::is_some)
    }

    /// A call that the server makes on its own account: it is accepted, or something is badly wrong.
    pub(crate) fn must(&mut self, name: &str, numbers: &[u32], answer: Answer) {
        self.trace.call(name, numbers, answer);
        if !answer.accepted() {
            self.broken = Some(format!("{name} {numbers:?} was answered {}, which cannot be", answer.number));
        }
    }

    /// Begins, or tells that the begin has to wait: for its turn, for a slot, for log room, or for a change of its
    /// client's rights. The connection's own number is its slot where that is free, else the lowest free one.
    pub fn try_begin(&mut self, crew: &Arc<Crew>, own: u32, ticket: Option<u64>) -> Tried {
        if self.stopping {
            return Tried::Answered(refusal(STOPS));
        }
        let turn = self.next_in_line().is_none_or(|first| Some(first.ticket) == ticket);
        let slot = (self.running[own as usize].is_none()).then_some(own as usize);
        let slot = slot.or_else(|| self.running.iter().position(Option::is_none));
        if 4 * self.received() > 3 * self.room() {
            self.drain();
        }
        let may = turn && !self.rights.waits(crew.client) && !self.draining();
        let (Some(slot), true) = (slot, may) else {
            return Tried::Wait;
        };
        let answer = self.held.begin(slot as u32, crew.client);
        self.trace.call("begin", &[slot as u32], answer);
        match answer.number {
            0 => Tried::Began(answer, slot as u32, self.run(slot, crew, own)),
            _ if self.received() == 0 && !self.active() => Tried::Answered(answer), // the log is too small
            _ => {
                self.drain();
                Tried::Wait
            }
        }
    }

    /// A client whose rights are being changed holds up nobody else.
    fn next_in_line(&self) -> Option<&Waiting> {
        self.line.iter().find(|waiting| !self.rights.waits(waiting.client))
    }

    fn run(&mut self, slot: usize, crew: &Arc<Crew>, own: u32) -> u64 {
        self.serial += 1;
        let now = Instant::now();
        let crew = crew.clone();
        self.running[slot] = Some(Running { serial: self.serial, own, crew, began: now, last: now });
        self.serial
    }

    /// Whether this transaction still runs: the server may have aborted it.
    pub fn runs(&self, slot: u32, serial: u64) -> bool {
        self.running[slot as usize].as_ref().is_some_and(|running| running.serial == serial)
    }

    /// A call of a running transaction. Behind an accepted commit `committed` is the work to wait for.
    pub fn call(&mut self, slot: u32, call: &Call, words: &mut [u32; OBJECT_WORDS]) -> Answer {
        if let Some(running) = &mut self.running[slot as usize] {
            running.last = self.last_call;
        }
        let answer = match *call {
            Call::Commit | Call::CommitAll => self.end(slot, true),
            Call::Abort => self.end(slot, false),
            Call::LockRead { page } => self.held.lock_read(slot, page),
            Call::LockWrite { page } => self.held.lock_write(slot, page),
            Call::Flush { page, ref image } => self.flush(slot, page, image.as_deref()),
            Call::Read { object } => self.held.read(words, slot, object),
            Call::Create { object } => self.held.create(slot, object),
            Call::Set { object, field, word } => self.held.set_word(slot, object, field, word),
            Call::Mark { mark } => self.held.mark(slot, mark),
            Call::Back { mark } => self.held.back(slot, mark),
        };
        if answer.number == NO_ROOM {
            self.drain();
        }
        if !call.ends() {
            self.note(slot, call, answer); // an end is noted before what follows it
        }
        answer
    }

    pub fn note(&mut self, t: u32, call: &Call, answer: Answer) {
        if self.trace.is_on() {
            let (name, numbers) = call.words();
            self.trace.call(name, &[&[t], &numbers[..]].concat(), answer);
        }
    }

    /// A tablet's image, or the received page itself.
    fn flush(&mut self, slot: u32, page: u32, image: Option<&[u32]>) -> Answer {
        let mut own = [0; PAGE_WORDS];
        if (page as usize) < self.pages() {
            own.copy_from_slice(&self.held.received()[page_range(page as usize)]);
        }
        self.held.flush(image.unwrap_or(&own), slot, page)
    }

    /// Ends a transaction; then its locks have fallen, the pass goes on, and the log may be emptied.
    fn end(&mut self, slot: u32, commits: bool) -> Answer {
        let answer = if commits { self.held.commit(slot) } else { self.held.abort(slot) };
        self.note(slot, if commits { &Call::Commit } else { &Call::Abort }, answer);
        if !answer.accepted() {
            return answer;
        }
        self.running[slot as usize] = None;
        match commits {
            true => self.counters.commits += 1,
            false => self.counters.aborts += 1,
        }
        if commits {
            self.force_all();
            self.committed = self.handed;
        }
        self.collect_after(commits);
        self.settle();
        answer
    }

    /// What may go on once a transaction has ended.
    pub fn settle(&mut self) {
        self.checkpoint_if_due();
        self.give_rights();
        if !self.line.is_empty() {
            self.freed.notify_all();
        }
    }

    /// Aborts a transaction that its connection does not end.
    pub fn abort(&mut self, slot: usize) {
        let answer = self.end(slot as u32, false);
        if !answer.accepted() {
            self.broken = Some(format!("abort of {slot} was answered {}, which cannot be", answer.number));
        }
    }

    /// Aborts those that run and are meant.
    pub fn abort_all(&mut self, which: impl Fn(&Running) -> bool) {
        for slot in 0..SLOTS {
            if self.running[slot].as_ref().is_some_and(&which) {
                self.abort(slot);
            }
        }
    }

    pub fn chain(&mut self, object: u32) -> (Answer, Vec<u32>) {
        let mut chain = vec![0; CHAIN_WORDS];
        let answer = self.held.chain(&mut chain, object);
        chain.truncate(answer.value as usize);
        (answer, chain)
    }

    /// Looks at every word of the store: see `Held::audit`.
    pub fn audit(&mut self) {
        if !self.held.audit() {
            self.broken = Some("a word in memory was changed by something else than a call".into());
        }
    }

    /// No transaction begins before the log is emptied.
    pub(crate) fn drain(&mut self) {
        self.draining.get_or_insert_with(Instant::now);
    }

    pub(crate) fn draining(&self) -> bool {
        self.draining.is_some()
    }

    pub(crate) fn drained(&mut self) {
        self.draining = None;
    }

    /// A begin has waited so long for the log to be emptied that those that still run are aborted.
    pub fn out_of_patience(&self, grace: Duration) -> bool {
        let waits = self.next_in_line().zip(self.draining).map(|(first, since)| first.since.max(since));
        waits.is_some_and(|since| since.elapsed() >= grace)
    }
}
