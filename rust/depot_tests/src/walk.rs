//! Random transactions of one client that knows every word: it reads what it expects, creates, links, unlinks and
//! sets, and keeps the committed state as a ledger.

use std::collections::BTreeSet;

use kophdaen::layout::{page_of, REFERENCES, ROOT, SLOTS};
use kophdaen::OBJECT_WORDS;

use crate::channel::{Channel, Ended, Reply};
use crate::committed::{object_in, reached, references, Objects};
use crate::crew::{Stopped, ABORTED, BUSY, STOPS};
use crate::random::Random;

const NO_ROOM: u32 = 11;
const OCCUPIED: u32 = 8;
const HELD: u32 = 6;

/// A running transaction, as its client knows it.
struct Walk<'a> {
    t: usize,
    channel: &'a mut dyn Channel,
    random: &'a mut Random,
    /// The committed words with this transaction's changes.
    words: Objects,
    known: BTreeSet<u32>,
    locked: BTreeSet<usize>,
    changed: BTreeSet<usize>,
}

/// What a transaction came to.
pub enum Outcome {
    /// All is flushed: this state may be committed.
    Ready(Objects),
    /// Aborted, by the client or by the server.
    Dropped,
}

/// Why a step was the last.
enum Halt {
    NoRoom,
    Lost,
    Stopped(Stopped),
}

impl From<Ended> for Halt {
    fn from(ended: Ended) -> Halt {
        Halt::Stopped(Stopped::Ended(ended))
    }
}

/// A random transaction t up to its commit, which the caller sends.
pub fn transaction(
    t: usize,
    pages: usize,
    committed: &Objects,
    channel: &mut dyn Channel,
    random: &mut Random,
) -> Result<Outcome, Stopped> {
    let (words, none) = (committed.clone(), BTreeSet::new());
    let known = BTreeSet::from([ROOT]);
    let mut walk = Walk { t, channel, random, words, known, locked: BTreeSet::new(), changed: none };
    match walk.run(pages) {
        Ok(true) | Err(Halt::NoRoom) => walk.finish(),
        Ok(false) | Err(Halt::Lost) => Ok(Outcome::Dropped),
        Err(Halt::Stopped(stopped)) => Err(stopped),
    }
}

impl Walk<'_> {
    fn run(&mut self, pages: usize) -> Result<bool, Halt> {
        let t = self.t;
        if self.ask(format!("begin,{t}"), &[BUSY])?.answer == BUSY {
            return Ok(false);
        }
        for page in (0..pages).filter(|&page| page == 0 || self.random.percent(70)).collect::<Vec<_>>() {
            if self.ask(format!("lockw,{t},{page}"), &[HELD])?.answer == 0 {
                self.locked.insert(page);
            }
        }
        let steps = self.random.between(1, 6);
        (0..steps).try_for_each(|_| self.step())?;
        if self.random.percent(10) {
            self.ask(format!("abort,{t}"), &[])?;
            return Ok(false);
        }
        Ok(true)
    }

    /// Asks; an answer that is neither 0 nor among these is wrong.
    fn ask(&mut self, line: String, allowed: &[u32]) -> Result<Reply, Halt> {
        let reply = self.channel.ask(&line)?;
        match reply.answer {
            0 => Ok(reply),
            NO_ROOM => Err(Halt::NoRoom),
            ABORTED => Err(Halt::Lost),
            STOPS => Err(Halt::Stopped(Stopped::Ended("the server stops".to_string()))),
            answer if allowed.contains(&answer) => Ok(reply),
            _ => Err(Halt::Stopped(Stopped::Wrong(format!("{line}: {}", reply.text())))),
        }
    }

    fn step(&mut self) -> Result<(), Halt> {
        match self.random.weighted(&[4, 4, 3, 3, 1]) {
            0 => self.read(),
            1 => self.create(),
            2 => self.link(),
            3 => self.set_data(),
            _ => self.unlink(),
        }
    }

    /// A known object on a locked page; the root's page may be held by another.
    fn known_object(&mut self) -> Option<u32> {
        let known: Vec<u32> = self.known.iter().copied().filter(|&o| self.locked.contains(&page_of(o))).collect();
        self.random.pick(&known)
    }

    fn read(&mut self) -> Result<(), Halt> {
        let Some(object) = self.known_object() else { return Ok(()) };
        let reply = self.ask(format!("read,{},{object}", self.t), &[])?;
        let words = self.words[&object];
        if reply.words() != words {
            let what = format!("object {object} is read as {}, and has {words:?}", reply.text());
            return Err(Halt::Stopped(Stopped::Wrong(what)));
        }
        self.known.extend(references(&words));
        Ok(())
    }

    fn create(&mut self) -> Result<(), Halt> {
        let pages: Vec<usize> = self.locked.iter().copied().collect();
        let Some(page) = self.random.pick(&pages) else { return Ok(()) };
        let object = object_in(page, self.random.below(SLOTS));
        let reply = self.ask(format!("create,{},{object}", self.t), &[OCCUPIED])?;
        if reply.answer == 0 {
            self.words.insert(object, [0; OBJECT_WORDS]);
            self.known.insert(object);
            self.changed.insert(page);
            return self.link_to(object);
        }
        Ok(())
    }

    fn link(&mut self) -> Result<(), Halt> {
        let known: Vec<u32> = self.known.iter().copied().collect();
        match self.random.pick(&known) {
            Some(target) => self.link_to(target),
            None => Ok(()),
        }
    }

    /// A reference to the object from another one.
    fn link_to(&mut self, target: u32) -> Result<(), Halt> {
        let from = self.known_object().filter(|&from| from != target);
        let field = self.random.below(REFERENCES);
        from.map_or(Ok(()), |from| self.set(from, field, target))
    }

    fn unlink(&mut self) -> Result<(), Halt> {
        let (from, field) = (self.known_object(), self.random.below(REFERENCES));
        from.map_or(Ok(()), |from| self.set(from, field, 0))
    }

    fn set_data(&mut self) -> Result<(), Halt> {
        let (from, field, word) =
            (self.known_object(), self.random.between(REFERENCES, OBJECT_WORDS - 1), self.random.word());
        from.map_or(Ok(()), |from| self.set(from, field, word))
    }

    fn set(&mut self, object: u32, field: usize, word: u32) -> Result<(), Halt> {
        self.ask(format!("set,{},{object},{field},{word}", self.t), &[])?;
        self.words.get_mut(&object).expect("a known object has words")[field] = word;
        self.changed.insert(page_of(object));
        Ok(())
    }

    /// Flushes each page with a change.
    fn finish(&mut self) -> Result<Outcome, Stopped> {
        for page in self.changed.clone() {
            match self.ask(format!("flush,{},{page}", self.t), &[]) {
                Ok(_) => {}
                Err(Halt::Stopped(stopped)) => return Err(stopped),
                Err(_) => return Ok(Outcome::Dropped),
            }
        }
        let words = &self.words;
        let state = reached(|object| words.get(&object).copied());
        state.map(Outcome::Ready).map_err(|object| Stopped::Wrong(format!("the model lacks object {object}")))
    }
}
