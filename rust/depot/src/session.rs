//! A connection: its lines in, its answers out, in order. Nothing behind a commit is sent before the commit is on
//! the disk.

use std::io::{self, Write};
use std::sync::{Arc, Mutex};
use std::time::Instant;

use kophdaen::layout::*;
use kophdaen::{Answer, OBJECT_WORDS};

use crate::engine::{refusal, Crew, Engine, Tried, LOST, MANY, NOT_ALL};
use crate::line::{self, Call, Line};
use crate::server::Server;

/// Lines that are run before others get a turn, and bytes that are gathered before they are sent.
const TURN_LINES: usize = 64;
const TURN_BYTES: usize = 1 << 16;
/// Document 01's refusals that are told here of a transaction that has no slot, and of lines that are no calls.
const NO_CALL: u32 = 1;
const OUT_OF_RANGE: u32 = 3;
const NOT_ACTIVE: u32 = 4;
const RIGHT_MISSING: u32 = 19;
const HELD: u32 = 6;

/// Why a connection ends.
#[derive(Debug)]
pub enum End {
    /// A line is too long.
    Line,
    /// The answers could not be sent.
    Send(io::Error),
    /// The server has ended, or the disk failed.
    Server,
}

/// What made a turn end.
enum Turn {
    /// No whole line is left.
    Empty,
    More,
    /// This begin has to wait in line.
    Begin(u32),
}

pub struct Session {
    server: Arc<Server>,
    crew: Arc<Crew>,
    /// By the connection's own number, the slot and the serial number of a transaction that began.
    slots: [Option<(u32, u64)>; SLOTS],
    /// Of which of them a line was refused since, a bit each.
    refused: u32,
    input: Vec<u8>,
    /// How much of the input is done with.
    taken: usize,
    lines: u64,
    answers: Vec<u8>,
    /// The work that must be on the disk before the answers go; 0: none.
    owed: u64,
}

impl Session {
    pub(crate) fn new(server: Arc<Server>, client: u32, name: &str) -> Session {
        Session {
            server,
            crew: Arc::new(Crew { client, name: Mutex::new(name.into()) }),
            slots: [None; SLOTS],
            refused: 0,
            input: Vec::new(),
            taken: 0,
            lines: 0,
            answers: Vec::new(),
            owed: 0,
        }
    }

    /// Takes input, however it is split, and sends the answers to its whole lines.
    pub fn take(&mut self, input: &[u8], send: &mut dyn FnMut(&[u8]) -> io::Result<()>) -> Result<(), End> {
        self.input.extend_from_slice(input);
        loop {
            let turn = self.turn();
            self.deliver(send)?;
            match turn? {
                Turn::Empty => break,
                Turn::More => {}
                Turn::Begin(own) => {
                    let tried = self.server.wait_in_line(&self.crew, own);
                    let answer = self.began(own, tried);
                    self.answer(answer, &[]);
                }
            }
        }
        self.input.drain(..self.taken);
        self.taken = 0;
        if self.input.len() > line::MOST_BYTES {
            return Err(End::Line);
        }
        Ok(())
    }

    /// Runs some lines.
    fn turn(&mut self) -> Result<Turn, End> {
        let server = self.server.clone();
        let mut engine = server.engine()?;
        engine.last_call = Instant::now();
        for _ in 0..TURN_LINES {
            let Some((start, end)) = self.next_line()? else {
                return Ok(Turn::Empty);
            };
            let bytes = std::mem::take(&mut self.input);
            let waits = self.line(&mut engine, trim(&bytes[start..end]));
            self.input = bytes;
            if engine.broken.is_some() {
                self.answers.clear(); // a commit among them may not have been forced
                return Err(End::Server);
            }
            if let Some(own) = waits {
                return Ok(Turn::Begin(own));
            }
            if self.answers.len() > TURN_BYTES {
                break;
            }
        }
        Ok(Turn::More)
    }

    /// Where the next whole line stands, without its LF.
    fn next_line(&mut self) -> Result<Option<(usize, usize)>, End> {
        let rest = &self.input[self.taken..];
        let Some(length) = rest.iter().position(|&byte| byte == b'\n') else {
            return Ok(None);
        };
        if length > line::MOST_BYTES {
            return Err(End::Line);
        }
        let start = self.taken;
        self.taken += length + 1;
        Ok(Some((start, start + length)))
    }

    /// Sends what is answered, once the commits among it are on the disk.
    fn deliver(&mut self, send: &mut dyn FnMut(&[u8]) -> io::Result<()>) -> Result<(), End> {
        if self.owed > 0 {
            self.server.wait_for(self.owed)?;
            self.owed = 0;
        }
        if !self.answers.is_empty() {
            send(&self.answers).map_err(End::Send)?;
            self.answers.clear();
        }
        Ok(())
    }

    /// Answers a line; a begin that has to wait is not answered yet, but told.
    fn line(&mut self, engine: &mut Engine, bytes: &[u8]) -> Option<u32> {
        match line::parse(bytes) {
            None => {
                let answer = refusal(NO_CALL);
                engine.trace.line(bytes, answer);
                self.answer(answer, &[]);
            }
            Some(Line::Begin { t }) => return self.begin(engine, t),
            Some(Line::Of { t, call }) => self.call(engine, t, &call),
            Some(Line::Chain { object }) => self.chain(engine, object),
            Some(Line::Hello { name }) => {
                *self.crew.name.lock().expect("a name") = name.into();
                self.answer(Answer { number: 0, value: self.crew.client }, &[]);
            }
        }
        None
    }

    fn begin(&mut self, engine: &mut Engine, own: u32) -> Option<u32> {
        let refused = self.refused_begin(engine, own);
        let tried = match refused {
            Some(number) => Tried::Answered(refusal(number)),
            None => engine.try_begin(&self.crew, own, None),
        };
        if let Tried::Wait = tried {
            return Some(own);
        }
        if refused == Some(NOT_ACTIVE) {
            self.refused |= 1 << own; // what follows goes on with a transaction that the tablet did not mean
        }
        if let Some(number) = refused.filter(|&number| number != MANY) {
            engine.trace.call("begin", &[own], refusal(number));
        }
        let answer = self.began(own, tried);
        self.answer(answer, &[]);
        None
    }

    /// A begin that needs no slot to be refused.
    fn refused_begin(&self, engine: &Engine, own: u32) -> Option<u32> {
        let runs = |slot: &Option<(u32, u64)>| slot.is_some_and(|(slot, serial)| engine.runs(slot, serial));
        let mine = self.slots.iter().filter(|slot| runs(slot)).count();
        match self.slots.get(own as usize) {
            None => Some(OUT_OF_RANGE),
            Some(slot) if runs(slot) => Some(NOT_ACTIVE),
            _ if mine >= self.server.options.per_connection => Some(MANY),
            _ => None,
        }
    }

    fn began(&mut self, own: u32, tried: Tried) -> Answer {
        match tried {
            Tried::Began(answer, slot, serial) => {
                self.slots[own as usize] = Some((slot, serial));
                self.refused &= !(1 << own);
                answer
            }
            Tried::Answered(answer) => answer,
            Tried::Wait => refusal(crate::engine::BUSY),
        }
    }

    fn call(&mut self, engine: &mut Engine, own: u32, call: &Call) {
        let Some((slot, serial)) = self.slots.get(own as usize).copied().flatten() else {
            return self.slotless(engine, own, call);
        };
        if !engine.runs(slot, serial) {
            self.slots[own as usize] = None;
            return self.answer(refusal(LOST), &[]);
        }
        if *call == Call::CommitAll && self.refused >> own & 1 == 1 {
            return self.answer(refusal(NOT_ALL), &[]);
        }
        let mut words = [0; OBJECT_WORDS];
        let answer = engine.call(slot, call, &mut words);
        self.refused |= u32::from(!answer.accepted()) << own;
        match (call, answer.number) {
            (Call::Read { .. }, 0) => self.answer(answer, &words[1..]),
            (_, 0) if call.ends() => self.ended(engine, own, call, answer),
            (_, HELD) => self.holder(engine, answer),
            _ => self.answer(answer, &[]),
        }
    }

    fn ended(&mut self, engine: &Engine, own: u32, call: &Call, answer: Answer) {
        self.slots[own as usize] = None;
        if call.commits() {
            self.owed = engine.committed;
        }
        self.answer(answer, &[]);
    }

    /// A call of a transaction that has not begun: 3 or 4, as the library would answer.
    fn slotless(&mut self, engine: &mut Engine, own: u32, call: &Call) {
        let in_range = own < TRANSACTIONS && call.in_range(engine.pages());
        let answer = refusal(if in_range { NOT_ACTIVE } else { OUT_OF_RANGE });
        engine.note(own, call, answer);
        self.answer(answer, &[]);
    }

    /// L2: whom to call.
    fn holder(&mut self, engine: &Engine, answer: Answer) {
        let Some(holder) = &engine.running[answer.value as usize] else {
            return self.answer(answer, &[]);
        };
        let name = holder.crew.name.lock().expect("a name").clone();
        let Answer { number, value } = answer;
        self.lines += 1;
        let _ = write!(
            self.answers,
            "{},{number},{value},{},{},{name}\r\n",
            self.lines, holder.crew.client, holder.own
        );
    }

    /// L1. A chain tells references of every page on it, so the client must be allowed to read those (L9).
    fn chain(&mut self, engine: &mut Engine, object: u32) {
        let (answer, chain) = engine.chain(object);
        let known = answer.number != OUT_OF_RANGE;
        let hidden = |object: &u32| engine.rights.right(self.crew.client, page_of(*object)) == 0;
        if known && (hidden(&object) || chain.iter().any(hidden)) {
            return self.answer(refusal(RIGHT_MISSING), &[]);
        }
        self.answer(answer, &chain);
    }

    fn answer(&mut self, answer: Answer, more: &[u32]) {
        self.lines += 1;
        let _ = write!(self.answers, "{},{},{}", self.lines, answer.number, answer.value);
        for word in more {
            let _ = write!(self.answers, ",{word}");
        }
        self.answers.extend_from_slice(b"\r\n");
    }
}

/// A dropped connection's transactions are aborted.
impl Drop for Session {
    fn drop(&mut self) {
        if let Ok(mut engine) = self.server.clone().engine() {
            let crew = &self.crew;
            engine.abort_all(|running| Arc::ptr_eq(&running.crew, crew));
        }
        self.server.left();
    }
}

/// Lines may end in CRLF.
fn trim(line: &[u8]) -> &[u8] {
    line.strip_suffix(b"\r").unwrap_or(line)
}

#[cfg(test)]
mod tests {
    use super::*;
    use crate::clients::Clients;
    use crate::disk::{Disk, Part};
    use crate::image::{self, Files};
    use crate::server::Options;

    /// A disk that takes everything.
    struct Willing;

    impl Disk for Willing {
        fn write(&self, _: Part, _: u64, _: &[u8]) -> io::Result<()> {
            Ok(())
        }

        fn sync(&self, _: Part) -> io::Result<()> {
            Ok(())
        }
    }

    fn answers(lines: &str) -> String {
        let (pages, room) = (2, 64);
        let held = kophdaen::Held::format(pages, room).expect("sizes in bounds");
        let first = image::snapshot(1, 1, held.stored(), room);
        let files = Files { snapshots: [first, vec![]], log: vec![0; image::log_bytes(room)] };
        let started = Server::start(Arc::new(Willing), &files, Clients::all(), Options::default(), &mut |_| {});
        let mut session = started.expect("a store").connect(0, "");
        let mut answers = Vec::new();
        let mut send = |bytes: &[u8]| answers.write_all(bytes);
        session.take(lines.as_bytes(), &mut send).expect("taken");
        String::from_utf8(answers).expect("text").replace("\r\n", " ")
    }

    #[test]
    fn all_or_nothing() {
        let clean = "begin,0\nlockw,0,0\ncreate,0,2\nset,0,1,0,2\nflush,0,0\ncommitall,0\n";
        assert_eq!(answers(clean), "1,0,1 2,0,0 3,0,2 4,0,3 5,0,0 6,0,4 ");
        let refused = "begin,0\nlockw,0,0\ncreate,0,1\nflush,0,0\ncommitall,0\nabort,0\nbegin,0\ncommitall,0\n";
        assert_eq!(answers(refused), "1,0,1 2,0,0 3,8,0 4,0,0 5,104,0 6,0,2 7,0,3 8,0,4 ");
        assert_eq!(answers("begin,0\nbegin,0\ncommitall,0\ncommit,0\n"), "1,0,1 2,4,0 3,104,0 4,0,2 ");
        assert_eq!(answers("commitall,0\ncommitall,16\n"), "1,4,0 2,3,0 ");
    }

    #[test]
    fn what_a_broken_connection_left_is_no_line() {
        assert_eq!(answers("begin,0\r\nlockw,0,0"), "1,0,1 ");
    }
}
