//! Every state of the stable part that stood between two calls: the server's calls are made again on a second
//! store, and its stored pages and stable records are kept after each.

use std::io::{self, Write};
use std::sync::{Arc, Mutex};

use depot::image::Found;
use depot::trace::Trace;
use kophdaen::{Answer, Held, OBJECT_WORDS, PAGE_WORDS, RECORD_WORDS};

/// A state: the pages, and how many records of a turn of the log are stable.
struct Entry {
    turn: usize,
    stable: usize,
    pages: Arc<Vec<u32>>,
}

pub struct History {
    held: Held,
    /// The stable records of each turn of the log; a turn ends when the log is emptied.
    logs: Vec<Vec<u32>>,
    entries: Vec<Entry>,
    /// Turn and count of the newest commit, and of the last told one.
    newest: (usize, usize),
    told: (usize, usize),
    pub calls: u64,
    /// The trace is of many connections: a call of a transaction that is none has its connection's own number,
    /// which may be another's slot. It was refused, and is left out.
    pub of_many: bool,
    /// A call of the trace that is answered otherwise here.
    pub wrong: Option<String>,
}

/// Takes a trace line by line into a history.
pub struct Tracer {
    history: Arc<Mutex<History>>,
    line: Vec<u8>,
}

impl Tracer {
    pub fn of(history: &Arc<Mutex<History>>) -> Trace {
        Trace::into(Box::new(Tracer { history: history.clone(), line: Vec::new() }))
    }
}

impl Write for Tracer {
    fn write(&mut self, bytes: &[u8]) -> io::Result<usize> {
        self.line.extend_from_slice(bytes);
        if self.line.ends_with(b"\n") {
            let line = String::from_utf8_lossy(&std::mem::take(&mut self.line)).into_owned();
            let mut history = self.history.lock().expect("no call panics");
            let wrong = history.trace(&line).err();
            history.wrong = history.wrong.take().or(wrong);
        }
        Ok(bytes.len())
    }

    fn flush(&mut self) -> io::Result<()> {
        Ok(())
    }
}

impl History {
    /// From what a start finds, with the reopening's steps.
    pub fn new(found: &Found) -> Result<History, String> {
        let held = Held::open(&found.pages, &found.records, found.room).map_err(|error| error.to_string())?;
        let stable = found.records.len() / RECORD_WORDS;
        let first = Entry { turn: 0, stable, pages: Arc::new(found.pages.clone()) };
        let (logs, told) = (vec![found.records.clone()], (0, stable));
        let mut history = History {
            held,
            logs,
            entries: vec![first],
            newest: told,
            told,
            calls: 0,
            of_many: false,
            wrong: None,
        };
        let pages = (found.pages.len() / PAGE_WORDS) as u32;
        for _ in 0..=pages {
            history.held.reopen_step();
            history.note();
        }
        let given = (0..pages).all(|page| history.held.grant(0, page, 2).accepted());
        given.then_some(history).ok_or_else(|| "the reopening does not end".to_string())
    }

    /// Keeps the stable part, if the last call has changed it.
    fn note(&mut self) {
        let stable = self.held.counts()[1] as usize;
        let (turn, log) = (self.logs.len() - 1, &self.held.log()[..RECORD_WORDS * stable]);
        let last = self.entries.last().expect("the first state is kept");
        let turn = if stable < last.stable { turn + 1 } else { turn };
        if (turn, stable) == (last.turn, last.stable) && self.held.stored() == &last.pages[..] {
            return;
        }
        match self.logs.get_mut(turn) {
            Some(kept) => log.clone_into(kept),
            None => self.logs.push(log.to_vec()),
        }
        let same = self.held.stored() == &last.pages[..];
        let pages = if same { last.pages.clone() } else { Arc::new(self.held.stored().to_vec()) };
        self.entries.push(Entry { turn, stable, pages });
    }

    /// A line of the trace, `LINE<TAB>ANSWER,VALUE`: makes the call, which must be answered so.
    pub fn trace(&mut self, line: &str) -> Result<(), String> {
        let bad = || format!("no line of a trace: {line:?}");
        let (call, told) = line.trim_end().split_once('\t').ok_or_else(bad)?;
        if self.of_many && ["3,0", "4,0"].contains(&told) {
            return Ok(());
        }
        let mut fields = call.split(',');
        let name = fields.next().unwrap_or("");
        let numbers: Vec<u32> = fields.map(str::parse).collect::<Result<_, _>>().map_err(|_| bad())?;
        let answer = self.call(name, &numbers).ok_or_else(bad)?;
        if format!("{},{}", answer.number, answer.value) != told {
            return Err(format!("the server traced {line:?}, and the call answers {answer:?}"));
        }
        self.calls += 1;
        self.note();
        if name == "commit" && answer.accepted() {
            self.newest = (self.logs.len() - 1, answer.value as usize);
        }
        Ok(())
    }

    fn call(&mut self, name: &str, numbers: &[u32]) -> Option<Answer> {
        let held = &mut self.held;
        Some(match (name, numbers) {
            ("begin", &[t]) => held.begin(t, 0),
            ("commit", &[t]) => held.commit(t),
            ("abort", &[t]) => held.abort(t),
            ("lockr", &[t, page]) => held.lock_read(t, page),
            ("lockw", &[t, page]) => held.lock_write(t, page),
            ("flush", &[t, page]) => flush(held, t, page),
            ("read", &[t, object]) => held.read(&mut [0; OBJECT_WORDS], t, object),
            ("create", &[t, object]) => held.create(t, object),
            ("set", &[t, object, field, word]) => held.set_word(t, object, field, word),
            ("mark", &[t, mark]) => held.mark(t, mark),
            ("back", &[t, mark]) => held.back(t, mark),
            ("force", &[]) => held.force(),
            ("store", &[page]) => held.store_page(page),
            ("empty", &[]) => held.empty_log(),
            ("pass", &[]) => held.start_pass(),
            ("step", &[]) => held.pass_step(),
            _ => return None,
        })
    }

    /// The newest commit is told: what stood before it may not come back.
    pub fn tell(&mut self) {
        self.told = self.newest;
        let told = self.told;
        let before = self.entries.iter().take_while(|entry| (entry.turn, entry.stable) < told).count();
        self.entries.drain(..before.min(self.entries.len() - 1));
    }

    /// This must be a state that stood between two calls, not before the last one told.
    pub fn check(&self, found: &Found) -> Result<(), String> {
        let records = found.records.len() / RECORD_WORDS;
        match &self.wrong {
            Some(what) => Err(what.clone()),
            None if self.has(found) => Ok(()),
            None => Err(format!("epoch {}, {records} records: no state that stood, or an old one", found.epoch)),
        }
    }

    fn has(&self, found: &Found) -> bool {
        let is = |entry: &Entry| {
            *entry.pages == found.pages
                && RECORD_WORDS * entry.stable == found.records.len()
                && self.logs[entry.turn].starts_with(&found.records)
        };
        self.entries.iter().rev().any(is)
    }
}

/// The bench program's flush sends the received page itself.
fn flush(held: &mut Held, t: u32, page: u32) -> Answer {
    let at = PAGE_WORDS * page as usize;
    let image = held.received().get(at..at + PAGE_WORDS).unwrap_or(&[0; PAGE_WORDS]).to_vec();
    held.flush(&image, t, page)
}
