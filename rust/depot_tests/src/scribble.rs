//! Random lines of a connection: mostly calls that the store takes, some that it refuses, and some that are no
//! calls.

use std::collections::BTreeSet;

use kophdaen::layout::{page_of, SLOTS, TRANSACTIONS};
use kophdaen::OBJECT_WORDS;

use crate::channel::Reply;
use crate::committed::object_in;
use crate::random::Random;

/// The bench program's.
const PAGES: usize = 4;

/// What is known of a transaction.
#[derive(Clone, Default)]
struct Known {
    active: bool,
    locked: BTreeSet<usize>,
    changed: BTreeSet<usize>,
    objects: BTreeSet<u32>,
}

pub struct Scribble {
    random: Random,
    known: Vec<Known>,
}

impl Scribble {
    pub fn new(random: Random) -> Scribble {
        Scribble { random, known: vec![Known::default(); TRANSACTIONS as usize] }
    }

    pub fn line(&mut self) -> Vec<u8> {
        match self.random.below(100) {
            0..=5 => self.spoilt(),
            6..=8 => self.noise(),
            9..=12 => self.any_call().into_bytes(),
            _ => self.likely_call().into_bytes(),
        }
    }

    fn transaction(&mut self) -> usize {
        let most = if self.random.percent(90) { 3 } else { TRANSACTIONS as usize };
        self.random.below(most)
    }

    /// A call that the store probably takes.
    fn likely_call(&mut self) -> String {
        let t = self.transaction();
        let known = self.known[t].clone();
        let locked: Vec<usize> = known.locked.iter().copied().collect();
        let Some(page) = self.random.pick(&locked).filter(|_| known.active) else {
            return if known.active { format!("lockw,{t},{}", self.page()) } else { format!("begin,{t}") };
        };
        let objects: Vec<u32> = known.objects.iter().copied().collect();
        let own: Vec<u32> = objects.iter().copied().filter(|&object| locked.contains(&page_of(object))).collect();
        let object = self.random.pick(&own).unwrap_or(1);
        let changed: Vec<usize> = known.changed.iter().copied().collect();
        let new = object_in(page, self.random.below(SLOTS));
        match self.random.weighted(&[2, 1, 5, 4, 8, 3, 4, 1]) {
            0 => format!("lockw,{t},{}", self.page()),
            1 => format!("lockr,{t},{}", self.page()),
            2 => format!("read,{t},{object}"),
            3 => format!("create,{t},{new}"),
            4 => self.set(t, object, &objects),
            5 => format!("flush,{t},{}", self.random.pick(&changed).unwrap_or(page)),
            6 if changed.is_empty() => format!("commit,{t}"),
            6 => format!("flush,{t},{}", changed[0]),
            _ => format!("abort,{t}"),
        }
    }

    /// The root's page is wanted most.
    fn page(&mut self) -> usize {
        self.random.below(PAGES).min(self.random.below(PAGES))
    }

    fn set(&mut self, t: usize, object: u32, objects: &[u32]) -> String {
        let field = self.random.below(OBJECT_WORDS);
        let word = match field {
            0..=3 => self.random.pick(objects).filter(|_| self.random.percent(80)).unwrap_or(0),
            _ => self.random.word(),
        };
        format!("set,{t},{object},{field},{word}")
    }

    /// A number that is in range, at a bound, beyond it, or anything.
    fn number(&mut self) -> u32 {
        match self.random.below(8) {
            0 => self.random.word(),
            1 => u32::MAX,
            2 => [4, 15, 16, 64, 65][self.random.below(5)],
            _ => self.random.below(8) as u32,
        }
    }

    /// A call of any numbers.
    fn any_call(&mut self) -> String {
        let calls = [
            ("begin", 1),
            ("commit", 1),
            ("abort", 1),
            ("lockr", 2),
            ("lockw", 2),
            ("flush", 2),
            ("read", 2),
            ("create", 2),
            ("set", 4),
        ];
        let (name, count) = calls[self.random.below(calls.len())];
        let numbers: String = (0..count).map(|_| format!(",{}", self.number())).collect();
        format!("{name}{numbers}")
    }

    /// A call with something wrong in it.
    fn spoilt(&mut self) -> Vec<u8> {
        let line = self.any_call();
        let (name, rest) = line.split_once(',').unwrap_or((&line, ""));
        let spoilt = match self.random.below(14) {
            0 => String::new(),
            1 => format!("{name},0{rest}"),
            2 => format!("{name},{rest}99999999999"),
            3 => format!(" {line}"),
            4 => format!("{line} "),
            5 => format!("{name}, {rest}"),
            6 => format!("{name},+{rest}"),
            7 => format!("{name},-{rest}"),
            8 => name.to_string(),
            9 => format!("{line},"),
            10 => format!("{line},1,1"),
            11 => format!("{}x,{rest}", name),
            12 => line.to_uppercase(),
            _ => format!("\"{name}\",{rest}"),
        };
        spoilt.into_bytes()
    }

    /// Bytes at random, but for LF, up to nearly the longest line.
    fn noise(&mut self) -> Vec<u8> {
        let most = if self.random.percent(5) { 2000 } else { 40 };
        let length = self.random.below(most);
        let byte = |random: &mut Random| loop {
            let byte = random.word() as u8;
            if byte != b'\n' {
                return byte;
            }
        };
        let mut line: Vec<u8> = (0..length).map(|_| byte(&mut self.random)).collect();
        // A CR at the end would be part of the line's end.
        line.pop_if(|last| *last == b'\r');
        line
    }

    /// Learns from the answer.
    pub fn learn(&mut self, line: &[u8], reply: &Reply) {
        let line = String::from_utf8_lossy(line);
        let mut fields = line.trim_end().split(',');
        let name = fields.next().unwrap_or("");
        let numbers: Vec<u32> = fields.filter_map(|field| field.parse().ok()).collect();
        let Some(known) = numbers.first().and_then(|&t| self.known.get_mut(t as usize)) else { return };
        match (name, reply.answer, numbers.get(1)) {
            ("begin", 4, _) => known.active = true,
            (_, 101 | 4, _) | ("commit" | "abort", 0, _) => *known = Known::default(),
            ("begin", 0, _) => *known = Known { active: true, objects: BTreeSet::from([1]), ..Known::default() },
            ("lockw" | "lockr", 0, Some(&page)) => drop(known.locked.insert(page as usize)),
            ("flush", 0, Some(&page)) => drop(known.changed.remove(&(page as usize))),
            ("create", 0, Some(&object)) => {
                known.objects.insert(object);
                known.changed.insert(page_of(object));
            }
            ("set", 0, Some(&object)) => drop(known.changed.insert(page_of(object))),
            ("read", 0, _) => {
                known.objects.extend(reply.words().into_iter().take(4).filter(|&object| object != 0))
            }
            _ => {}
        }
    }
}
