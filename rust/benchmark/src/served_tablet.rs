//! Visits made to the server, by a tablet that comes over TCP.

use std::fmt::{Arguments, Write};

use model::layout::{page_of, page_range, word_at, PAGE_WORDS, ROOT};

use crate::served_client::{Answer, Client};
use crate::served_load::Visitor;
use crate::served_visit::{area, site, site_page, ways, Crew, Visit, AREAS, DATA, SITES};

/// How a tablet sends the lines of a visit.
#[derive(Clone, Copy, PartialEq)]
pub enum Manner {
    /// All in one write; the server flushes its received page.
    Together,
    /// The same, and those of the next visit before this one is answered.
    Ahead,
    /// All in one write, with the image of each page that is flushed.
    Images,
    /// Each when the one before is answered.
    Singly,
}

/// Of a create: the slot is occupied.
const OCCUPIED: u32 = 8;

/// Places of a visit's answers.
const READ_SITE: usize = 5;
const CREATE: usize = 7;
const COMMIT: usize = 15;
const LINES: usize = COMMIT + 1;

/// A connection, and the crew that uses it.
pub struct Tablet {
    client: Client,
    crew: Crew,
    manner: Manner,
    answers: Vec<Answer>,
    /// A visit whose lines were sent ahead.
    ahead: Option<Visit>,
    /// The tablet's copies of pages, with what it wrote, and the words that stood there before this visit; kept
    /// where images are sent.
    copies: Vec<u32>,
    before: Vec<(usize, u32)>,
}

/// The records of the way, in one transaction.
pub fn prepare(address: &str) {
    let locks = (0..=SITES).map(|page| format!("lockw,0,{page}"));
    let objects = (0..AREAS).map(area).chain((0..SITES).map(site));
    let creates = objects.map(|object| format!("create,0,{object}"));
    let sets = ways().into_iter().map(|(object, word, named)| format!("set,0,{object},{word},{named}"));
    let flushes = (0..=SITES).map(|page| format!("flush,0,{page}"));
    let changes = locks.chain(creates).chain(sets).chain(flushes);
    let mut client = Client::connect(address);
    client.ask(format_args!("begin,0"));
    for line in changes {
        client.ask(format_args!("{line}"));
    }
    client.ask(format_args!("commit,0"));
}

impl Tablet {
    pub fn new(address: &str, crew: Crew, pages: usize, manner: Manner) -> Tablet {
        // The maps stay 0: the server goes by its own.
        let copies = vec![0; if manner == Manner::Images { PAGE_WORDS * pages } else { 0 }];
        let client = Client::connect(address);
        Tablet { client, crew, manner, answers: Vec::new(), ahead: None, copies, before: Vec::new() }
    }

    pub fn into_crew(self) -> Crew {
        self.crew
    }

    /// The received count that the last commit was told.
    pub fn received(&self) -> u32 {
        self.answers[COMMIT].values[0]
    }

    fn line(&mut self, line: Arguments) {
        self.client.say(line);
        if self.manner == Manner::Singly {
            self.answers.extend(self.client.exchange());
        }
    }

    /// The visit's lines. It commits all of them, or nothing.
    fn lines(&mut self, visit: Visit) {
        self.go_there(page_of(visit.reading));
        self.write(visit);
        self.flush(site_page(self.crew.site));
        self.flush(page_of(visit.reading));
        self.line(format_args!("commitall,0"));
    }

    /// The visit's lines, sent and answered; whether all were accepted.
    fn attempt(&mut self, visit: Visit) -> bool {
        self.answers.clear();
        self.before.clear();
        self.lines(visit);
        let rest = self.client.exchange();
        self.answers.extend(rest);
        self.answers.iter().all(Answer::accepted)
    }

    fn go_there(&mut self, page: usize) {
        let [_, area, site] = self.crew.way();
        self.line(format_args!("begin,0"));
        self.line(format_args!("lockr,0,0"));
        self.line(format_args!("read,0,{ROOT}"));
        self.line(format_args!("read,0,{area}"));
        self.line(format_args!("lockw,0,{}", page_of(site)));
        self.line(format_args!("read,0,{site}"));
        self.line(format_args!("lockw,0,{page}"));
    }

    fn write(&mut self, Visit { reading, words, count }: Visit) {
        let site = site(self.crew.site);
        let [a, b, c] = words;
        self.line(format_args!("create,0,{reading}"));
        for (object, word, value) in [
            (reading, DATA, a),
            (reading, DATA + 1, b),
            (reading, DATA + 2, c),
            (site, 0, reading),
            (site, DATA, count),
        ] {
            self.line(format_args!("set,0,{object},{word},{value}"));
            if self.manner == Manner::Images {
                let at = word_at(object, word);
                self.before.push((at, self.copies[at]));
                self.copies[at] = value;
            }
        }
    }

    fn flush(&mut self, page: usize) {
        let mut image = String::new();
        if self.manner == Manner::Images {
            self.copies[page_range(page)].iter().for_each(|word| write!(image, ",{word}").expect("a string"));
        }
        self.line(format_args!("flush,0,{page}{image}"));
    }

    /// After a refusal nothing is committed: the transaction is aborted.
    fn take_back(&mut self) {
        if self.answers[CREATE].number == OCCUPIED {
            self.crew.pass_slot();
        }
        self.client.say(format_args!("abort,0"));
        self.client.exchange();
        self.before.iter().rev().for_each(|&(at, word)| self.copies[at] = word);
    }

    fn send(&mut self, visit: Visit) {
        self.lines(visit);
        self.client.send();
    }

    /// Sends the next visit, and takes the answers of the one before it, which are all to be accepted.
    fn visit_ahead(&mut self) {
        let visit = self.ahead.take().unwrap_or_else(|| {
            let first = self.crew.visit();
            self.send(first);
            first
        });
        self.crew.done(visit);
        let next = self.crew.visit();
        self.send(next);
        self.ahead = Some(next);
        self.answers = self.client.answers(LINES);
        assert!(self.answers.iter().all(Answer::accepted), "refused: {:?}", self.answers);
        assert_eq!(self.answers[READ_SITE].values[DATA], visit.count - 1, "the visit before is there");
    }
}

impl Visitor for Tablet {
    fn visit(&mut self) -> usize {
        if self.manner == Manner::Ahead {
            self.visit_ahead();
            return 0;
        }
        let mut refused = 0;
        let mut visit = self.crew.visit();
        while !self.attempt(visit) {
            refused += 1;
            self.take_back();
            visit = self.crew.visit();
        }
        let seen = self.answers[READ_SITE].values[DATA];
        assert_eq!(seen, self.crew.count, "the visit before is there");
        self.crew.done(visit);
        refused
    }
}
