//! The load: a client changes its two records together in each transaction, by lines that are sent ahead. What the
//! server has told of it must be there after every cut, and nothing may be half there.

use std::fmt::Write;
use std::sync::atomic::AtomicU32;
use std::sync::Arc;

use crate::channel::{Channel, Ended, Reply};
use crate::pair::{Pair, Reader, Reading};
use crate::promises::Promises;
use crate::random::Random;
use crate::yard::{check_word, Which, Yard, CHECK, COUNT, NOTE, TRIED};

/// Refusals that a client lives with: no log room, busy, aborted by the server, the server stops.
const NO_ROOM: u32 = 11;
pub const BUSY: u32 = 100;
pub const ABORTED: u32 = 101;
pub const STOPS: u32 = 102;

/// How a client's work ended.
#[derive(Debug)]
pub enum Stopped {
    Ended(Ended),
    Wrong(String),
}

/// A client, and what it was told of its commits.
pub struct Crew {
    yard: Yard,
    client: usize,
    next: u32,
    pairs: Promises,
    notes: Promises,
    pub commits: u64,
    pub refused: u64,
}

/// The first lines of a transaction, up to the flushes.
struct Opening {
    count: u32,
    text: String,
    /// Which lines must be accepted.
    needed: Vec<bool>,
}

impl Opening {
    fn line(&mut self, needed: bool, line: String) {
        self.text.push_str(&line);
        self.text.push('\n');
        self.needed.push(needed);
    }
}

impl Crew {
    pub fn new(yard: &Yard, client: usize) -> Crew {
        let [pairs, notes] = [Promises::default(), Promises::default()];
        Crew { yard: yard.clone(), client, next: 1, pairs, notes, commits: 0, refused: 0 }
    }

    pub fn reader(&self) -> Reader {
        Reader { yard: self.yard.clone(), client: self.client }
    }

    pub fn all(yard: &Yard) -> Vec<Crew> {
        (0..yard.clients).map(|client| Crew::new(yard, client)).collect()
    }

    /// Works until the connection ends, or until `go_on` says no.
    pub fn work(
        &mut self,
        channel: &mut dyn Channel,
        random: &mut Random,
        go_on: &dyn Fn() -> bool,
    ) -> Result<(), Stopped> {
        let mut ahead = None;
        while ahead.is_some() || go_on() {
            let (opening, replies) = match ahead.take() {
                Some(opened) => opened,
                None => self.open(channel, random)?,
            };
            ahead = match self.refusal(&opening, &replies)? {
                Some(number) => self.give_up(channel, number)?,
                None => self.close(opening, channel, random, go_on())?,
            };
        }
        Ok(())
    }

    /// Works until so many more commits were told, one at a time.
    pub fn commit(&mut self, times: u64, channel: &mut dyn Channel, random: &mut Random) -> Result<(), Stopped> {
        let enough = self.commits + times;
        while self.commits < enough {
            let (opening, replies) = self.open(channel, random)?;
            match self.refusal(&opening, &replies)? {
                Some(number) => self.give_up(channel, number).map(drop::<Option<()>>)?,
                None => drop(self.close(opening, channel, random, false)?),
            }
        }
        Ok(())
    }

    fn open(&mut self, channel: &mut dyn Channel, random: &mut Random) -> Result<(Opening, Vec<Reply>), Stopped> {
        let opening = self.opening(random);
        let mut replies = Vec::new();
        channel.exchange(&opening.text, &mut replies).map_err(Stopped::Ended)?;
        Ok((opening, replies))
    }

    fn opening(&mut self, random: &mut Random) -> Opening {
        let (count, [first, second]) = (self.next, self.yard.pair(self.client));
        self.next += 1;
        let mut opening = Opening { count, text: String::new(), needed: Vec::new() };
        opening.line(true, "begin,0".to_string());
        (0..self.yard.tree_pages()).for_each(|page| opening.line(true, format!("lockr,0,{page}")));
        self.yard.pair_pages(self.client).iter().for_each(|page| opening.line(true, format!("lockw,0,{page}")));
        let way = self.yard.way(self.client);
        way.iter().for_each(|(node, _)| opening.line(true, format!("read,0,{node}")));
        opening.line(true, format!("read,0,{first}"));
        if random.percent(20) {
            self.try_and_go_back(&mut opening);
        }
        self.renew_spare(&mut opening);
        for (object, which) in [(first, Which::First), (second, Which::Second)] {
            opening.line(true, format!("set,0,{object},{COUNT},{count}"));
            let check = check_word(self.client, count, which);
            opening.line(true, format!("set,0,{object},{CHECK},{check}"));
        }
        opening
    }

    fn try_and_go_back(&self, opening: &mut Opening) {
        opening.line(true, "mark,0,1".to_string());
        for object in self.yard.pair(self.client) {
            opening.line(true, format!("set,0,{object},{TRIED},{}", opening.count));
        }
        opening.line(true, "back,0,1".to_string());
    }

    /// A new record in the place of the one before, which nothing reaches then. Its slot may not be free yet.
    fn renew_spare(&self, opening: &mut Opening) {
        let (first, count) = (self.yard.pair(self.client)[0], opening.count);
        let spare = self.yard.spare(self.client, count);
        opening.line(false, format!("create,0,{spare}"));
        opening.line(false, format!("set,0,{spare},{COUNT},{count}"));
        opening.line(false, format!("set,0,{spare},{CHECK},{}", check_word(self.client, count, Which::Spare)));
        opening.line(false, format!("set,0,{first},1,{spare}"));
    }

    /// The first refusal of a line that was needed; one that no client should meet is wrong.
    fn refusal(&self, opening: &Opening, replies: &[Reply]) -> Result<Option<u32>, Stopped> {
        let refused = |(needed, reply): &(&bool, &Reply)| reply.answer != 0 && (**needed || reply.answer >= BUSY);
        let Some((_, reply)) = opening.needed.iter().zip(replies).find(refused) else { return Ok(None) };
        let at = replies.iter().position(|other| other == reply).unwrap_or(0);
        let line = opening.text.lines().nth(at).unwrap_or("");
        match reply.answer {
            STOPS => Err(Stopped::Ended("the server stops".to_string())),
            NO_ROOM | BUSY | ABORTED => Ok(Some(reply.answer)),
            _ => Err(Stopped::Wrong(format!("client {}: {line}: {}", self.client, reply.text()))),
        }
    }

    fn give_up<T>(&mut self, channel: &mut dyn Channel, number: u32) -> Result<Option<T>, Stopped> {
        self.refused += 1;
        if number == NO_ROOM {
            channel.ask("abort,0").map_err(Stopped::Ended)?;
        }
        Ok(None)
    }

    /// Flushes and commits, now and then aborts; and right behind sends a note, which is another commit, and the
    /// next opening.
    fn close(
        &mut self,
        opening: Opening,
        channel: &mut dyn Channel,
        random: &mut Random,
        go_on: bool,
    ) -> Result<Option<(Opening, Vec<Reply>)>, Stopped> {
        let commits = !random.percent(5);
        let [first, second] = self.yard.pair_pages(self.client);
        let end = if commits { "commit" } else { "abort" };
        let mut text = format!("flush,0,{first}\nflush,0,{second}\n{end},0\n");
        let note = if go_on && random.percent(30) { self.note(opening.count) } else { String::new() };
        text.push_str(&note);
        let next = (go_on && random.percent(60)).then(|| self.opening(random));
        next.iter().for_each(|next| text.push_str(&next.text));
        if commits {
            self.pairs.send(opening.count);
        }
        let mut replies = Vec::new();
        let exchanged = channel.exchange(&text, &mut replies);
        let mut noted = replies.split_off(replies.len().min(3));
        let behind = noted.split_off(noted.len().min(note.lines().count()));
        let whole = noted.len() == note.lines().count();
        self.closed(opening.count, commits, &replies)?;
        self.noted(opening.count, &noted, whole)?;
        exchanged.map_err(Stopped::Ended)?;
        Ok(next.map(|next| (next, behind)))
    }

    /// The lines of a second transaction, of one set alone: it cannot be half there, whatever is refused.
    fn note(&mut self, count: u32) -> String {
        let [first, second] = self.yard.pair(self.client);
        let [first_page, second_page] = self.yard.pair_pages(self.client);
        let mut text = "begin,1\n".to_string();
        (0..self.yard.tree_pages()).for_each(|page| writeln!(text, "lockr,1,{page}").unwrap());
        write!(text, "lockr,1,{first_page}\nlockw,1,{second_page}\n").unwrap();
        let way = self.yard.way(self.client);
        way.iter().for_each(|(node, _)| writeln!(text, "read,1,{node}").unwrap());
        write!(text, "read,1,{first}\nset,1,{second},{NOTE},{count}\nflush,1,{second_page}\ncommit,1\n").unwrap();
        self.notes.send(count);
        text
    }

    /// What a note was answered; `whole` where no answer is missing.
    fn noted(&mut self, count: u32, replies: &[Reply], whole: bool) -> Result<(), Stopped> {
        let answers: Vec<u32> = replies.iter().map(|reply| reply.answer).collect();
        let known = |answer: &u32| [0, 4, 5, 7, NO_ROOM, BUSY, ABORTED, STOPS].contains(answer);
        match answers[..] {
            [.., 0, 0, 0] if whole => {
                self.notes.tell(count);
                self.commits += 1;
            }
            _ if answers.iter().all(known) => {}
            _ => return Err(self.wrong("a note is answered", &answers)),
        }
        Ok(())
    }

    fn closed(&mut self, count: u32, commits: bool, replies: &[Reply]) -> Result<(), Stopped> {
        let answers: Vec<u32> = replies.iter().map(|reply| reply.answer).collect();
        let aborted = answers.iter().any(|&answer| answer == ABORTED || answer == STOPS);
        match answers[..] {
            [0, 0, 0] if commits => {
                self.pairs.tell(count);
                self.commits += 1;
            }
            [_, _, 0] if commits => return Err(self.wrong("a commit is accepted behind a refusal", &answers)),
            [_, _, _] if aborted => {
                self.refused += 1;
                self.pairs.drop(count);
            }
            [_, _, answer] if answer != 0 => {
                return Err(self.wrong("the end of a transaction is refused", &answers))
            }
            _ => {}
        }
        Ok(())
    }

    fn wrong(&self, what: &str, answers: &[u32]) -> Stopped {
        Stopped::Wrong(format!("client {}: {what}: {answers:?}", self.client))
    }

    /// The last commit told is to be found undone: its place was damaged.
    pub fn forget_last(&mut self) {
        self.pairs.forget_last();
    }

    /// Reads the client's records: they must be of the last commits told, or of others sent since.
    pub fn verify(&mut self, read: Reading) -> Result<(), String> {
        let found = self.reader().read(read)?;
        self.accept(found)
    }

    /// .. by lines.
    pub fn verify_by(&mut self, channel: &mut dyn Channel) -> Result<(), String> {
        let found = self.reader().read_by(channel)?;
        self.accept(found)
    }

    fn accept(&mut self, found: Pair) -> Result<(), String> {
        self.pairs.accept(found.count).map_err(|what| format!("client {}: count {what}", self.client))?;
        self.notes.accept(found.note).map_err(|what| format!("client {}: note {what}", self.client))
    }

    /// The counts that were told last, of the pair and of the note.
    pub fn shown(&self) -> [Arc<AtomicU32>; 2] {
        [self.pairs.shown(), self.notes.shown()]
    }

    /// The last count that any line was sent with.
    pub fn last(&self) -> u32 {
        self.next - 1
    }
}
