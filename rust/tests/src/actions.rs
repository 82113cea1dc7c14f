//! What a list is made of: calls, cuts, and damage to the lent words.

use std::fmt;

use calls::Call;
use kophdaen::OBJECT_WORDS;
use model::layout::*;

use crate::images;

/// The image that a flush sends, told from the state that the flush meets.
#[derive(Clone, Debug, PartialEq)]
pub enum Image {
    /// The received page itself; zeros where the page does not exist.
    Received,
    /// The page copy, which may lag.
    Copy,
    /// The received page with one word changed.
    Changed(usize, u32),
    /// The received page, but for what does not count: any map, any words at its free slots, by the seed.
    Loose(u64),
    /// One word of an occupied slot with these bits turned; the rest is the received page, or with a seed as loose.
    /// The slot is told by its number among the occupied ones; a higher number is the last of them.
    Wrong {
        slot: usize,
        word: usize,
        bits: u32,
        loose: Option<u64>,
    },
    /// A page as it once stood: what a tablet has read.
    Seen(Vec<u32>),
    /// .. with the received words at the slots that are occupied now, in its map too: what it sends back.
    Stale(Vec<u32>),
    /// The received page cut or lengthened with zeros to so many words.
    Long(usize),
    Zeros,
    /// 129 words from a seed.
    Noise(u64),
}

impl Image {
    pub fn words(&self, received: &[u32], copies: &[u32], page: u32) -> Vec<u32> {
        let page_of = |area: &[u32]| match area.get(page_range(page as usize)) {
            Some(words) => words.to_vec(),
            None => vec![0; PAGE_WORDS],
        };
        let mut words = page_of(received);
        match self {
            Image::Received => {}
            Image::Copy => words = page_of(copies),
            Image::Changed(at, word) => words[*at] = *word,
            Image::Loose(seed) => images::loosen(&mut words, *seed),
            Image::Wrong { slot, word, bits, loose } => {
                let slots = images::occupied_slots(words[0]);
                loose.iter().for_each(|&seed| images::loosen(&mut words, seed));
                if let Some(slot) = slots.get(*slot).or(slots.last()) {
                    words[1 + OBJECT_WORDS * slot + word] ^= bits;
                }
            }
            Image::Seen(seen) => words.clone_from(seen),
            Image::Stale(seen) => words = images::sent_back(seen, &words),
            Image::Long(len) => words.resize(*len, 0),
            Image::Zeros => words.fill(0),
            Image::Noise(seed) => {
                let mut random = crate::random::Random::new(*seed);
                words.fill_with(|| random.word());
            }
        }
        words
    }
}

/// What a call is lent beside the areas.
#[derive(Clone, Debug, PartialEq)]
pub enum Slice {
    Nothing,
    /// Read's, chain's or share's buffer, of so many words.
    Buffer(usize),
    Image(Image),
}

/// A call with what it is lent.
#[derive(Clone, Debug, PartialEq)]
pub struct Request {
    pub call: Call,
    pub slice: Slice,
}

/// With the buffer that a read, a chain or a share takes, and the image that a flush takes.
impl From<Call> for Request {
    fn from(call: Call) -> Request {
        let slice = match (call, call.buffer_words()) {
            (Call::Flush(..), _) => Slice::Image(Image::Received),
            (_, 0) => Slice::Nothing,
            (_, words) => Slice::Buffer(words),
        };
        Request { call, slice }
    }
}

impl Request {
    pub fn read(t: u32, object: u32, words: usize) -> Request {
        Request { call: Call::Read(t, object), slice: Slice::Buffer(words) }
    }

    pub fn chain(object: u32, words: usize) -> Request {
        Request { call: Call::Chain(object), slice: Slice::Buffer(words) }
    }

    pub fn share(commits: u32, words: usize) -> Request {
        Request { call: Call::PassShare(commits), slice: Slice::Buffer(words) }
    }

    pub fn flush(t: u32, page: u32, image: Image) -> Request {
        Request { call: Call::Flush(t, page), slice: Slice::Image(image) }
    }

    /// Words of the buffer.
    pub fn buffer(&self) -> usize {
        match self.slice {
            Slice::Buffer(words) => words,
            _ => 0,
        }
    }

    /// The image, told from the received pages and the copies.
    pub fn image(&self, received: &[u32], copies: &[u32]) -> Vec<u32> {
        match (self.call, &self.slice) {
            (Call::Flush(_, page), Slice::Image(image)) => image.words(received, copies, page),
            _ => Vec::new(),
        }
    }
}

/// The call as the bench program writes it, with what that cannot say after a space.
impl fmt::Display for Request {
    fn fmt(&self, out: &mut fmt::Formatter) -> fmt::Result {
        write!(out, "{}", self.call)?;
        match &self.slice {
            Slice::Nothing | Slice::Image(Image::Received) => Ok(()),
            Slice::Buffer(words) if *words == self.call.buffer_words() => Ok(()),
            Slice::Buffer(words) => write!(out, " (buffer of {words} words)"),
            Slice::Image(image) => write!(out, " (image {image:?})"),
        }
    }
}

#[derive(Clone, Copy, Debug, PartialEq)]
pub enum Filling {
    /// Random words everywhere.
    Noise,
    /// Every word random within its range, so that calls are taken in states that no calls lead to.
    Sound,
    /// As `Sound`, with copies in which many chains of references lead from the root to an object.
    Linked,
    /// As `Sound`, with locks of several transactions on a page, together as no calls grant them.
    Contended,
    /// As `Sound`, with many changes of a few transactions, undone or not, and marks in any order.
    Marked,
    /// Sound stored pages and a stable log in order, for reopening; the rest as `Noise`.
    Reopening,
    /// As `Reopening`, with one word of the log or the stored pages damaged.
    Damaged,
    /// As calls and cuts left it before L8: objects name themselves.
    Old,
}

#[derive(Clone, Debug, PartialEq)]
pub enum Action {
    Call(Request),
    /// The call, made while an area has another length; the area then has its length back.
    Resized(Area, usize, Request),
    Cut,
    Poke(Area, usize, u32),
    Fill(Filling, u64),
}

impl From<Call> for Action {
    fn from(call: Call) -> Action {
        Action::Call(call.into())
    }
}

impl Action {
    pub fn call(&self) -> Option<Call> {
        match self {
            Action::Call(request) | Action::Resized(_, _, request) => Some(request.call),
            _ => None,
        }
    }
}

impl fmt::Display for Action {
    fn fmt(&self, out: &mut fmt::Formatter) -> fmt::Result {
        match self {
            Action::Call(request) => write!(out, "{request}"),
            Action::Resized(area, len, request) => write!(out, "{request} ({area:?} of {len} words)"),
            Action::Cut => write!(out, "cut"),
            Action::Poke(area, index, value) => write!(out, "poke,{area:?},{index},{value}"),
            Action::Fill(filling, seed) => write!(out, "fill,{filling:?},{seed}"),
        }
    }
}

/// A list of actions on a store of zeros of this size.
#[derive(Clone, Debug)]
pub struct List {
    pub pages: usize,
    pub records: usize,
    pub actions: Vec<Action>,
}

impl fmt::Display for List {
    fn fmt(&self, out: &mut fmt::Formatter) -> fmt::Result {
        write!(out, "P = {}, L = {}:", self.pages, self.records)?;
        self.actions.iter().try_for_each(|action| write!(out, "\n  {action}"))
    }
}

/// Where a word of an area stands, in words.
pub fn place(area: Area, index: usize, pages: usize, records: usize) -> String {
    match area {
        Area::Log => format!("log record {} word {}", index / RECORD_WORDS, index % RECORD_WORDS),
        Area::Counts => ["received count", "stable count", "a third count"][index.min(2)].to_string(),
        Area::Work => working_place(index, pages, records),
        _ => {
            let (page, word) = (index / PAGE_WORDS, index % PAGE_WORDS);
            match word {
                0 => format!("{area:?} page {page} map"),
                _ => format!(
                    "{area:?} page {page} slot {} word {}",
                    (word - 1) / OBJECT_WORDS,
                    (word - 1) % OBJECT_WORDS
                ),
            }
        }
    }
}

fn working_place(index: usize, pages: usize, records: usize) -> String {
    let singles = ["reopening word", "reopening page", "pass phase", "pass page", "pass step", "active"];
    if index < singles.len() {
        return singles[index].to_string();
    }
    let has_it = |table: &Table| table.range(pages, records).contains(&index);
    let Some(table) = TABLES.into_iter().find(has_it) else { return format!("working word {index}") };
    let at = index - table.first(pages);
    match table {
        Table::Readers | Table::Writers | Table::Unflushed => format!("{table:?} of page {at}"),
        Table::LeftAtMarks | Table::MarkOrder => {
            let marks = MARKS as usize;
            format!("{table:?} of transaction {} mark {}", at / marks, at % marks)
        }
        Table::Clients => format!("{table:?} of transaction {at}"),
        Table::Rights => {
            let clients = CLIENTS as usize;
            format!("{table:?} of client {} on page {}", at % clients, at / clients)
        }
        Table::Undoing => format!("{table:?} of log record {at}"),
        _ => format!("{table:?} of object {}", at + 1),
    }
}
