//! A client's records, read: the way to them, the pair with its count, the note, and the spare record beside them.

use kophdaen::layout::page_of;

use crate::channel::Channel;
use crate::committed::Words;
use crate::yard::{accepted, check_word, Which, Yard, CHECK, COUNT, NOTE, TRIED};

/// Reads the words of an object on a way from the root.
pub type Reading<'a> = &'a mut dyn FnMut(u32) -> Result<Words, String>;

/// What a client's records have: the count that is in both, and the note in the second.
pub struct Pair {
    pub count: u32,
    pub note: u32,
}

/// Reads one client's records.
#[derive(Clone)]
pub struct Reader {
    pub yard: Yard,
    pub client: usize,
}

impl Reader {
    pub fn read(&self, read: Reading) -> Result<Pair, String> {
        self.pair(read).map_err(|what| format!("client {}: {what}", self.client))
    }

    /// .. by lines of a transaction that locks the pages for reading.
    pub fn read_by(&self, channel: &mut dyn Channel) -> Result<Pair, String> {
        let pages = (0..self.yard.tree_pages()).chain(self.yard.pair_pages(self.client));
        let locks: String = pages.map(|page| format!("lockr,0,{page}\n")).collect();
        accepted(channel, &format!("begin,0\n{locks}"))?;
        let pair = self.read(&mut |object| {
            let reply = channel.ask(&format!("read,0,{object}"))?;
            reply.words().try_into().map_err(|_| format!("read of {object}: {}", reply.text()))
        })?;
        accepted(channel, "abort,0\n").map(|()| pair)
    }

    fn pair(&self, read: Reading) -> Result<Pair, String> {
        let [first, second] = self.yard.pair(self.client);
        let way = self.yard.way(self.client);
        let onward = way.iter().skip(1).map(|(node, _)| *node).chain([first]);
        for (&(node, word), next) in way.iter().zip(onward) {
            let words = read(node)?;
            if words[word] != next {
                return Err(format!("object {node} does not lead to {next}: {words:?}"));
            }
        }
        let [one, two] = [read(first)?, read(second)?];
        let (count, note) = (one[COUNT as usize], two[NOTE as usize]);
        let right = self.marks(&one, Which::First)
            && self.marks(&two, Which::Second)
            && one[0] == second
            && [two[COUNT as usize], one[TRIED as usize], two[TRIED as usize]] == [count, 0, 0];
        if !right {
            return Err(format!("no pair: {one:?} {two:?}"));
        }
        self.check_spare(read, one[1], count).map(|()| Pair { count, note })
    }

    /// Whether the check word is that of the count.
    fn marks(&self, words: &Words, which: Which) -> bool {
        words[CHECK as usize] == check_word(self.client, words[COUNT as usize], which)
    }

    /// The spare record is of some count up to the pair's, and whole.
    fn check_spare(&self, read: Reading, spare: u32, count: u32) -> Result<(), String> {
        if spare == 0 {
            return Ok(());
        }
        let words = read(spare)?;
        let right = page_of(spare) == self.yard.pair_pages(self.client)[0]
            && words[COUNT as usize] <= count
            && self.marks(&words, Which::Spare);
        right.then_some(()).ok_or_else(|| format!("beside the pair is {words:?}"))
    }
}
