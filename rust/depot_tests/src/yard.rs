//! Where the records of the load lie: a tree of references from the root, four at each node, and for each client a
//! pair of records on two pages of its own.

use std::fmt::Write;

use kophdaen::layout::{page_of, REFERENCES, ROOT, SLOTS};

use crate::channel::Channel;
use crate::committed::object_in;

/// The words of a record of the load that count.
pub const COUNT: u32 = 4;
pub const CHECK: u32 = 5;
/// A word that is set and taken back by going back to a mark: it stays 0.
pub const TRIED: u32 = 6;
/// A word of the second record that another transaction sets, right behind one that changes both.
pub const NOTE: u32 = 7;

#[derive(Clone)]
pub struct Yard {
    pub clients: usize,
    /// References from the root to a client's first record.
    levels: u32,
}

/// Which record of a client's a check word is of.
#[derive(Clone, Copy)]
pub enum Which {
    First,
    Second,
    Spare,
}

/// A word that no other client, count or record has, most likely.
pub fn check_word(client: usize, count: u32, which: Which) -> u32 {
    let mixed = (u64::from(count) << 16 | (client as u64) << 4 | which as u64).wrapping_mul(0x9e37_79b9_7f4a_7c15);
    (mixed ^ mixed >> 29).wrapping_mul(0xbf58_476d_1ce4_e5b9).rotate_left(17) as u32
}

impl Yard {
    pub fn new(clients: usize) -> Yard {
        let levels = (1..).find(|&levels| REFERENCES.pow(levels) >= clients).expect("few clients");
        Yard { clients, levels }
    }

    /// Clients below a node of this level.
    fn below(&self, level: u32) -> usize {
        REFERENCES.pow(self.levels - level)
    }

    fn nodes(&self, level: u32) -> usize {
        self.clients.div_ceil(self.below(level))
    }

    /// The object that is node `index` of a level; level 0 is the root.
    fn node(&self, level: u32, index: usize) -> u32 {
        let before: usize = (0..level).map(|level| self.nodes(level)).sum();
        ROOT + (before + index) as u32
    }

    fn last_node(&self) -> u32 {
        self.node(self.levels, 0) - 1
    }

    /// The pages of the tree's nodes.
    pub fn tree_pages(&self) -> usize {
        (self.last_node() as usize).div_ceil(SLOTS)
    }

    pub fn pages(&self) -> usize {
        self.tree_pages() + 2 * self.clients
    }

    /// The client's two records, each the first slot of its page.
    pub fn pair(&self, client: usize) -> [u32; 2] {
        let page = self.tree_pages() + 2 * client;
        [object_in(page, 0), object_in(page + 1, 0)]
    }

    /// A record beside the first one, by turns.
    pub fn spare(&self, client: usize, count: u32) -> u32 {
        self.pair(client)[0] + 1 + count % (SLOTS as u32 - 1)
    }

    pub fn pair_pages(&self, client: usize) -> [usize; 2] {
        self.pair(client).map(page_of)
    }

    /// The nodes on the way to the client's first record, each with the word that leads on.
    pub fn way(&self, client: usize) -> Vec<(u32, usize)> {
        let step = |level: u32| {
            let index = client / self.below(level);
            (self.node(level, index), client / self.below(level + 1) % REFERENCES)
        };
        (0..self.levels).map(step).collect()
    }

    /// The nodes below the root, each with its parent and the parent's word.
    fn links(&self) -> Vec<(u32, u32, usize)> {
        let of_level = |level: u32| {
            (0..self.nodes(level)).map(move |index| {
                (self.node(level, index), self.node(level - 1, index / REFERENCES), index % REFERENCES)
            })
        };
        (1..self.levels).flat_map(of_level).collect()
    }

    /// Makes the tree.
    pub fn plant(&self, channel: &mut dyn Channel) -> Result<(), String> {
        let mut text = "begin,0\n".to_string();
        let pages = 0..self.tree_pages();
        pages.clone().for_each(|page| writeln!(text, "lockw,0,{page}").unwrap());
        for (node, parent, word) in self.links() {
            write!(text, "create,0,{node}\nset,0,{parent},{word},{node}\n").unwrap();
        }
        pages.for_each(|page| writeln!(text, "flush,0,{page}").unwrap());
        text.push_str("commit,0\n");
        accepted(channel, &text)?;
        (0..self.clients).try_for_each(|client| self.settle(client, channel))
    }

    /// Makes the client's pair, with the count 0.
    fn settle(&self, client: usize, channel: &mut dyn Channel) -> Result<(), String> {
        let mut text = "begin,0\n".to_string();
        let ([first, second], pages) = (self.pair(client), self.pair_pages(client));
        let pages: Vec<usize> = (0..self.tree_pages()).chain(pages).collect();
        let way = self.way(client);
        pages.iter().for_each(|page| writeln!(text, "lockw,0,{page}").unwrap());
        way.iter().for_each(|(node, _)| writeln!(text, "read,0,{node}").unwrap());
        let &(parent, word) = way.last().expect("a way has a node");
        write!(text, "create,0,{first}\ncreate,0,{second}\nset,0,{first},0,{second}\n").unwrap();
        writeln!(text, "set,0,{parent},{word},{first}").unwrap();
        for (object, which) in [(first, Which::First), (second, Which::Second)] {
            writeln!(text, "set,0,{object},{CHECK},{}", check_word(client, 0, which)).unwrap();
        }
        pages.iter().for_each(|page| writeln!(text, "flush,0,{page}").unwrap());
        text.push_str("commit,0\n");
        accepted(channel, &text)
    }
}

/// Sends lines that must all be accepted.
pub fn accepted(channel: &mut dyn Channel, lines: &str) -> Result<(), String> {
    let mut replies = Vec::new();
    channel.exchange(lines, &mut replies)?;
    match lines.lines().zip(&replies).find(|(_, reply)| reply.answer != 0) {
        None => Ok(()),
        Some((line, reply)) => Err(format!("{line}: {}", reply.text())),
    }
}
