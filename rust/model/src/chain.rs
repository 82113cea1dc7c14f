//! Document 02, L1: "Why is this record still here?"

use std::collections::VecDeque;

use crate::faults::Fault;
use crate::layout::*;
use crate::old::names_itself;
use crate::{refuse, Answer, Model};

/// "its length must be 4096 words", at every P.
const CHAIN_WORDS: usize = 4096;

/// By object (0 is none): the objects at the other end of its links.
type Links = Vec<Vec<u32>>;

impl Model {
    /// "Given an object, show a chain of references in the page copies from the root to it, .. or
    /// none. .. The value is the chain's number of objects, or 0. Only the chain's buffer changes;
    /// .. words after the chain become 0. Errors: 15, the slot is free in the copies".
    pub fn chain(&mut self, buffer: &mut [u32], object: u32) -> Answer {
        if self.has(Fault::ChainLengthAfterTwo) {
            self.ready()?;
        }
        self.chain_buffer(buffer.len())?;
        if self.has(Fault::ChainRefusedClearsBuffer) {
            buffer.fill(0);
        }
        self.ready()?;
        self.object(object)?;
        self.in_copies(object)?;
        refuse(19, !self.somebody_may(Fault::ChainNeedsRight, page_of(object), READING))?;
        let chain = self.chain_to(object);
        refuse(15, chain.is_empty() && self.has(Fault::ChainUnreachedIsFifteen))?;

        if self.has(Fault::ChainLeavesMarks) {
            chain.iter().for_each(|&o| *self.areas.object_table(Table::Colours, o) = BLACK);
        }
        let (shown, rest) = buffer.split_at_mut(chain.len());
        shown.copy_from_slice(&chain);
        if self.has(Fault::ChainFromObject) {
            shown.reverse();
        }
        if !self.has(Fault::ChainKeepsRest) {
            rest.fill(0);
        }
        let value = chain.len() as u32;
        Ok(if self.has(Fault::ChainCountsLinks) { value.saturating_sub(1) } else { value })
    }

    /// Refusal 1, the buffer's part of it.
    fn chain_buffer(&self, words: usize) -> Result<(), u32> {
        let taken = match self.fault {
            Fault::ChainLongBufferTaken => words >= CHAIN_WORDS,
            Fault::ChainShortBufferTaken => (self.areas.objects() as usize..=CHAIN_WORDS).contains(&words),
            _ => words == CHAIN_WORDS,
        };
        refuse(1, !taken)
    }

    /// Refusal 15: "the slot is free in the copies".
    fn in_copies(&self, object: u32) -> Result<(), u32> {
        let shown = match self.fault {
            Fault::ChainFreeByReceived => &self.areas.received,
            _ => &self.areas.copies,
        };
        refuse(15, !occupied(shown, object) && !self.has(Fault::ChainOfFreeSlot))
    }

    /// The object's chain, root first; empty where there is none. Nobody on the way is asked
    /// whether its slot is free (DECISIONS 65).
    fn chain_to(&self, object: u32) -> Vec<u32> {
        let names = self.links();
        let named_by = turned(&names);
        match self.fault {
            Fault::ChainOfRootIsNone if object == ROOT => Vec::new(),
            Fault::ChainOfOwnIsNone if names_itself(&self.areas.copies, object) => Vec::new(),
            Fault::ChainRepeatsOwn => {
                let times = |o: u32| 1 + usize::from(o != ROOT && names_itself(&self.areas.copies, o));
                let chain = fewest_links(&names, &named_by, [ROOT, object], self.fault);
                chain.into_iter().flat_map(|o| vec![o; times(o)]).collect()
            }
            Fault::ChainOfRootGoesRound if object == ROOT && names[1].contains(&ROOT) => vec![ROOT, ROOT],
            Fault::ChainInWordOrder | Fault::ChainDepthFirst => first_found(&names, object, self.fault),
            Fault::ChainLevelsByNumber => {
                // the lowest finder on each level: what decides is the first difference from the object
                let mut chain = fewest_links(&named_by, &names, [object, ROOT], self.fault);
                chain.reverse();
                chain
            }
            _ => fewest_links(&names, &named_by, [ROOT, object], self.fault),
        }
    }

    /// "references in the page copies": words 0 to 3 other than 0. Past refusal 1 none is above
    /// 16 x P; what the faults read instead may be.
    fn links(&self) -> Links {
        let shown = match self.fault {
            Fault::ChainByReceived => &self.areas.received,
            Fault::ChainByStored => &self.areas.stored,
            _ => &self.areas.copies,
        };
        let fields = match self.fault {
            Fault::ChainOverlooksWordThree => 3,
            Fault::ChainFollowsData => 8,
            _ => 4,
        };
        let objects = 1..=self.areas.objects();
        let named = |object: u32| {
            let hidden = self.has(Fault::ChainHidesOwn) && names_itself(shown, object);
            let words = &shown[word_at(object, 0)..][..if hidden { 0 } else { fields }];
            words.iter().copied().filter(|word| objects.contains(word)).collect()
        };
        std::iter::once(Vec::new()).chain(objects.clone().map(named)).collect()
    }
}

/// The same links, read from their other ends.
fn turned(links: &Links) -> Links {
    let mut turned = vec![Vec::new(); links.len()];
    for (from, tos) in links.iter().enumerate() {
        tos.iter().for_each(|&to| turned[to as usize].push(from as u32));
    }
    turned
}

/// "with the fewest links, or none. Of equally short chains .. the one with the lower object at the
/// first difference". Each link of a shortest chain leads to an object with one link fewer to go;
/// the lowest such object is taken every time.
fn fewest_links(names: &Links, named_by: &Links, [from, to]: [u32; 2], fault: Fault) -> Vec<u32> {
    let to_go = links_to_go(named_by, to);
    let Some(links) = to_go[from as usize] else { return Vec::new() };
    let mut chain = vec![from];
    let mut at = from;
    for left in (0..links).rev() {
        let nearer = names[at as usize].iter().copied().filter(|&o| to_go[o as usize] == Some(left));
        let next = if fault == Fault::ChainHigherWins { nearer.max() } else { nearer.min() };
        at = next.unwrap();
        chain.push(at);
    }
    chain
}

/// How many links each object is away from `to`, at the fewest: level by level, those that name
/// an object of the level before and were on none.
fn links_to_go(named_by: &Links, to: u32) -> Vec<Option<u32>> {
    let mut to_go = vec![None; named_by.len()];
    let mut level = vec![to];
    let mut links = 0;
    while !level.is_empty() {
        let mut before = Vec::new();
        for object in level {
            if to_go[object as usize].is_none() {
                to_go[object as usize] = Some(links);
                before.extend(&named_by[object as usize]);
            }
        }
        level = before;
        links += 1;
    }
    to_go
}

/// The faults that know of each object only who found it first.
fn first_found(names: &Links, to: u32, fault: Fault) -> Vec<u32> {
    let mut finder = vec![None; names.len()];
    let mut waiting = VecDeque::from([ROOT]);
    let take = if fault == Fault::ChainDepthFirst { VecDeque::pop_back } else { VecDeque::pop_front };
    while let Some(object) = take(&mut waiting) {
        for &named in &names[object as usize] {
            if named != ROOT && finder[named as usize].is_none() {
                finder[named as usize] = Some(object);
                waiting.push_back(named);
            }
        }
    }
    let mut chain: Vec<u32> = std::iter::successors(Some(to), |&object| finder[object as usize]).collect();
    chain.reverse();
    if chain[0] == ROOT {
        chain
    } else {
        Vec::new()
    }
}
