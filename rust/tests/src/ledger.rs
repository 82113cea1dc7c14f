//! As whom each transaction runs, which rights were given and which locks were granted (document 02, L9 and L2), kept
//! from calls, their answers and cuts alone; and what holds by it of the side that took the calls (DECISIONS 70, 94).

use std::collections::BTreeMap;

use calls::{Call, Side};
use model::layout::*;

use crate::actions::Action;

/// The areas that a client may not change without the right.
const PAGES: [Area; 3] = [Area::Received, Area::Copies, Area::Stored];

/// What was given and not yet taken back.
#[derive(Default)]
struct Given {
    /// By transaction, while it runs.
    clients: BTreeMap<u32, u32>,
    /// By client and page; 0 where there is none.
    rights: BTreeMap<(u32, u32), u32>,
    /// By page, masks of transactions.
    readers: BTreeMap<u32, u32>,
    writers: BTreeMap<u32, u32>,
}

#[derive(Default)]
pub struct Ledger {
    /// None where a word was written by hand since the store was formatted, cut or reopened: of such states nothing
    /// is claimed.
    given: Option<Given>,
    /// The pages before the next action.
    before: [Vec<u32>; 3],
    /// Locks refused for want of a right, reads, and calls of transactions of which a page was not to be changed.
    pub refused: u64,
    pub reads: u64,
    pub spared: u64,
}

impl Ledger {
    /// Nothing is claimed any more; what was counted stays.
    pub fn forget(&mut self) {
        self.given = None;
    }

    /// From a store on that was reopened just now: nobody has a right.
    pub fn reopened(&mut self, side: &dyn Side) {
        self.given = Some(Given::default());
        self.before = PAGES.map(|area| side.area(area).to_vec());
    }

    /// Follows an action, its answer and its buffer: what does not hold then.
    pub fn after(&mut self, action: &Action, answer: u64, buffer: &[u32], side: &dyn Side) -> Result<(), String> {
        if let (Some(given), Some(call)) = (&self.given, action.call()) {
            given.answers(call, answer)?;
            given.shows(call, answer, buffer, side)?;
            self.spared += u64::from(given.spares(call, &self.before, side)?);
            self.refused += u64::from(answer >> 32 == 19);
            self.reads += u64::from(matches!(call, Call::Read(..)) && answer >> 32 == 0);
        }
        self.follow(action, answer);
        for (before, area) in self.before.iter_mut().zip(PAGES) {
            side.area(area).clone_into(before);
        }
        Ok(())
    }

    fn follow(&mut self, action: &Action, answer: u64) {
        let accepted = action.call().filter(|_| answer >> 32 == 0);
        match (action, accepted) {
            (Action::Poke(..) | Action::Fill(..), _) => self.given = None,
            // "Reopening gives all clients nothing."
            (Action::Cut, _) | (_, Some(Call::Format | Call::Reopen)) => self.given = Some(Given::default()),
            (_, Some(call)) => self.given.iter_mut().for_each(|given| given.note(call)),
            _ => {}
        }
    }
}

/// Whose call it is.
fn transaction(call: Call) -> Option<u32> {
    match call {
        Call::Begin(t, _) | Call::Commit(t) | Call::Abort(t) | Call::Mark(t, _) | Call::Back(t, _) => Some(t),
        Call::LockRead(t, _) | Call::LockWrite(t, _) | Call::Flush(t, _) => Some(t),
        Call::Read(t, _) | Call::Create(t, _) | Call::SetWord(t, ..) => Some(t),
        _ => None,
    }
}

fn mask_of(masks: &BTreeMap<u32, u32>, page: u32) -> u32 {
    masks.get(&page).copied().unwrap_or(0)
}

impl Given {
    /// An accepted call.
    fn note(&mut self, call: Call) {
        match call {
            Call::Begin(t, client) => _ = self.clients.insert(t, client),
            Call::Grant(client, page, right) => _ = self.rights.insert((client, page), right),
            Call::LockRead(t, page) if mask_of(&self.writers, page) & bit(t) == 0 => {
                *self.readers.entry(page).or_default() |= bit(t);
            }
            Call::LockWrite(t, page) => {
                *self.readers.entry(page).or_default() &= !bit(t);
                *self.writers.entry(page).or_default() |= bit(t);
            }
            Call::Commit(t) | Call::Abort(t) => {
                self.clients.remove(&t);
                self.readers.values_mut().chain(self.writers.values_mut()).for_each(|mask| *mask &= !bit(t));
            }
            _ => {}
        }
    }

    /// The right of t's client on a page; none where t does not run.
    fn right(&self, t: u32, page: u32) -> u32 {
        let right = |client: &u32| self.rights.get(&(*client, page)).copied();
        self.clients.get(&t).and_then(right).unwrap_or(NOTHING)
    }

    /// What t is answered, which runs: 19 exactly where the right is missing, else 6 where another's lock is in the
    /// way, with the lowest other that has the page.
    fn of_lock(&self, t: u32, page: u32, need: u32) -> u64 {
        let [readers, writers] = [&self.readers, &self.writers].map(|masks| mask_of(masks, page) & !bit(t));
        let in_the_way = if need == WRITING { readers | writers } else { writers };
        match in_the_way {
            _ if self.right(t, page) < need => 19 << 32,
            0 => 0,
            _ => 6 << 32 | u64::from((readers | writers).trailing_zeros()),
        }
    }

    /// Locks of a running transaction, and grants: "no grant is accepted for the client of a running transaction".
    fn answers(&self, call: Call, answer: u64) -> Result<(), String> {
        let (t, page, need) = match call {
            Call::LockRead(t, page) => (t, page, READING),
            Call::LockWrite(t, page) => (t, page, WRITING),
            Call::Grant(client, ..) if answer >> 32 == 0 && self.clients.values().any(|&c| c == client) => {
                return Err(format!("a right given to client {client}, of whom a transaction runs"));
            }
            _ => return Ok(()),
        };
        // lengths and pages out of range are not the ledger's
        let out_of_range = [1, 3].contains(&(answer >> 32));
        if self.clients.contains_key(&t) && !out_of_range && answer != self.of_lock(t, page, need) {
            return Err(format!("by the rights and locks given the answer is {:#x}", self.of_lock(t, page, need)));
        }
        Ok(())
    }

    /// "An accepted read of t is of an object on a page that t's client may read, and its buffer has the eight
    /// received words of that object and no other".
    fn shows(&self, call: Call, answer: u64, buffer: &[u32], side: &dyn Side) -> Result<(), String> {
        let Call::Read(t, object) = call else { return Ok(()) };
        if answer >> 32 != 0 {
            return Ok(());
        }
        if self.right(t, page_of(object) as u32) < READING {
            return Err(format!("object {object} shown to a client that may not read it"));
        }
        match &side.area(Area::Received)[word_at(object, 0)..][..8] {
            words if words == buffer => Ok(()),
            words => Err(format!("object {object} shown as {buffer:?}, and it is {words:?}")),
        }
    }

    /// "No call of t's own, whichever it is, changes a word of a page that t's client may not write": whether there
    /// are such pages.
    fn spares(&self, call: Call, before: &[Vec<u32>; 3], side: &dyn Side) -> Result<bool, String> {
        let Some(t) = transaction(call) else { return Ok(false) };
        let pages = side.area(Area::Stored).len() / PAGE_WORDS;
        let closed: Vec<usize> = (0..pages).filter(|&page| self.right(t, page as u32) < WRITING).collect();
        for (area, before) in PAGES.into_iter().zip(before) {
            let now = side.area(area);
            let changed = |page: &&usize| before.get(page_range(**page)) != now.get(page_range(**page));
            if let Some(page) = closed.iter().find(changed) {
                return Err(format!("{area:?}: page {page} changed by a client that may not write it"));
            }
        }
        Ok(!closed.is_empty())
    }
}
