use std::fmt;

use crate::lend::*;
use crate::{whole, Answer, Store, CHAIN_WORDS, OBJECT_WORDS, PAGE_WORDS, RECORD_WORDS, SHARE_WORDS};

/// Why a store is not held.
#[derive(Clone, Copy, PartialEq, Eq, Debug)]
pub enum NotHeld {
    /// Refusal 1: not 1 to 256 whole pages, not 1 to 4096 records, or stable records that are not
    /// whole or more than those.
    Lengths,
    /// Refusal 14: a stored page or a stable record is unsound.
    Unsound,
    /// The root reaches an object that is not there.
    NotWhole,
}

impl fmt::Display for NotHeld {
    fn fmt(&self, out: &mut fmt::Formatter) -> fmt::Result {
        out.write_str(match self {
            NotHeld::Lengths => "the lengths are not those of a store",
            NotHeld::Unsound => "a stored page or a stable record is unsound",
            NotHeld::NotWhole => "the root reaches an object that is not there",
        })
    }
}

impl std::error::Error for NotHeld {}

/// A page server that owns its areas, and its calls on them by the library's held functions: the
/// answers and the words of [`Store`]'s calls, without its look at every word for refusal 1.
///
/// A held function requires a well-formed store. Calls and cuts keep a store well formed from a
/// formatted one on, and from one that was reopened and found whole; and nothing else changes a
/// `Held`, since its areas are shown as `&[u32]` alone. So no safe code breaks the requirement.
#[derive(Clone)]
pub struct Held {
    store: Store,
}

macro_rules! views {
    ($( $area:ident )*) => {
        $( pub fn $area(&self) -> &[u32] {
            &self.store.$area
        } )*
    };
}

/// How a store comes to be held, and what is no held call.
impl Held {
    /// A new store of so many pages and log records. Safe: format makes all words.
    pub fn format(pages: usize, records: usize) -> Result<Held, NotHeld> {
        let mut store = Store::new(pages, records);
        match store.format().number {
            0 => Ok(Held { store }),
            _ => Err(NotHeld::Lengths),
        }
    }

    /// The store of a disk: its stored pages and its stable records, with room for `records`. The
    /// reopening is begun and no page stored yet; `reopen_step` is called until it answers P, and
    /// what each step stored is written to the disk. Other calls answer 2 until then.
    ///
    /// Safe for any words: reopen looks at all that the disk holds, [`whole`] at what it made.
    pub fn open(stored: &[u32], stable: &[u32], records: usize) -> Result<Held, NotHeld> {
        let pages = stored.len() / PAGE_WORDS;
        let mut store = Store::new(pages, records);
        if stored.len() != store.stored.len()
            || stable.len() > store.log.len()
            || !stable.len().is_multiple_of(RECORD_WORDS)
        {
            return Err(NotHeld::Lengths);
        }
        store.stored.copy_from_slice(stored);
        store.log[..stable.len()].copy_from_slice(stable);
        store.counts[1] = (stable.len() / RECORD_WORDS) as u32;
        match store.reopen().number {
            0 if whole(&store.received).value == 1 => Ok(Held { store }),
            0 => Err(NotHeld::NotWhole),
            1 => Err(NotHeld::Lengths),
            _ => Err(NotHeld::Unsound),
        }
    }

    /// A store that is taken as it is.
    ///
    /// # Safety
    ///
    /// Each held call must find a well-formed store: one of which [`Held::audit`] is true. Where
    /// calls and cuts alone have led to the store, as from `format` or `open`, each does; in any
    /// other a call may lead to one that is not.
    pub unsafe fn assume(store: Store) -> Held {
        Held { store }
    }

    /// The areas back, to be written and lent at will. Safe: nothing is held any more.
    pub fn into_store(self) -> Store {
        self.store
    }

    views! { stored copies received log counts work }

    /// The areas in the order of the library's parameters.
    pub fn areas(&self) -> [&[u32]; 6] {
        self.store.areas()
    }

    /// Whether the store is well formed, found by a lent call that changes nothing. It always is, if
    /// nothing but the program writes to its memory: false tells of a flipped bit.
    pub fn audit(&mut self) -> bool {
        const NO_TRANSACTION: u32 = 16;
        self.store.lock_read(NO_TRANSACTION, 0).number != 1
    }

    /// A power cut, as [`Store::cut`]; for tests. Safe: of a store whose reopening is not begun, held
    /// calls require no more than its lengths, and answer 2.
    pub fn cut(&mut self) {
        self.store.cut();
    }

    /// Reopens after a cut; accepted at any time. Safe: it is the lent call.
    pub fn reopen(&mut self) -> Answer {
        self.store.reopen()
    }
}

/// The held calls. Safe: a `Held` is well formed between calls.
impl Held {
    /// Transaction `t` begins as the tablet `client`, 0 to 7.
    pub fn begin(&mut self, t: u32, client: u32) -> Answer {
        lend!(self.store, kophdaen_held_begin, t, client)
    }

    /// Gives `client` the right on the page: 0 nothing, 1 reading, 2 reading and writing. Refused with 4
    /// while a transaction of that client is active. A formatted or reopened store gives nobody a right.
    pub fn grant(&mut self, client: u32, page: u32, right: u32) -> Answer {
        lend!(self.store, kophdaen_held_grant, client, page, right)
    }

    pub fn commit(&mut self, t: u32) -> Answer {
        lend!(self.store, kophdaen_held_commit, t)
    }

    pub fn abort(&mut self, t: u32) -> Answer {
        lend!(self.store, kophdaen_held_abort, t)
    }

    /// Sets one of t's marks, 0 to 3, or sets it again. Marks end with t.
    pub fn mark(&mut self, t: u32, mark: u32) -> Answer {
        lend!(self.store, kophdaen_held_mark, t, mark)
    }

    /// Goes back to a mark of t: its creates and sets since then are undone, newest first. The pages
    /// touched need flushing again, and marks set after this one are dropped. Refused with 16 where the
    /// mark is not set.
    pub fn back(&mut self, t: u32, mark: u32) -> Answer {
        lend!(self.store, kophdaen_held_back, t, mark)
    }

    /// A lock for reading, for which `t`'s client needs the right 1, else 19. Where it is refused with 6,
    /// [`Answer::holder`] tells whom to call.
    pub fn lock_read(&mut self, t: u32, page: u32) -> Answer {
        lend!(self.store, kophdaen_held_lock_read, t, page)
    }

    /// A lock for writing, for which `t`'s client needs the right 2, else 19. Where it is refused with 6,
    /// [`Answer::holder`] tells whom to call.
    pub fn lock_write(&mut self, t: u32, page: u32) -> Answer {
        lend!(self.store, kophdaen_held_lock_write, t, page)
    }

    /// Puts the object's eight words into `buffer`. One of another length goes to the lent call,
    /// which refuses it with 1.
    pub fn read(&mut self, buffer: &mut [u32], t: u32, object: u32) -> Answer {
        if buffer.len() != OBJECT_WORDS {
            return self.store.read(buffer, t, object);
        }
        lend!(self.store, kophdaen_held_read, buffer.as_mut_ptr(), buffer.len(), t, object)
    }

    pub fn create(&mut self, t: u32, object: u32) -> Answer {
        lend!(self.store, kophdaen_held_create, t, object)
    }

    /// Sets a word of an object. A reference word (`field` 0 to 3) takes 0 and objects that `t` knows, but
    /// for the object itself, which is refused with 18.
    pub fn set_word(&mut self, t: u32, object: u32, field: u32, word: u32) -> Answer {
        lend!(self.store, kophdaen_held_set_word, t, object, field, word)
    }

    /// Flushes a page's image, of 129 words, as the lent call does. One of another length goes to the
    /// lent call, which refuses it with 1.
    pub fn flush(&mut self, image: &[u32], t: u32, page: u32) -> Answer {
        if image.len() != PAGE_WORDS {
            return self.store.flush(image, t, page);
        }
        lend!(self.store, kophdaen_held_flush, image.as_ptr(), image.len(), t, page)
    }

    pub fn force(&mut self) -> Answer {
        lend!(self.store, kophdaen_held_force)
    }

    pub fn store_page(&mut self, page: u32) -> Answer {
        lend!(self.store, kophdaen_held_store_page, page)
    }

    pub fn empty_log(&mut self) -> Answer {
        lend!(self.store, kophdaen_held_empty_log)
    }

    pub fn start_pass(&mut self) -> Answer {
        lend!(self.store, kophdaen_held_start_pass)
    }

    pub fn pass_step(&mut self) -> Answer {
        lend!(self.store, kophdaen_held_pass_step)
    }

    pub fn reopen_step(&mut self) -> Answer {
        lend!(self.store, kophdaen_held_reopen_step)
    }

    /// Puts the shortest chain of references to the object into `chain`, of 4096 words. One of
    /// another length goes to the lent call, which refuses it with 1.
    pub fn chain(&mut self, chain: &mut [u32], object: u32) -> Answer {
        if chain.len() != CHAIN_WORDS {
            return self.store.chain(chain, object);
        }
        lend!(self.store, kophdaen_held_chain, chain.as_mut_ptr(), chain.len(), object)
    }

    /// Puts what each of so many commits owes of the steps of a pass into `share`, of two words: the
    /// whole share, then the remainder. Refused with 17 where `commits` is not 1 to 4096. A buffer of
    /// another length goes to the lent call, which refuses it with 1.
    pub fn pass_share(&mut self, share: &mut [u32], commits: u32) -> Answer {
        if share.len() != SHARE_WORDS {
            return self.store.pass_share(share, commits);
        }
        lend!(self.store, kophdaen_held_pass_share, share.as_mut_ptr(), share.len(), commits)
    }
}
