use crate::lend::*;
use crate::{work_words, Answer, COUNTS_WORDS, PAGE_WORDS, RECORD_WORDS};

/// A page server's lent areas, and its calls on them.
#[derive(Clone)]
pub struct Store {
    pub stored: Vec<u32>,
    pub copies: Vec<u32>,
    pub received: Vec<u32>,
    pub log: Vec<u32>,
    pub counts: Vec<u32>,
    pub work: Vec<u32>,
}

impl Store {
    /// Areas for `pages` pages (1 to 256) and `records` log records (1 to 4096), all words 0. The
    /// store takes calls once formatted; other sizes are refused with 1.
    pub fn new(pages: usize, records: usize) -> Store {
        Store {
            stored: vec![0; PAGE_WORDS * pages],
            copies: vec![0; PAGE_WORDS * pages],
            received: vec![0; PAGE_WORDS * pages],
            log: vec![0; RECORD_WORDS * records],
            counts: vec![0; COUNTS_WORDS],
            work: vec![0; work_words(pages, records)],
        }
    }

    pub fn format(&mut self) -> Answer {
        lend!(self, kophdaen_format)
    }

    /// Transaction `t` begins as the tablet `client`, 0 to 7.
    pub fn begin(&mut self, t: u32, client: u32) -> Answer {
        lend!(self, kophdaen_begin, t, client)
    }

    /// Gives `client` the right on the page: 0 nothing, 1 reading, 2 reading and writing. Refused with 4
    /// while a transaction of that client is active. A formatted or reopened store gives nobody a right.
    pub fn grant(&mut self, client: u32, page: u32, right: u32) -> Answer {
        lend!(self, kophdaen_grant, client, page, right)
    }

    pub fn commit(&mut self, t: u32) -> Answer {
        lend!(self, kophdaen_commit, t)
    }

    pub fn abort(&mut self, t: u32) -> Answer {
        lend!(self, kophdaen_abort, t)
    }

    /// Sets one of t's marks, 0 to 3, or sets it again. Marks end with t.
    pub fn mark(&mut self, t: u32, mark: u32) -> Answer {
        lend!(self, kophdaen_mark, t, mark)
    }

    /// Goes back to a mark of t: its creates and sets since then are undone, newest first. The pages
    /// touched need flushing again, and marks set after this one are dropped. Refused with 16 where the
    /// mark is not set.
    pub fn back(&mut self, t: u32, mark: u32) -> Answer {
        lend!(self, kophdaen_back, t, mark)
    }

    /// A lock for reading, for which `t`'s client needs the right 1, else 19. Where it is refused with 6,
    /// [`Answer::holder`] tells whom to call.
    pub fn lock_read(&mut self, t: u32, page: u32) -> Answer {
        lend!(self, kophdaen_lock_read, t, page)
    }

    /// A lock for writing, for which `t`'s client needs the right 2, else 19. Where it is refused with 6,
    /// [`Answer::holder`] tells whom to call.
    pub fn lock_write(&mut self, t: u32, page: u32) -> Answer {
        lend!(self, kophdaen_lock_write, t, page)
    }

    /// Puts the object's eight words into `buffer`; a buffer of another length is refused with 1.
    pub fn read(&mut self, buffer: &mut [u32], t: u32, object: u32) -> Answer {
        lend!(self, kophdaen_read, buffer.as_mut_ptr(), buffer.len(), t, object)
    }

    pub fn create(&mut self, t: u32, object: u32) -> Answer {
        lend!(self, kophdaen_create, t, object)
    }

    /// Sets a word of an object. A reference word (`field` 0 to 3) takes 0 and objects that `t` knows, but
    /// for the object itself, which is refused with 18.
    pub fn set_word(&mut self, t: u32, object: u32, field: u32, word: u32) -> Answer {
        lend!(self, kophdaen_set_word, t, object, field, word)
    }

    /// Flushes a page's image, of 129 words, which must have the received words of each slot that is
    /// occupied in the received page; its map and its other slots may be anything.
    pub fn flush(&mut self, image: &[u32], t: u32, page: u32) -> Answer {
        lend!(self, kophdaen_flush, image.as_ptr(), image.len(), t, page)
    }

    pub fn force(&mut self) -> Answer {
        lend!(self, kophdaen_force)
    }

    pub fn store_page(&mut self, page: u32) -> Answer {
        lend!(self, kophdaen_store_page, page)
    }

    pub fn empty_log(&mut self) -> Answer {
        lend!(self, kophdaen_empty_log)
    }

    pub fn start_pass(&mut self) -> Answer {
        lend!(self, kophdaen_start_pass)
    }

    pub fn pass_step(&mut self) -> Answer {
        lend!(self, kophdaen_pass_step)
    }

    pub fn reopen(&mut self) -> Answer {
        lend!(self, kophdaen_reopen)
    }

    pub fn reopen_step(&mut self) -> Answer {
        lend!(self, kophdaen_reopen_step)
    }

    /// Puts the shortest chain of references in the page copies, from the root to the object, into
    /// `chain`: root first, then zeros. A buffer that has not 4096 words is refused with 1.
    pub fn chain(&mut self, chain: &mut [u32], object: u32) -> Answer {
        lend!(self, kophdaen_chain, chain.as_mut_ptr(), chain.len(), object)
    }

    /// Puts what each of so many commits owes of the steps of a pass into `share`: the whole share,
    /// (17 x P + 1) / `commits`, then the remainder; the first so many commits owe one step more. So the
    /// pass is over after the last. Refused with 17 where `commits` is not 1 to 4096; a buffer that has
    /// not two words is refused with 1.
    pub fn pass_share(&mut self, share: &mut [u32], commits: u32) -> Answer {
        lend!(self, kophdaen_pass_share, share.as_mut_ptr(), share.len(), commits)
    }

    /// A power cut: "keeps the stored pages, the stable count and that many records; all else
    /// comes back as zeros". Where the stable count is above L the whole log is kept.
    pub fn cut(&mut self) {
        let stable = self.counts.get(1).copied().unwrap_or(0);
        let kept = self.log.len().min(RECORD_WORDS * stable as usize);
        self.copies.fill(0);
        self.received.fill(0);
        self.log[kept..].fill(0);
        self.work.fill(0);
        for (i, count) in self.counts.iter_mut().enumerate() {
            *count = if i == 1 { stable } else { 0 };
        }
    }

    /// The areas in the order of the library's parameters.
    pub fn areas(&self) -> [&[u32]; 6] {
        [&self.stored, &self.copies, &self.received, &self.log, &self.counts, &self.work]
    }
}
