//! Records made stable, and the log emptied.

use kophdaen::layout::*;
use kophdaen::RECORD_WORDS;

use crate::engine::Engine;

impl Engine {
    /// Makes every record stable. They go to the journal as one work; its number is what a commit waits for.
    pub(crate) fn force_all(&mut self) {
        let first = self.held.counts()[STABLE_COUNT] as usize;
        while (self.held.counts()[STABLE_COUNT] as usize) < self.received() && self.broken.is_none() {
            let answer = self.held.force();
            self.must("force", &[], answer);
        }
        let last = self.held.counts()[STABLE_COUNT] as usize;
        if first < last {
            let words = self.held.log()[RECORD_WORDS * first..RECORD_WORDS * last].to_vec();
            self.handed = self.journal.records(first, words);
        }
    }

    /// Empties the log at the first moment without transactions once half of it is used, or where a begin waits for
    /// it. One snapshot at a time is on its way to the disk.
    pub(crate) fn checkpoint_if_due(&mut self) {
        let due = self.draining() || 2 * self.received() > self.room();
        if due && !self.active() && !self.journal.in_checkpoint() {
            self.checkpoint();
        }
    }

    /// No transaction is active.
    pub(crate) fn checkpoint(&mut self) {
        let started = std::time::Instant::now();
        self.force_all();
        for page in 0..self.pages() {
            let words = page_range(page);
            if self.held.copies()[words.clone()] != self.held.stored()[words] {
                let answer = self.held.store_page(page as u32);
                self.must("store", &[page as u32], answer);
            }
        }
        let answer = self.held.empty_log();
        self.must("empty", &[], answer);
        if self.broken.is_none() {
            self.handed = self.journal.snapshot(self.held.stored().to_vec());
            self.drained();
            self.counters.checkpoints += 1;
        }
        let micros = started.elapsed().as_micros() as u64;
        self.counters.checkpoint_longest_us = self.counters.checkpoint_longest_us.max(micros);
    }
}
