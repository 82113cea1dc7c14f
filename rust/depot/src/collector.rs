//! When the pass goes on: by L4's share behind each commit, when its locks have just fallen, and in idle moments.

use kophdaen::layout::*;
use kophdaen::SHARE_WORDS;

use crate::engine::{Engine, NO_ROOM};

/// How the steps of the pass that runs are spread over commits.
pub struct Share {
    /// Over so many commits; 0: the pass goes on in idle moments alone.
    over: u32,
    whole: u32,
    more: u32,
    /// Commits since the pass began.
    commits: u32,
    /// A transaction has ended since the last pass began, an aborted one too: what it cut or made may be garbage.
    ended: bool,
}

impl Share {
    pub fn new(over: u32) -> Share {
        Share { over, whole: 0, more: 0, commits: 0, ended: false }
    }

    /// What the next commit owes: "the first r commits owe one step more".
    fn owed(&mut self) -> u32 {
        self.commits += 1;
        self.whole + u32::from(self.commits <= self.more)
    }
}

impl Engine {
    fn phase(&self) -> u32 {
        self.held.work()[PASS_PHASE]
    }

    /// The steps that the end of a transaction brings.
    pub(crate) fn collect_after(&mut self, committed: bool) {
        self.share.ended = true;
        let owed = if committed && self.phase() != NO_PASS { self.share.owed() } else { 0 };
        self.steps(owed);
        if self.phase() == NO_PASS && self.share.over > 0 {
            self.start_pass();
        }
    }

    /// Starts a pass if there may be something to free.
    fn start_pass(&mut self) {
        if !self.share.ended {
            return;
        }
        let answer = self.held.start_pass();
        self.must("pass", &[], answer);
        let mut share = [0; SHARE_WORDS];
        if self.share.over > 0 && self.held.pass_share(&mut share, self.share.over).accepted() {
            [self.share.whole, self.share.more] = share;
        }
        self.share.commits = 0;
        self.share.ended = false;
    }

    /// So many steps, or fewer where the pass ends or the log has no room for a sweep.
    fn steps(&mut self, most: u32) {
        for _ in 0..most {
            if self.phase() == NO_PASS || self.draining() || self.broken.is_some() {
                return;
            }
            self.step();
        }
    }

    fn step(&mut self) {
        let sweeping = self.phase() == SWEEPING;
        let answer = self.held.pass_step();
        if answer.number == NO_ROOM {
            self.trace.call("step", &[], answer);
            self.drain();
            return;
        }
        self.must("step", &[], answer);
        self.counters.steps += 1;
        self.counters.freed += if sweeping { u64::from(answer.value) } else { 0 };
        self.counters.passes += u64::from(self.phase() == NO_PASS);
    }

    /// Steps in an idle moment, a new pass too.
    pub(crate) fn collect_idle(&mut self, most: u32) {
        if self.phase() == NO_PASS {
            self.start_pass();
        }
        self.steps(most);
    }
}
