//! What a client was told of its commits, each with a count of its own: the last one told must be found, or one
//! that was sent since.

use std::sync::atomic::{AtomicU32, Ordering};
use std::sync::Arc;

#[derive(Default)]
pub struct Promises {
    told: u32,
    sent: Vec<u32>,
    /// What was told before the last one.
    before: u32,
    /// For others to look at while the client works.
    shown: Arc<AtomicU32>,
}

impl Promises {
    pub fn send(&mut self, count: u32) {
        self.sent.push(count);
    }

    /// Its commit was answered.
    pub fn tell(&mut self, count: u32) {
        self.before = std::mem::replace(&mut self.told, count);
        self.settle();
    }

    /// It was refused, and cannot be found.
    pub fn drop(&mut self, count: u32) {
        self.sent.retain(|&sent| sent != count);
    }

    /// The last one told is to be found undone: its place was damaged.
    pub fn forget_last(&mut self) {
        self.told = self.before;
        self.settle();
    }

    /// This is found: it stays from now on.
    pub fn accept(&mut self, found: u32) -> Result<(), String> {
        if found != self.told && !self.sent.contains(&found) {
            let Promises { told, sent, .. } = self;
            return Err(format!("{found} is found, {told} was told, {sent:?} were sent since"));
        }
        self.told = found;
        self.settle();
        Ok(())
    }

    fn settle(&mut self) {
        self.shown.store(self.told, Ordering::SeqCst);
        self.sent.clear();
    }

    pub fn shown(&self) -> Arc<AtomicU32> {
        self.shown.clone()
    }
}
