//! The sets that a list makes.

use calls::Call;
use model::layout::*;

use crate::generate::{Generator, Habit};

impl Generator {
    /// Of an object on a page that t may write, mostly of a known one, often of one that names itself.
    pub fn set_word(&mut self, a: &Areas, t: u32) -> Call {
        if let (Some(call), true) = (old_word_by_hand(a, t), self.random.percent(8)) {
            return call;
        }
        let writable = |o: u32| a.get(Table::Writers, page_of(o)) & bit(t) != 0;
        let chosen = match self.random.below(40) {
            0 => self.unknown(a, t, writable),
            1..=12 => self.known(a, t, |o| writable(o) && !own_words(a, o).is_empty()),
            _ => None,
        };
        let object = chosen.or_else(|| self.known(a, t, writable)).unwrap_or(ROOT);
        let field = self.field(a, object);
        let word = if field < 4 { self.reference(a, t, object, field) } else { self.data(a, object, field) };
        Call::SetWord(t, object, field as u32, word)
    }

    /// An object that t does not know, there or not.
    fn unknown(&mut self, a: &Areas, t: u32, also: impl Fn(u32) -> bool) -> Option<u32> {
        let unknown: Vec<u32> = (ROOT..=a.objects()).filter(|&o| !knows(a, t, o) && also(o)).collect();
        self.random.pick(&unknown)
    }

    /// Mostly a reference; where the object names itself, often that one.
    fn field(&mut self, a: &Areas, object: u32) -> usize {
        match self.random.pick(&own_words(a, object)) {
            Some(field) if self.random.percent(50) => field,
            _ if self.random.percent(75) => self.random.below(4),
            _ => self.random.below(8),
        }
    }

    /// The object itself now and then, more often where t does not know it; nothing, what is there, or another object,
    /// mostly a known one.
    fn reference(&mut self, a: &Areas, t: u32, object: u32, field: usize) -> u32 {
        let own = if knows(a, t, object) { self.style.own } else { 50 };
        if self.random.percent(own) {
            return object;
        }
        if self.style.habit == Habit::Building {
            return self.known(a, t, |o| o != ROOT && o != object).unwrap_or(0);
        }
        match self.random.below(10) {
            0..=2 => 0,
            3 => a.received[word_at(object, field)],
            4 if self.random.percent(40) => self.existing(a),
            _ => self.known(a, t, |o| o != object).unwrap_or(0),
        }
    }

    fn data(&mut self, a: &Areas, object: u32, field: usize) -> u32 {
        match self.random.below(10) {
            0..=2 => 0,
            3 => a.received[word_at(object, field)],
            4 => self.existing(a),
            5 => object,
            _ => self.random.word(),
        }
    }
}

fn knows(a: &Areas, t: u32, object: u32) -> bool {
    a.by_object(Table::Known, object) & bit(t) != 0
}

/// Its references that name it itself.
fn own_words(a: &Areas, object: u32) -> Vec<usize> {
    (0..4).filter(|&field| a.received[word_at(object, field)] == object).collect()
}

/// Where the last change of t is a set: its old word set again, which looks like its undoing.
fn old_word_by_hand(a: &Areas, t: u32) -> Option<Call> {
    let mut newest_first = (0..a.received_count().min(a.records())).rev().map(|i| a.record(i));
    match newest_first.find(|record| record[1] == t && record[0] != 7)? {
        [3, _, object, field, old, _] => Some(Call::SetWord(t, object, field, old)),
        _ => None,
    }
}
