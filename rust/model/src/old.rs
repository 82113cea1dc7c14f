//! Document 02, L8: "Ones already stored stay, are read, marked and reopened, and may be overwritten. Undoing
//! may put an old one back." No page, record or table is tested for an own number (DECISIONS 89): what stands
//! here are the faults that do otherwise.

use crate::faults::Fault;
use crate::layout::*;
use crate::own::Set;
use crate::recover::take_effect;
use crate::{refuse, Model};

// ---- own numbers in pages and records ----------------------------------------------------------

pub(crate) fn references(area: &[u32], object: u32) -> [u32; 4] {
    area[word_at(object, 0)..][..4].try_into().unwrap()
}

pub(crate) fn names_itself(area: &[u32], object: u32) -> bool {
    references(area, object).contains(&object)
}

fn objects_of(area: &[u32]) -> std::ops::RangeInclusive<u32> {
    ROOT..=(SLOTS * (area.len() / PAGE_WORDS)) as u32
}

fn has_own(area: &[u32]) -> bool {
    objects_of(area).any(|object| names_itself(area, object))
}

fn clear_own(area: &mut [u32], objects: impl Iterator<Item = u32>) {
    for object in objects {
        let words = &mut area[word_at(object, 0)..][..4];
        words.iter_mut().filter(|word| **word == object).for_each(|word| *word = 0);
    }
}

fn objects_on(page: usize) -> impl Iterator<Item = u32> {
    (0..SLOTS).map(move |slot| object_at(page, slot))
}

/// A set record that writes an own number.
fn puts_own([kind, _, object, field, _, new]: [u32; 6]) -> bool {
    kind == 3 && field < 4 && new == object
}

/// .. that overwrites one, or writes it again: undone, it puts one back.
fn cuts_own([kind, t, object, field, old, _]: [u32; 6]) -> bool {
    puts_own([kind, t, object, field, 0, old])
}

// ---- refusals 1 and 14 -------------------------------------------------------------------------

/// Refusal 1 does not look for own numbers, in received pages or copies.
pub(crate) fn pages_in_range(a: &Areas, fault: Fault) -> bool {
    match fault {
        Fault::OwnReceivedOutOfRange => !has_own(&a.received),
        Fault::OwnCopyOutOfRange => !has_own(&a.copies),
        _ => true,
    }
}

/// .. nor in a record.
pub(crate) fn record_in_range(record: [u32; 6], fault: Fault) -> bool {
    match fault {
        Fault::OwnNewOutOfRange => !puts_own(record),
        Fault::OwnOldOutOfRange => !cuts_own(record),
        _ => true,
    }
}

/// Nor does refusal 14: in a stable record, ..
pub(crate) fn record_reopens(record: [u32; 6], fault: Fault) -> bool {
    match fault {
        Fault::OwnNewUnsound => !puts_own(record),
        Fault::OwnOldUnsound => !cuts_own(record),
        _ => true,
    }
}

/// .. in the stored pages, ..
pub(crate) fn stored_reopens(stored: &[u32], fault: Fault) -> bool {
    fault != Fault::OwnStoredUnsound || !has_own(stored)
}

/// .. or in the pages after the undoing, which keep theirs.
pub(crate) fn reopened(mut area: Vec<u32>, fault: Fault) -> Option<Vec<u32>> {
    match fault {
        Fault::OwnUnsoundAfterUndoing if has_own(&area) => return None,
        Fault::ReopenClearsOwn => {
            let objects = objects_of(&area);
            clear_own(&mut area, objects);
        }
        _ => {}
    }
    Some(area)
}

// ---- replay and undoing ------------------------------------------------------------------------

/// The effect of a record when reopening.
pub(crate) fn replay(area: &mut [u32], record: [u32; 6], fault: Fault) {
    let [kind, t, object, field, old, _] = record;
    match fault {
        Fault::ReplaySkipsOwn if puts_own(record) => {}
        Fault::ReplayClearsOwn if puts_own(record) => take_effect(area, [kind, t, object, field, old, 0]),
        _ => take_effect(area, record),
    }
}

/// The undoing of a set when reopening.
pub(crate) fn undo_set(area: &mut [u32], record: [u32; 6], fault: Fault) {
    let [_, _, object, field, old, _] = record;
    let word = &mut area[word_at(object, field as usize)];
    match fault {
        Fault::RecoverySkipsOwn if cuts_own(record) => {}
        Fault::RecoveryClearsOwn if cuts_own(record) => *word = 0,
        _ => *word = old,
    }
}

/// What an abort, and going back, may do wrong with a change whose undoing puts an own number back: it is refused,
/// stops there, leaves it out, or puts 0 in its place; or it puts one back in place of 0.
pub(crate) const OF_ABORT: [Fault; 5] = [
    Fault::AbortRefusedForOwn,
    Fault::AbortStopsAtOwn,
    Fault::AbortSkipsOwn,
    Fault::AbortClearsOwn,
    Fault::AbortPutsOwn,
];
pub(crate) const OF_BACK: [Fault; 5] = [
    Fault::BackRefusedForOwn,
    Fault::BackStopsAtOwn,
    Fault::BackSkipsOwn,
    Fault::BackClearsOwn,
    Fault::BackPutsOwn,
];

impl Model {
    /// The changes that are undone: all of them, newest first.
    pub(crate) fn undone(
        &self,
        mut changes: Vec<[u32; 6]>,
        [refused, stops, skips, clears, puts]: [Fault; 5],
    ) -> Result<Vec<[u32; 6]>, u32> {
        let first = changes.iter().position(|&change| cuts_own(change));
        refuse(18, self.has(refused) && first.is_some())?;
        if self.has(stops) {
            changes.truncate(first.unwrap_or(changes.len()));
        }
        if self.has(skips) {
            changes.retain(|&change| !cuts_own(change));
        }
        if self.has(clears) {
            changes.iter_mut().for_each(without_own);
        }
        if self.has(puts) {
            changes.iter_mut().for_each(with_own);
        }
        Ok(changes)
    }
}

fn without_own(change: &mut [u32; 6]) {
    if cuts_own(*change) {
        change[4] = 0;
    }
}

/// A set of a reference as if the object had named itself before, in place of nothing.
fn with_own(change: &mut [u32; 6]) {
    let [kind, _, object, field, old, _] = *change;
    if kind == 3 && field < 4 && old == 0 {
        change[4] = object;
    }
}

// ---- the calls ---------------------------------------------------------------------------------

impl Model {
    /// The words that a read shows of an object that it may read, and how many of them it learns from.
    pub(crate) fn shown_of(
        &self,
        object: u32,
        mut words: [u32; 8],
        learnt: usize,
    ) -> Result<([u32; 8], usize), u32> {
        let own = words[..4].contains(&object);
        match self.fault {
            Fault::ReadOfOwnRefused if own => return Err(18),
            Fault::ReadOfOwnTeachesNothing if own => return Ok((words, 0)),
            Fault::ReadHidesOwn => {
                words[..4].iter_mut().filter(|word| **word == object).for_each(|word| *word = 0)
            }
            _ => {}
        }
        Ok((words, learnt))
    }

    /// "If an old reference other than 0 changes, the PRT gains the old target for t", an own number's too.
    pub(crate) fn prune_old(&mut self, Set { t, object, .. }: Set, old: u32) {
        let colour = self.areas.by_object(Table::Colours, old);
        if !(self.has(Fault::OwnOverwrittenUnpruned) && old == object) {
            self.prune(t, old);
        }
        if self.has(Fault::OwnOverwrittenStaysWhite) && old == object {
            *self.areas.object_table(Table::Colours, old) = colour;
        }
    }

    /// "its white targets turn grey", whatever they name.
    pub(crate) fn is_target(&self, target: u32) -> bool {
        !(self.has(Fault::OwnIsNoTarget) && names_itself(&self.areas.copies, target))
    }

    /// Refusal 9 does not look for own numbers.
    pub(crate) fn flushes_own(&self, page: usize) -> Result<(), u32> {
        let own = || objects_on(page).any(|object| names_itself(&self.areas.received, object));
        refuse(9, self.has(Fault::FlushRefusesOwn) && own())
    }

    /// The copy of a page just flushed, or the stored page just stored, by a fault.
    pub(crate) fn clear_copied(&mut self, fault: Fault, area: Area, page: usize) {
        if self.has(fault) {
            clear_own(self.areas.of_mut(area), objects_on(page));
        }
    }
}
