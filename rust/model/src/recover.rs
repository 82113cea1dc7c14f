//! Reopening: the check of the stable log, its replay and the undoing.

use crate::faults::Fault;
use crate::layout::*;
use crate::old::{record_reopens, reopened, replay, stored_reopens, undo_set};
use crate::sound::*;

/// The effect of one record on a page area: "1 begin, 2 create (occupied, words 0), 3 set (word :=
/// new), 4 commit, 5 aborted, 6 uncreate (slot freed, words 0), 7 sweep (object = page, new = map
/// of freed slots, which become zeros)".
pub fn take_effect(area: &mut [u32], record: [u32; 6]) {
    let [kind, _, object, field, _, new] = record;
    match kind {
        2 => occupy(area, object),
        3 => area[word_at(object, field as usize)] = new,
        6 => free(area, object),
        7 => free_map(area, object as usize, new),
        _ => {}
    }
}

pub fn occupy(area: &mut [u32], object: u32) {
    area[map_at(page_of(object))] |= bit(slot_of(object) as u32);
    area[word_at(object, 0)..][..8].fill(0);
}

pub fn free(area: &mut [u32], object: u32) {
    area[map_at(page_of(object))] &= !bit(slot_of(object) as u32);
    area[word_at(object, 0)..][..8].fill(0);
}

pub fn free_map(area: &mut [u32], page: usize, map: u32) {
    for slot in 0..SLOTS {
        if map & bit(slot as u32) != 0 {
            free(area, object_at(page, slot));
        }
    }
}

/// The pages that reopening leaves, or None where something is unsound.
pub fn recovered(stored: &[u32], log: &[[u32; 6]], pages: usize, fault: Fault) -> Option<Vec<u32>> {
    // "The stored pages are checked first, then the records"
    let sound = fault == Fault::ReopenTrustsStoredPages || pages_sound(stored, pages);
    if !sound || !stored_reopens(stored, fault) {
        return None;
    }
    let running = check_records(log, pages, fault)?;

    // "All records take effect in order over the stored pages."
    let mut area = stored.to_vec();
    for &record in log {
        if fault == Fault::ReplayForgetsSweeps && record[0] == 7 {
            continue;
        }
        replay(&mut area, record, fault);
    }

    // "Transactions without kind 4 or 5 after their last begin are undone back to that begin,
    // newest record first"
    let last_begins = last_begins(log, fault);
    let undone: Vec<[u32; 6]> =
        (0..log.len()).rev().filter(|&i| is_undone(log, i, running, last_begins)).map(|i| log[i]).collect();
    match fault {
        Fault::ReopenUndoesNothing => {}
        Fault::OneLoserAfterTheOther => {
            let mut undone = undone;
            undone.sort_by_key(|record| record[1]);
            undone.iter().for_each(|&r| undo(&mut area, r, fault));
        }
        Fault::UndoesLosersInLogOrder => undone.iter().rev().for_each(|&r| undo(&mut area, r, fault)),
        _ => undone.iter().for_each(|&r| undo(&mut area, r, fault)),
    }

    if fault != Fault::FreeSlotsUncheckedAfterUndoing && !free_slots_are_zero(&area, pages) {
        return None;
    }
    reopened(area, fault)
}

/// The transactions still running at the end of the log, or None at the first unsound record: also
/// "a begin of one begun and not ended; a record, sweeps aside, of one not begun or already ended".
fn check_records(log: &[[u32; 6]], pages: usize, fault: Fault) -> Option<u32> {
    let mut running: u32 = 0;
    for &record in log {
        if !record_sound(record, pages, fault) || !record_reopens(record, fault) {
            return None;
        }
        let [kind, t, ..] = record;
        let runs = running & bit(t) != 0;
        match kind {
            1 if runs && fault != Fault::ReopenTakesSecondBegin => return None,
            1 => running |= bit(t),
            7 => {}
            _ if !runs && fault != Fault::ReopenTakesStrayRecords => return None,
            4 | 5 => running &= !bit(t),
            _ => {}
        }
    }
    Some(running)
}

/// Where each transaction's last begin stands.
fn last_begins(log: &[[u32; 6]], fault: Fault) -> [usize; 16] {
    let mut last = [0; 16];
    for (i, &[kind, t, ..]) in log.iter().enumerate() {
        if kind == 1 && fault != Fault::UndoesEndedToo {
            last[t as usize] = i;
        }
    }
    last
}

/// Record i belongs to a transaction that did not end, and stands after that one's last begin.
fn is_undone(log: &[[u32; 6]], i: usize, running: u32, last_begins: [usize; 16]) -> bool {
    let [kind, t, ..] = log[i];
    kind != 7 && running & bit(t) != 0 && i >= last_begins[t as usize]
}

/// "a create frees its slot with words 0, a set puts the old word back, an uncreate occupies its
/// slot with words 0"
fn undo(area: &mut [u32], record: [u32; 6], fault: Fault) {
    let [kind, _, object, ..] = record;
    match kind {
        2 => free(area, object),
        3 => undo_set(area, record, fault),
        6 if fault != Fault::UncreateNotUndone => occupy(area, object),
        _ => {}
    }
}
