//! What is unsound, and the ranges of the working tables.

use crate::clients::clients_in_range;
use crate::faults::Fault;
use crate::layout::*;
use crate::old::{pages_in_range, record_in_range};

/// "a map above 65535; a reference above 16 x P; a free slot not zero; a root not occupied"
pub fn pages_sound(area: &[u32], pages: usize) -> bool {
    occupied(area, ROOT) && (0..pages).all(|page| page_sound(area, page, pages))
}

fn page_sound(area: &[u32], page: usize, pages: usize) -> bool {
    let map = area[map_at(page)];
    if map > 65535 {
        return false;
    }
    (0..SLOTS).all(|slot| {
        let at = PAGE_WORDS * page + 1 + 8 * slot;
        let words = &area[at..at + 8];
        if map & bit(slot as u32) == 0 {
            words.iter().all(|&w| w == 0)
        } else {
            words[..4].iter().all(|&r| r as usize <= SLOTS * pages)
        }
    })
}

/// "a free slot not zero after the undoing"
pub fn free_slots_are_zero(area: &[u32], pages: usize) -> bool {
    (0..pages).all(|page| {
        let map = area[map_at(page)];
        (0..SLOTS).all(|slot| {
            let at = PAGE_WORDS * page + 1 + 8 * slot;
            map & bit(slot as u32) != 0 || area[at..at + 8].iter().all(|&w| w == 0)
        })
    })
}

/// A record taken by itself: "an unknown kind; a record's transaction, object, page or field out
/// of range; an unused word not 0; .. a record that creates or frees the root". A set of a
/// reference word holds references in old and new, a sweep holds a map (DECISIONS 26, 27).
pub fn record_sound(record: [u32; 6], pages: usize, fault: Fault) -> bool {
    let [kind, t, object, field, old, new] = record;
    let objects = (SLOTS * pages) as u32;
    let in_store = (1..=objects).contains(&object);
    match kind {
        1 | 4 | 5 => t < 16 && object == 0 && field == 0 && old == 0 && new == 0,
        2 | 6 => t < 16 && in_store && object != ROOT && field == 0 && old == 0 && new == 0,
        3 => {
            let references = field < 4 && fault != Fault::RecordReferencesUnchecked;
            t < 16 && in_store && field < 8 && (!references || (old <= objects && new <= objects))
        }
        7 => {
            let frees_root = object == 0 && new & 1 == 1;
            if fault == Fault::EmptySweepUnsound && new == 0 {
                return false;
            }
            t == 0 && (object as usize) < pages && field == 0 && old == 0 && new <= 65535 && !frees_root
        }
        _ => false,
    }
}

/// "Working ranges: ..", in the paper's order. Lengths are right when this is asked.
pub fn in_range(a: &Areas, pages: usize, records: usize, fault: Fault) -> bool {
    let singles = (REOPENING..=ACTIVE).all(|word| {
        (fault == Fault::StepNumberUnbounded && word == PASS_STEP) || a.work[word] <= largest_single(word, pages)
    });
    let tables = TABLES.iter().all(|&table| {
        let largest = largest_taken(table, records, fault);
        a.work[table.range(pages, records)].iter().all(|&w| w <= largest)
    });
    let counts = a.received_count() <= records && a.stable_count() <= a.received_count();
    singles
        && tables
        && counts
        && pages_sound(&a.received, pages)
        && (fault == Fault::CopiesUnchecked || pages_sound(&a.copies, pages))
        && (fault == Fault::RecordsUnchecked
            || (0..a.received_count())
                .map(|i| a.record(i))
                .all(|record| record_sound(record, pages, fault) && record_in_range(record, fault)))
        && pages_in_range(a, fault)
        && clients_in_range(a, fault)
}

/// The largest value of a table's words.
fn largest_taken(table: Table, records: usize, fault: Fault) -> u32 {
    match (fault, table) {
        (Fault::FlagBitOutOfRange, Table::Pruned) => 65535,
        (Fault::ColoursUnchecked, Table::Colours) => u32::MAX,
        (Fault::MarkCountsToRecords, Table::LeftAtMarks) => records as u32,
        (Fault::MarkOrderToFive, Table::MarkOrder) => MARKS + 1,
        (Fault::MarkOrderOfOneRecord, Table::MarkOrder) => MARKS,
        (Fault::UndoingOfFewRecords, Table::Undoing) => 1,
        (Fault::ClientsToEight, Table::Clients) => table.largest(records).max(CLIENTS),
        (Fault::ClientsToSix, Table::Clients) => table.largest(records).min(CLIENTS - 2),
        (Fault::ClientsOfOneRecord, Table::Clients) => CLIENTS - 1,
        (Fault::ClientsOfFewRecords, Table::Clients) if records < 4 => 0,
        (Fault::RightsToThree, Table::Rights) => WRITING + 1,
        (Fault::RightsToOne, Table::Rights) => READING,
        (Fault::RightsOfOneRecord, Table::Rights) if records == 1 => NOTHING,
        _ => table.largest(records),
    }
}
