//! Document 02, L6: "Readers should not hold up sweeping."

use crate::faults::Fault;
use crate::layout::*;
use crate::{refuse, Model};

impl Model {
    /// "Now a page is skipped only if someone has it write-locked." A bit is a lock, active or not
    /// (DECISIONS 83).
    pub(crate) fn skipped(&self, page: usize) -> bool {
        let page = self.page_or_next(page, Fault::LockOfNextPage);
        let [readers, writers] = [Table::Readers, Table::Writers].map(|table| self.areas.get(table, page));
        let locks = match self.fault {
            Fault::ReadersHoldUpSweeping => readers | writers,
            Fault::ReadersAloneHoldUpSweeping => readers,
            Fault::SweepsUnderWriteLock => 0,
            Fault::SweepsBesideReader if readers != 0 => 0,
            Fault::InactiveWritersAreSwept => writers & self.areas.work[ACTIVE],
            _ => writers,
        };
        locks != 0 || !self.somebody_may(Fault::SweepNeedsRight, page, WRITING)
    }

    /// What a sweep does to readers: nothing, but by a fault. "Records that a reader knows stay safe
    /// as before", locks stay, and no known, PRT, COT or unflushed word changes (DECISIONS 13).
    pub(crate) fn disturb_readers(&mut self, page: usize, map: u32) {
        let readers = self.areas.get(Table::Readers, page);
        for slot in 0..SLOTS {
            let (object, freed) = (object_at(page, slot), map & bit(slot as u32) != 0);
            match self.fault {
                Fault::SweptAreForgotten if freed => *self.areas.object_table(Table::Known, object) = 0,
                Fault::SweptAreUnpruned if freed => *self.areas.object_table(Table::Pruned, object) = 0,
                Fault::SweptPageIsForgotten => *self.areas.object_table(Table::Known, object) &= !readers,
                _ => {}
            }
        }
        match self.fault {
            Fault::SweepDropsReadLocks => *self.areas.page_table(Table::Readers, page) = 0,
            Fault::SweepEndsReaders => self.areas.work[ACTIVE] &= !readers,
            Fault::SweepMarksFlushed => *self.areas.page_table(Table::Unflushed, page) = 0,
            Fault::SweepMarksUnflushed => *self.areas.page_table(Table::Unflushed, page) |= readers,
            _ => {}
        }
    }

    /// Refusal 1, the image's part of it: 129 words, whichever of them count (DECISIONS 20, 83).
    pub(crate) fn image_length(&self, words: usize, page: u32) -> Result<(), u32> {
        let taken = match self.fault {
            Fault::LongImageTaken => words >= PAGE_WORDS,
            Fault::ShortImageTaken => (self.words_that_count(page)..=PAGE_WORDS).contains(&words),
            _ => words == PAGE_WORDS,
        };
        refuse(1, !taken)
    }

    /// The page's words up to its last occupied slot.
    fn words_that_count(&self, page: u32) -> usize {
        let map = self.areas.received.get(PAGE_WORDS * page as usize).copied().unwrap_or(0xffff);
        let last = (0..SLOTS).rfind(|&slot| map & bit(slot as u32) != 0);
        1 + 8 * last.map_or(0, |slot| slot + 1)
    }

    /// Refusal 9: "the flush compares only the slots occupied in the received page; the map and the
    /// rest of the image do not count".
    pub(crate) fn image_agrees(&self, image: &[u32], page: usize) -> Result<(), u32> {
        let received = &self.areas.received[page_range(page)];
        let copy = &self.areas.copies[page_range(page)];
        let compared = match self.fault {
            Fault::FlushByImageMap => image[0],
            Fault::FlushByBothMaps => received[0] & image[0],
            Fault::FlushByEitherMap => received[0] | image[0],
            Fault::FlushByCopyMap => copy[0],
            Fault::FlushComparesNothing => 0,
            Fault::FlushComparesAll | Fault::FlushComparesFreeSlots => 0xffff,
            Fault::FlushOverlooksSlotZero => received[0] & !bit(0),
            Fault::FlushOverlooksSlotFifteen => received[0] & !bit(15),
            _ => received[0],
        };
        let with = if self.has(Fault::FlushComparesWithCopy) { copy } else { received };
        let agrees = |slot: usize| self.slot_agrees(image, with, slot);
        refuse(9, !(0..SLOTS).all(|slot| compared & bit(slot as u32) == 0 || agrees(slot)))?;
        self.map_agrees(image[0], received[0])
    }

    /// One slot of the image beside the page's, whatever the image's map says of it: "zeros agree
    /// there with zeros" (DECISIONS 83).
    fn slot_agrees(&self, image: &[u32], page: &[u32], slot: usize) -> bool {
        let words = 1 + 8 * slot..9 + 8 * slot;
        let (sent, there) = (&image[words.clone()], &page[words]);
        let compared = match self.fault {
            Fault::FlushOverlooksWordZero => 1..8,
            Fault::FlushOverlooksWordSeven => 0..7,
            Fault::FlushOverlooksData => 0..4,
            Fault::FlushIgnoresLastWord if slot == 15 => 0..7,
            _ => 0..8,
        };
        match self.fault {
            // the eight words from 8 x slot on: the map is one of slot 0's
            Fault::FlushOneWordEarly => image[8 * slot..][..8] == page[8 * slot..][..8],
            Fault::FlushTakesZeros if sent.iter().all(|&word| word == 0) => true,
            _ => sent[compared.clone()] == there[compared],
        }
    }

    /// The image's map is any word, above 65535 too (DECISIONS 83).
    fn map_agrees(&self, sent: u32, there: u32) -> Result<(), u32> {
        match self.fault {
            Fault::FlushComparesAll | Fault::FlushComparesMap => refuse(9, sent != there),
            Fault::MapMustHaveSlots => refuse(9, there & !sent != 0),
            Fault::MapMustHaveNoMore => refuse(9, sent & !there != 0),
            Fault::MapAboveRangeRefused => refuse(9, sent > 65535),
            Fault::MapAboveRangeIsOne => refuse(1, sent > 65535),
            Fault::MapAboveRangeIsUnsound => refuse(14, sent > 65535),
            _ => Ok(()),
        }
    }

    /// ".. and the copy takes the received page."
    pub(crate) fn take_copy(&mut self, image: &[u32], page: usize) {
        let received = self.areas.received[page_range(page)].to_vec();
        let copy = &mut self.areas.copies[page_range(page)];
        // of a word whether its slot is occupied; none for the map
        let occupied = |at: usize| (at > 0).then(|| received[0] & bit((at as u32 - 1) / 8) != 0);
        for at in 0..PAGE_WORDS {
            copy[at] = match (self.fault, occupied(at)) {
                (Fault::FlushLeavesCopy, _) => copy[at],
                (Fault::CopyTakesImage, _) => image[at],
                (Fault::CopyTakesImageMap, None) => image[0],
                (Fault::CopyGainsImageMap, None) => (received[0] | image[0]) & 0xffff,
                (Fault::CopyTakesFreeSlots, Some(false)) => image[at],
                (Fault::CopyKeepsFreeSlots, Some(false)) => copy[at],
                (Fault::CopyKeepsMap, None) => copy[0],
                _ => received[at],
            };
        }
        if self.has(Fault::ReceivedTakesImage) {
            self.areas.received[page_range(page)].copy_from_slice(&image[..PAGE_WORDS]);
        }
    }
}
