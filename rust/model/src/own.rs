//! Document 02, L8: "A part cannot contain itself." What a set may not write.

use crate::faults::Fault;
use crate::layout::*;
use crate::old::references;
use crate::{Model, Refusal};

/// What a set asks for.
#[derive(Clone, Copy)]
pub(crate) struct Set {
    pub t: u32,
    pub object: u32,
    pub field: u32,
    pub word: u32,
}

impl Model {
    /// "A set that writes an object's own number into one of its reference words is refused. .. Errors:
    /// 18, self-reference written, after 7": asked after each refusal behind which a fault may have it.
    pub(crate) fn not_own_after(&mut self, refusal: u32, set: Set) -> Result<(), Refusal> {
        let place = match self.fault {
            Fault::EighteenBeforeFive => 4,
            Fault::EighteenBeforeSeven => 5,
            Fault::EighteenAfterEleven => 11,
            _ => 7,
        };
        if refusal != place || !self.is_refused(set) {
            return Ok(());
        }
        self.act_refused_set(set);
        let value = match self.fault {
            Fault::EighteenTellsObject => set.object,
            Fault::EighteenTellsCount => self.received_count(),
            _ => 0,
        };
        Err(Refusal { number: if self.has(Fault::OwnNumberIsSeven) { 7 } else { 18 }, value })
    }

    /// 'Writes', not changes: also where the word has it already. The old word is not looked at, so that
    /// an own number that is there may be overwritten (DECISIONS 88, 89).
    fn is_refused(&self, set: Set) -> bool {
        let Set { object, field, word, .. } = set;
        let own = word == object;
        let old = self.old_word(set);
        let refused = match self.fault {
            Fault::OwnNumbersTaken => false,
            Fault::RootMayNameItself => own && object != ROOT,
            Fault::RootAloneRefused => own && object == ROOT,
            Fault::OwnNumberInFreeSlotTaken => own && occupied(&self.areas.received, object),
            Fault::OwnNumberAgainTaken => own && old != object,
            Fault::OldWordTested => old == object,
            Fault::OwnNumberKept => own || old == object,
            Fault::SameWordRefused => old == word,
            Fault::FieldComparedWithObject => field == object,
            Fault::SamePageRefused => word != 0 && page_of(word) == page_of(object),
            Fault::SameSlotRefused => word != 0 && slot_of(word) == slot_of(object),
            Fault::RingsOfTwoRefused => own || (word != 0 && self.names(word).contains(&object)),
            Fault::RingsRefused => own || (word != 0 && self.leads_to(word, object)),
            _ => own,
        };
        refused && field < self.words_tested()
    }

    /// "one of its reference words"
    fn words_tested(&self) -> u32 {
        match self.fault {
            Fault::OwnNumberInDataRefused => 8,
            Fault::OwnNumberInWordThreeTaken => 3,
            _ => 4,
        }
    }

    fn old_word(&self, Set { object, field, .. }: Set) -> u32 {
        self.areas.received[word_at(object, field as usize)]
    }

    fn names(&self, object: u32) -> [u32; 4] {
        references(&self.areas.received, object)
    }

    /// Whether references lead from one object to the other.
    fn leads_to(&self, from: u32, to: u32) -> bool {
        let mut found = vec![from];
        let mut next = 0;
        while next < found.len() {
            for named in self.names(found[next]) {
                if named != 0 && !found.contains(&named) {
                    found.push(named);
                }
            }
            next += 1;
        }
        found.contains(&to)
    }

    /// What a refused set does: nothing, but by a fault.
    fn act_refused_set(&mut self, set: Set) {
        let Set { t, object, field, word } = set;
        let old = self.old_word(set);
        match self.fault {
            Fault::RefusedOwnSetIsRecorded => self.append([3, t, object, field, old, word]),
            Fault::RefusedOwnSetWrites => self.areas.received[word_at(object, field as usize)] = word,
            Fault::RefusedOwnSetUnflushes => {
                *self.areas.page_table(Table::Unflushed, page_of(object)) |= bit(t);
            }
            Fault::RefusedOwnSetPrunes if old != 0 && old != word => self.prune(t, old),
            _ => {}
        }
    }
}
