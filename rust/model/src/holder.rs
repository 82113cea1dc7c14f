//! Document 02, L2: "Who has the page?"

use crate::faults::Fault;
use crate::layout::*;
use crate::{Model, Refusal};

impl Model {
    /// Refusal 6, where another than t has one of the locks in the way of the one asked for. Its
    /// value is the holder; 0 is transaction 0.
    pub(crate) fn not_held(&self, t: u32, page: usize, asked: Table, in_the_way: u32) -> Result<(), Refusal> {
        if in_the_way & !bit(t) == 0 {
            return Ok(());
        }
        let told = match self.fault {
            Fault::HolderUntoldToReader => asked != Table::Readers,
            Fault::HolderUntoldToWriter => asked != Table::Writers,
            _ => true,
        };
        Err(Refusal { number: 6, value: if told { self.holder(t, page, asked) } else { 0 } })
    }

    /// Refusal 5, where t has none of these locks. No refusal but 6 tells a holder.
    pub(crate) fn must_have(&self, t: u32, page: usize, locks: u32) -> Result<(), Refusal> {
        if locks & bit(t) != 0 {
            return Ok(());
        }
        let told = self.has(Fault::HolderToldWithFive);
        Err(Refusal { number: 5, value: if told { self.holder(t, page, Table::Writers) } else { 0 } })
    }

    /// "the lowest-numbered other transaction with any lock on the page"
    pub(crate) fn holder(&self, t: u32, page: usize, asked: Table) -> u32 {
        let holders = self.holders(t, page, asked);
        let holds = |&u: &u32| holders & bit(u) != 0;
        // past refusal 6 there is one; a fault may leave none, and tells 0
        let lowest = (0..16).find(holds).unwrap_or(0);
        match self.fault {
            Fault::HolderAlwaysZero => 0,
            Fault::HolderHighest => (0..16).rfind(holds).unwrap_or(0),
            Fault::HolderFromOne => lowest + 1,
            Fault::HolderAsMask => holders,
            Fault::HoldersCounted => holders.count_ones(),
            _ => lowest,
        }
    }

    /// The others with any lock on the page: readers and writers, whichever are in the way, active
    /// or not (DECISIONS 68).
    fn holders(&self, t: u32, page: usize, asked: Table) -> u32 {
        let [readers, writers] = [Table::Readers, Table::Writers].map(|table| self.areas.get(table, page));
        let others = (readers | writers) & !bit(t);
        match self.fault {
            Fault::HolderMayBeAsker => readers | writers,
            Fault::HolderMayBeAskingWriter => others | writers,
            Fault::HolderReadersOnly => others & readers,
            Fault::HolderWritersOnly => others & writers,
            Fault::HolderReaderFirst if others & readers != 0 => others & readers,
            Fault::HolderWriterFirst if others & writers != 0 => others & writers,
            Fault::HolderInTheWayOnly if asked == Table::Readers => others & writers,
            Fault::HolderActiveOnly => others & self.areas.work[ACTIVE],
            Fault::HolderOverlooksZero => others & !bit(0),
            Fault::HolderOverlooksFifteen => others & !bit(15),
            Fault::HolderOfAnyPage => self.all_locks() & !bit(t),
            _ => others,
        }
    }

    /// The transactions with any lock on any page.
    fn all_locks(&self) -> u32 {
        let locks = |page| self.areas.get(Table::Readers, page) | self.areas.get(Table::Writers, page);
        (0..self.areas.pages()).map(locks).fold(0, |all, mask| all | mask)
    }
}
