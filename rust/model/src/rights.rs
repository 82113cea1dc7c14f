//! Document 02, L9: "Contractors' tablets." The rights of clients: which lock needs which, and the call that changes
//! one.

use crate::faults::Fault;
use crate::layout::*;
use crate::{refuse, Answer, Model, Refusal};

// ---- refusal 19 --------------------------------------------------------------------------------

impl Model {
    /// "Errors: 19, right missing, after 4": asked after each refusal behind which a fault may have it.
    pub(crate) fn right_after(&mut self, refusal: u32, t: u32, page: usize, asked: Table) -> Result<(), Refusal> {
        let place = match self.fault {
            Fault::NineteenBeforeFour => 3,
            Fault::NineteenAfterSix => 6,
            _ => 4,
        };
        if refusal != place || self.may_lock(t, page, asked) {
            return Ok(());
        }
        if self.has(Fault::RefusedLockIsTaken) {
            *self.areas.page_table(asked, page) |= bit(t);
        }
        Err(self.right_missing(t, page, asked))
    }

    /// "A read lock needs reading, a write lock needs writing." An upgrade is a lock for writing, and what is held
    /// is asked for in vain where the right is missing (DECISIONS 92).
    fn may_lock(&self, t: u32, page: usize, asked: Table) -> bool {
        let right = self.right_of(t, page);
        let [reads, writes] =
            [Table::Readers, Table::Writers].map(|table| self.areas.get(table, page) & bit(t) != 0);
        match (self.fault, asked) {
            (Fault::RightsUntested, _) => true,
            (Fault::ReadLockUntested, Table::Readers) => true,
            (Fault::WriteLockUntested, Table::Writers) => true,
            (Fault::UpgradeUntested, Table::Writers) if reads => true,
            (Fault::HeldLockUntested, Table::Readers) if reads || writes => true,
            (Fault::HeldLockUntested, Table::Writers) if writes => true,
            (Fault::WriterReadsUntested, Table::Readers) if writes => true,
            (Fault::WriterReadsAsWriter, Table::Readers) if writes => right >= WRITING,
            (Fault::UpgradeNeedsReading, Table::Writers) if reads => right >= READING,
            (Fault::WriteLockNeedsReading, _) => right >= READING,
            (Fault::ReadLockNeedsWriting, _) => right >= WRITING,
            (Fault::ReadLockNeedsNoMore, Table::Readers) => right == READING,
            (_, Table::Writers) => right >= WRITING,
            _ => right >= READING,
        }
    }

    /// A client without the right is not told who has the page (DECISIONS 91).
    fn right_missing(&self, t: u32, page: usize, asked: Table) -> Refusal {
        let number = match self.fault {
            Fault::MissingRightIsFive => 5,
            Fault::MissingRightIsSix => 6,
            _ => 19,
        };
        let value = match self.fault {
            Fault::NineteenTellsHolder => self.holder(t, page, asked),
            Fault::NineteenTellsClient => self.areas.get(Table::Clients, t as usize),
            Fault::NineteenTellsRight => {
                if asked == Table::Writers {
                    WRITING
                } else {
                    READING
                }
            }
            _ => 0,
        };
        Refusal { number, value }
    }

    // ---- the table ------------------------------------------------------------------------

    /// The right of t's client on a page.
    pub(crate) fn right_of(&self, t: u32, page: usize) -> u32 {
        let noted = self.areas.get(Table::Clients, t as usize);
        let client = match self.fault {
            Fault::AllAreClientZero => 0,
            Fault::TransactionForClient => t % CLIENTS,
            Fault::RightOfNextClient => (noted + 1) % CLIENTS,
            _ => noted,
        };
        let pages = self.areas.pages();
        match self.fault {
            Fault::RightOfAnyClient => self.highest_right(page),
            Fault::RightOnAnyPage => (0..pages).map(|page| self.right(client, page)).max().unwrap_or(NOTHING),
            Fault::RightOfNextPage => self.right(client, (page + 1) % pages),
            _ => self.right(client, page),
        }
    }

    /// "A table gives each client, for each page, 0 nothing, 1 reading, or 2 reading and writing".
    fn right(&self, client: u32, page: usize) -> u32 {
        self.areas.get(Table::Rights, self.right_word(client, page))
    }

    /// .. of any client on a page.
    fn highest_right(&self, page: usize) -> u32 {
        (0..CLIENTS).map(|client| self.right(client, page)).max().unwrap_or(NOTHING)
    }

    /// What a fault takes for a place, or for a client or a page, stays among the rights.
    fn right_word(&self, client: u32, page: usize) -> usize {
        let (pages, of) = (self.areas.pages(), client as usize);
        let at = match self.fault {
            Fault::RightsByClient => pages * of + page,
            Fault::RightsByEightClients => 8 * of + page,
            Fault::RightsByFour => 4 * page + of,
            Fault::RightsBySixteen => 16 * page + of,
            _ => right_at(client, page),
        };
        at % (CLIENTS as usize * pages)
    }

    fn put_right(&mut self, client: u32, page: usize, right: u32) {
        let at = self.right_word(client, page);
        self.areas.table(Table::Rights)[at] = right;
    }

    /// No other call asks for a right (DECISIONS 91), but by a fault.
    pub(crate) fn asks_right(&self, fault: Fault, t: u32, page: usize, need: u32) -> Result<(), u32> {
        refuse(19, self.has(fault) && self.right_of(t, page) < need)
    }

    /// .. of the pages that these changes are of.
    pub(crate) fn asks_rights(&self, fault: Fault, t: u32, changes: &[[u32; 6]]) -> Result<(), u32> {
        changes.iter().try_for_each(|change| self.asks_right(fault, t, page_of(change[2]), WRITING))
    }

    /// .. and "The collector needs no rights", nor does the desk: a fault asks whether any client has this one.
    pub(crate) fn somebody_may(&self, fault: Fault, page: usize, need: u32) -> bool {
        !self.has(fault) || self.highest_right(page) >= need
    }
}

// ---- grant -------------------------------------------------------------------------------------

impl Model {
    /// "a call changes one entry, only for a client without an active transaction"
    pub fn grant(&mut self, client: u32, page: u32, right: u32) -> Answer {
        match self.fault {
            Fault::GrantWhileReopening => self.checked()?,
            _ => self.ready()?,
        }
        let at = page as usize;
        if self.has(Fault::GrantFourBeforeThree) {
            self.must_rest(client, at, right)?;
        }
        self.grant_in_range(client, at, right)?;
        self.must_rest(client, at, right)?;
        if self.has(Fault::GrantNeedsRoom) {
            self.room(1)?;
        }

        let old = self.right(client, at);
        let new = if self.has(Fault::GrantOnlyRaises) { right.max(old) } else { right };
        for (client, page) in self.granted(client, at) {
            self.put_right(client, page, new);
        }
        Ok(match self.fault {
            Fault::GrantTellsRight => right,
            Fault::GrantTellsOldRight => old,
            Fault::GrantTellsCount => self.received_count(),
            _ => 0,
        })
    }

    /// Refusal 3: "a client or right out of range is 3", and so is a page.
    fn grant_in_range(&self, client: u32, page: usize, right: u32) -> Result<(), u32> {
        let clients = match self.fault {
            Fault::GrantClientEightTaken => CLIENTS + 1,
            Fault::GrantClientSevenRefused => CLIENTS - 1,
            _ => CLIENTS,
        };
        let pages = match self.fault {
            Fault::GrantPageAboveTaken => self.areas.pages() + 1,
            Fault::GrantLastPageRefused => self.areas.pages() - 1,
            _ => self.areas.pages(),
        };
        let highest = match self.fault {
            Fault::RightThreeTaken => WRITING + 1,
            Fault::RightTwoRefused => READING,
            _ => WRITING,
        };
        refuse(3, client >= clients || page >= pages || right > highest)
    }

    /// Refusal 4: "a change for a client with an active transaction is 4". What is noted beside an inactive one does
    /// not count (DECISIONS 92).
    fn must_rest(&self, client: u32, page: usize, right: u32) -> Result<(), u32> {
        let active = self.areas.work[ACTIVE];
        let of_client: u32 =
            (0..16).filter(|&t| self.areas.get(Table::Clients, t as usize) == client).map(bit).sum();
        let locks = || self.areas.get(Table::Readers, page) | self.areas.get(Table::Writers, page);
        let (runs, old) = (of_client & active != 0, self.right(client, page));
        let refused = match self.fault {
            Fault::GrantWhileActive => false,
            Fault::GrantWhileNoneActive => active != 0,
            Fault::GrantByTransactionNumber => active & bit(client) != 0,
            Fault::GrantLooksAtInactive => of_client != 0,
            Fault::GrantOverlooksFifteen => of_client & active & !bit(15) != 0,
            Fault::GrantMayRaise => runs && right <= old,
            Fault::GrantMayLower => runs && right >= old,
            Fault::GrantOfSameTaken => runs && right != old,
            Fault::GrantOfSameRefused => runs || right == old,
            Fault::GrantWhereUnlocked => of_client & active & locks() != 0,
            Fault::GrantNotInPass => runs || self.areas.work[PHASE] != NO_PASS,
            _ => runs,
        };
        refuse(if self.has(Fault::GrantActiveIsNineteen) { 19 } else { 4 }, refused)
    }

    /// The entries that a grant changes: one.
    fn granted(&self, client: u32, page: usize) -> Vec<(u32, usize)> {
        match self.fault {
            Fault::GrantIgnored => vec![],
            Fault::GrantOfNextClientToo => vec![(client, page), ((client + 1) % CLIENTS, page)],
            Fault::GrantOfNextPageToo => vec![(client, page), (client, page + 1)],
            Fault::GrantOfAllClients => (0..CLIENTS).map(|client| (client, page)).collect(),
            Fault::GrantOfAllPages => (0..self.areas.pages()).map(|page| (client, page)).collect(),
            _ => vec![(client, page)],
        }
    }
}
