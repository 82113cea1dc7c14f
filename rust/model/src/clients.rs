//! Document 02, L9: "Each begin names a client, 0 to 7." As whom a transaction runs, and what keeps this and the
//! rights.

use crate::faults::Fault;
use crate::layout::*;
use crate::{refuse, Model};

// ---- begin -------------------------------------------------------------------------------------

impl Model {
    /// "a client .. out of range is 3", before 4: asked after each refusal behind which a fault may have it.
    pub(crate) fn client_after(&self, refusal: u32, client: u32) -> Result<(), u32> {
        let place = match self.fault {
            Fault::ClientAfterFour => 4,
            Fault::ClientAfterEleven => 11,
            _ => 3,
        };
        let clients = match self.fault {
            Fault::ClientEightTaken => CLIENTS + 1,
            Fault::ClientSevenRefused => CLIENTS - 1,
            Fault::AnyClientTaken => u32::MAX,
            _ => CLIENTS,
        };
        let number = if self.has(Fault::ClientOutOfRangeIsNineteen) { 19 } else { 3 };
        refuse(number, refusal == place && client >= clients)
    }

    /// Any client may begin, with rights or without, as often as there are transactions; but by a fault.
    pub(crate) fn client_may_begin(&self, client: u32) -> Result<(), u32> {
        let has_right =
            || (0..self.areas.pages()).any(|page| self.areas.get(Table::Rights, right_at(client, page)) != 0);
        let runs = || (0..16).any(|t| self.active(t) && self.areas.get(Table::Clients, t as usize) == client);
        refuse(19, self.has(Fault::BeginNeedsRight) && !has_right())?;
        refuse(4, self.has(Fault::OneTransactionOfClient) && runs())
    }

    /// Refusal 11 of a begin, which notes nothing but by a fault.
    pub(crate) fn begin_refused(&mut self, t: u32, client: u32, room: Result<(), u32>) -> Result<(), u32> {
        if room.is_err() && self.has(Fault::RefusedBeginNotesClient) {
            self.note_client(t, client);
        }
        room
    }

    /// "accepted, it also notes the client beside t" (DECISIONS 91)
    pub(crate) fn note_client(&mut self, t: u32, client: u32) {
        let noted = &mut self.areas.table(Table::Clients)[t as usize];
        *noted = match self.fault {
            Fault::BeginKeepsClient => *noted,
            Fault::BeginNotesTransaction => t % CLIENTS,
            Fault::AnyClientTaken => client % CLIENTS,
            _ => client,
        };
    }
}

// ---- what keeps clients and rights -------------------------------------------------------------

impl Model {
    /// "When t ends its client word is 0 again"; rights stay (DECISIONS 92).
    pub(crate) fn end_client(&mut self, t: u32, committed: bool) {
        let [outlives, rights_end] = match committed {
            true => [Fault::ClientOutlivesCommit, Fault::RightsEndWithCommit],
            false => [Fault::ClientOutlivesAbort, Fault::RightsEndWithAbort],
        };
        if self.has(rights_end) {
            let client = self.areas.get(Table::Clients, t as usize);
            self.give_everywhere(client, NOTHING);
        }
        if !self.has(outlives) {
            self.areas.table(Table::Clients)[t as usize] = 0;
        }
    }

    /// t goes on as its client, but by a fault.
    pub(crate) fn keeps_client(&mut self, fault: Fault, t: u32) {
        if self.has(fault) {
            self.areas.table(Table::Clients)[t as usize] = 0;
        }
    }

    /// Rights stay, but by a fault.
    pub(crate) fn keeps_rights(&mut self, fault: Fault) {
        if self.has(fault) {
            self.areas.table(Table::Rights).fill(NOTHING);
        }
    }

    /// "Formatting gives nobody a right", nor does reopening; but by a fault.
    pub(crate) fn gives_nobody(&mut self, fault: Fault) {
        if self.has(fault) {
            self.give_everywhere(0, WRITING);
        }
    }

    fn give_everywhere(&mut self, client: u32, right: u32) {
        let of_client = self.areas.table(Table::Rights).iter_mut().skip(client as usize);
        of_client.step_by(CLIENTS as usize).for_each(|word| *word = right);
    }

    /// "Reopening gives all clients nothing", and so does a cut; but by a fault that keeps what stood there.
    pub(crate) fn gives_nothing(&mut self, before: &[u32], [rights, clients]: [Fault; 2]) {
        let Some((pages, records)) = self.areas.size() else { return };
        for (fault, table) in [(rights, Table::Rights), (clients, Table::Clients)] {
            if self.has(fault) {
                let range = table.range(pages, records);
                self.areas.work[range.clone()].copy_from_slice(&before[range]);
            }
        }
    }
}

// ---- refusal 1 ---------------------------------------------------------------------------------

/// Each word by itself is in range or not (DECISIONS 93), whoever is active and whatever is locked.
pub(crate) fn clients_in_range(a: &Areas, fault: Fault) -> bool {
    let active = |t: &u32| a.work[ACTIVE] & bit(*t) != 0;
    let client = |t: u32| a.get(Table::Clients, t as usize);
    let has_right = |t: u32, page: usize| {
        let right = a.get(Table::Rights, right_at(client(t), page));
        let writes = a.get(Table::Writers, page) & bit(t) != 0;
        let reads = a.get(Table::Readers, page) & bit(t) != 0;
        (!writes || right >= WRITING) && (!reads || right >= READING)
    };
    match fault {
        Fault::InactiveClientOutOfRange => (0..16).all(|t| active(&t) || client(t) == 0),
        Fault::LockWithoutRightOutOfRange => {
            (0..16).filter(active).all(|t| (0..a.pages()).all(|page| has_right(t, page)))
        }
        _ => true,
    }
}
