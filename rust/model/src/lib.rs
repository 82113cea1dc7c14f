//! Document 01's page server and collector, and document 02's L1 to L9, over the same lent words as
//! the proved library.
//!
//! Written from documents 01 and 02, docs/LAYOUT.md and docs/DECISIONS.md, not from the library's source.
//! Each call tests its refusals in the order of the refusal table, then acts; `?` leaves the call
//! at the first refusal. The fault switch is the tests' own: with [`Fault::None`] this is the model.

mod chain;
mod clients;
mod columns;
pub mod faults;
mod holder;
pub mod layout;
mod marks;
mod old;
mod own;
mod readers;
pub mod recover;
mod rights;
mod share;
pub mod sound;
mod sweep;
mod whole;

pub use columns::{from_columns, to_columns};
pub use faults::Fault;
use layout::*;
use old::{names_itself, OF_ABORT};
use own::Set;
use recover::{recovered, take_effect};
use sound::in_range;
pub use whole::whole;

/// The value of an accepted call, or the refusal.
pub type Answer = Result<u32, Refusal>;

#[derive(Clone, Copy, PartialEq, Eq, Debug)]
pub struct Refusal {
    pub number: u32,
    pub value: u32,
}

/// "a refusal's value is 0", but that of 6 (document 02, L2).
impl From<u32> for Refusal {
    fn from(number: u32) -> Refusal {
        Refusal { number, value: 0 }
    }
}

/// An answer as the library's C functions give it: answer number x 2^32 + value.
pub fn coded(answer: Answer) -> u64 {
    match answer {
        Ok(value) => u64::from(value),
        Err(Refusal { number, value }) => u64::from(number) << 32 | u64::from(value),
    }
}

#[derive(Clone)]
pub struct Model {
    pub areas: Areas,
    pub fault: Fault,
}

impl Model {
    /// A store of zeros, not yet formatted.
    pub fn new(pages: usize, records: usize) -> Model {
        Model { areas: Areas::zeros(pages, records), fault: Fault::None }
    }

    fn has(&self, fault: Fault) -> bool {
        self.fault == fault
    }

    // ---- refusals -------------------------------------------------------------------------

    /// Refusal 1, lengths alone: what format and reopen check.
    fn lengths(&self) -> Result<(usize, usize), u32> {
        if self.has(Fault::CountsOfThreeTaken) && self.areas.counts.len() == 3 {
            let mut a = self.areas.clone();
            a.counts.pop();
            return a.size().ok_or(1);
        }
        self.areas.size().ok_or(1)
    }

    /// Refusal 1: "a length differs, or a working word is out of range (format and reopen check
    /// lengths only; so does every call while the reopening word is 0, as a cut leaves it)".
    fn checked(&self) -> Result<(), u32> {
        let (pages, records) = self.lengths()?;
        if self.areas.work[REOPENING] != 0 && !in_range(&self.areas, pages, records, self.fault) {
            return Err(1);
        }
        Ok(())
    }

    /// Refusals 1 and 2.
    fn ready(&self) -> Result<(), u32> {
        self.checked()?;
        let word = self.areas.work[REOPENING];
        if word != 2 && !(self.has(Fault::CallsWhileReopening) && word == 1) {
            return Err(2);
        }
        if self.has(Fault::RefusesAllCalls) {
            return Err(2);
        }
        Ok(())
    }

    fn transaction(&self, t: u32) -> Result<(), u32> {
        refuse(3, t > 15)
    }

    fn page(&self, page: u32) -> Result<(), u32> {
        refuse(3, page as usize >= self.areas.pages())
    }

    fn object(&self, object: u32) -> Result<(), u32> {
        refuse(3, object == 0 || object > self.areas.objects())
    }

    fn active(&self, t: u32) -> bool {
        self.areas.work[ACTIVE] & bit(t) != 0
    }

    fn must_be_active(&self, t: u32) -> Result<(), u32> {
        refuse(4, !self.active(t))
    }

    /// Refusal 5 where t has neither lock on the page.
    fn either_lock(&self, t: u32, page: usize) -> Result<(), Refusal> {
        if self.has(Fault::ReadRightForLock) {
            return Ok(self.asks_right(Fault::ReadRightForLock, t, page, READING)?);
        }
        let locks = self.areas.get(Table::Readers, page) | self.areas.get(Table::Writers, page);
        self.must_have(t, page, locks)
    }

    fn write_lock(&self, t: u32, page: usize) -> Result<(), Refusal> {
        if self.has(Fault::WriteRightForLock) {
            return Ok(self.asks_right(Fault::WriteRightForLock, t, page, WRITING)?);
        }
        let mut locks = self.areas.get(Table::Writers, page);
        if self.has(Fault::WritesUnderReadLock) {
            locks |= self.areas.get(Table::Readers, page);
        }
        self.must_have(t, page, locks)
    }

    fn knows(&self, t: u32, object: u32) -> bool {
        (1..=self.areas.objects()).contains(&object) && self.areas.by_object(Table::Known, object) & bit(t) != 0
    }

    /// Refusal 11: `need` records beyond used and reserved.
    pub fn room(&self, need: usize) -> Result<(), u32> {
        refuse(11, self.areas.received_count() + self.reserved() + need > self.areas.records())
    }

    // ---- the log --------------------------------------------------------------------------

    /// "each active transaction reserves 1 record plus 1 for each of its creates and sets"
    fn reserved(&self) -> usize {
        (0..16).filter(|&t| self.active(t)).map(|t| 1 + self.changes_reserved(t)).sum()
    }

    /// The undoing record of a create or set: a function of the record alone (DECISIONS 23).
    fn undoing_record(&self, [kind, t, object, field, old, new]: [u32; 6]) -> [u32; 6] {
        match kind {
            2 => [6, t, object, 0, 0, 0],
            _ if self.has(Fault::UndoingTakesOldFromPage) => {
                let shown = self.areas.received[word_at(object, field as usize)];
                [3, t, object, field, shown, old]
            }
            _ => [3, t, object, field, new, old],
        }
    }

    fn append(&mut self, record: [u32; 6]) {
        let i = self.areas.received_count();
        self.areas.log[RECORD_WORDS * i..][..RECORD_WORDS].copy_from_slice(&record);
        self.areas.counts[RECEIVED_COUNT] += 1;
        if self.has(Fault::AppendClearsUndoing) {
            self.areas.table(Table::Undoing)[i] = 0;
        }
    }

    /// A record is received: it stands in the log and "received pages show the effect of every
    /// received record".
    fn receive(&mut self, record: [u32; 6]) {
        self.append(record);
        take_effect(&mut self.areas.received, record);
    }

    fn received_count(&self) -> u32 {
        self.areas.counts[RECEIVED_COUNT]
    }

    /// The number (from 1) of the last received record that names the page, or 0.
    fn last_naming(&self, page: usize) -> u32 {
        let names = |[kind, _, object, ..]: [u32; 6]| match kind {
            2 | 3 | 6 => page_of(object) == page,
            7 => object as usize == page && !self.has(Fault::StoreForgetsSweeps),
            _ => false,
        };
        (0..self.areas.received_count()).rev().find(|&i| names(self.areas.record(i))).map_or(0, |i| i as u32 + 1)
    }

    // ---- formatting -----------------------------------------------------------------------

    /// "formatting makes it [the root], all words 0, and no other object, in all three page areas,
    /// with both log counts and all log words 0 and the working tables clear but for a reopening
    /// word of 2"
    pub fn format(&mut self) -> Answer {
        self.lengths()?;
        let a = &mut self.areas;
        for area in [&mut a.stored, &mut a.copies, &mut a.received] {
            area.fill(0);
            area[0] = 1;
        }
        if self.fault != Fault::FormatKeepsLog {
            a.log.fill(0);
        }
        a.counts.fill(0);
        a.work.fill(0);
        a.work[REOPENING] = 2;
        self.gives_nobody(Fault::FormatGivesClientZero);
        Ok(0)
    }

    // ---- transactions ---------------------------------------------------------------------

    /// "Each begin names a client, 0 to 7." (document 02, L9)
    pub fn begin(&mut self, t: u32, client: u32) -> Answer {
        self.ready()?;
        self.transaction(t)?;
        self.client_after(3, client)?;
        refuse(4, self.active(t))?;
        self.client_after(4, client)?;
        self.client_may_begin(client)?;
        let room = self.room(if self.has(Fault::BeginLeavesNoRoomToAbort) { 1 } else { 2 });
        self.begin_refused(t, client, room)?;
        self.client_after(11, client)?;

        self.append([1, t, 0, 0, 0, 0]);
        self.areas.work[ACTIVE] |= bit(t);
        // "At begin t knows the root only."
        if !self.has(Fault::BeginKeepsKnown) {
            clear_bit(self.areas.table(Table::Known), t);
        }
        *self.areas.object_table(Table::Known, ROOT) |= bit(t);
        if self.has(Fault::BeginDropsMarks) {
            self.end_marks(t);
        }
        self.note_client(t, client);
        Ok(self.received_count())
    }

    pub fn commit(&mut self, t: u32) -> Answer {
        self.ready()?;
        self.transaction(t)?;
        self.must_be_active(t)?;
        // "Commit: refused while a page has records of t not flushed."
        let unflushed = self.areas.table(Table::Unflushed).iter().any(|w| w & bit(t) != 0);
        refuse(10, unflushed && !self.has(Fault::CommitsUnflushed))?;
        refuse(11, self.areas.received_count() + 1 > self.areas.records())?;
        if self.has(Fault::CommitRoomByReserve) {
            self.room(0)?;
        }

        self.append([4, t, 0, 0, 0, 0]);
        self.end(t, true);
        Ok(self.received_count())
    }

    /// "Abort: appends, newest first, the undoing record of each create and set of t, then kind 5;
    /// copies of t's write-locked pages become the received pages. It adds nothing to the PRT." Of
    /// records not undone "an abort undoes only those" (document 02, L3).
    pub fn abort(&mut self, t: u32) -> Answer {
        self.ready()?;
        self.transaction(t)?;
        self.must_be_active(t)?;
        let mut changes = self.changes_unless(Fault::AbortUndoesAgain, t);
        refuse(11, self.areas.received_count() + changes.len() + 1 > self.areas.records())?;
        self.asks_rights(Fault::AbortTestsRight, t, &changes)?;

        if !self.has(Fault::AbortsOldestFirst) {
            changes.reverse();
        }
        for change in self.undone(changes, OF_ABORT)? {
            let i = self.areas.received_count();
            self.receive(self.undoing_record(change));
            if self.has(Fault::AbortNotesUndoing) {
                self.areas.table(Table::Undoing)[i] = 1;
            }
            let [kind, _, _, field, old, new] = change;
            if self.has(Fault::AbortAddsToPrt) && kind == 3 && field < 4 && new != 0 && new != old {
                *self.areas.object_table(Table::Pruned, new) |= bit(t);
            }
        }
        self.append([5, t, 0, 0, 0, 0]);
        for page in 0..self.areas.pages() {
            let written = self.areas.get(Table::Writers, page) & bit(t) != 0;
            if written && !self.has(Fault::AbortLeavesCopies) {
                let received = self.areas.received[page_range(page)].to_vec();
                self.areas.copies[page_range(page)].copy_from_slice(&received);
            }
        }
        self.end(t, false);
        Ok(self.received_count())
    }

    /// "Locks fall at commit or abort." "Entries of an ended transaction go when it ends if no pass
    /// runs; otherwise they are flagged and go when the next pass begins."
    fn end(&mut self, t: u32, committed: bool) {
        let pass_runs = self.areas.work[PHASE] != NO_PASS;
        self.areas.work[ACTIVE] &= !bit(t);
        let mut cleared = vec![Table::Readers, Table::Writers, Table::Unflushed];
        if !self.has(Fault::EndKeepsKnown) {
            cleared.push(Table::Known);
        }
        if self.has(Fault::AbortKeepsReadLocks) && !committed {
            cleared.remove(0);
        }
        for table in cleared {
            clear_bit(self.areas.table(table), t);
        }
        self.end_marks(t);
        self.end_client(t, committed);
        for table in [Table::Pruned, Table::Created] {
            let dropped = committed
                && match table {
                    Table::Pruned => self.has(Fault::PrtDroppedAtCommitInPass),
                    _ => self.has(Fault::CotDroppedAtCommitInPass),
                };
            for word in self.areas.table(table) {
                if *word & bit(t) != 0 {
                    *word &= !bit(t);
                    if pass_runs && !dropped {
                        *word |= FLAG;
                    }
                }
            }
        }
    }

    // ---- locks ----------------------------------------------------------------------------

    pub fn lock_read(&mut self, t: u32, page: u32) -> Answer {
        self.ready()?;
        self.transaction(t)?;
        self.page(page)?;
        let page = page as usize;
        self.right_after(3, t, page, Table::Readers)?;
        self.must_be_active(t)?;
        self.right_after(4, t, page, Table::Readers)?;
        self.not_held(t, page, Table::Readers, self.areas.get(Table::Writers, page))?;
        self.right_after(6, t, page, Table::Readers)?;

        // "a writer that asks to read stays the writer"
        if self.has(Fault::WriterThatReadsBecomesReader) {
            *self.areas.page_table(Table::Writers, page) &= !bit(t);
        }
        if self.areas.get(Table::Writers, page) & bit(t) == 0 {
            *self.areas.page_table(Table::Readers, page) |= bit(t);
        }
        Ok(0)
    }

    pub fn lock_write(&mut self, t: u32, page: u32) -> Answer {
        self.ready()?;
        self.transaction(t)?;
        self.page(page)?;
        let page = page as usize;
        self.right_after(3, t, page, Table::Writers)?;
        self.must_be_active(t)?;
        self.right_after(4, t, page, Table::Writers)?;
        // "A writer excludes all others; a sole reader may become the writer"
        let mut locks = self.areas.get(Table::Writers, page);
        if !self.has(Fault::WriterBesideReaders) {
            locks |= self.areas.get(Table::Readers, page);
        }
        let held = self.areas.get(Table::Writers, page) & bit(t) != 0;
        if !(self.has(Fault::HeldBeforeOthers) && held) {
            self.not_held(t, page, Table::Writers, locks)?;
        }
        self.right_after(6, t, page, Table::Writers)?;

        // Becoming the writer clears the reader's bit (DECISIONS 16), also where both bits were set,
        // which no calls lead to; document 01 and DECISIONS leave that case open.
        if !(held && self.has(Fault::HeldLockKeepsReader)) {
            if !self.has(Fault::UpgradeKeepsReaderBit) {
                *self.areas.page_table(Table::Readers, page) &= !bit(t);
            }
            *self.areas.page_table(Table::Writers, page) |= bit(t);
        }
        Ok(0)
    }

    // ---- objects --------------------------------------------------------------------------

    /// "Read a known object under either lock: gives its eight received words; the references
    /// other than 0 become known."
    pub fn read(&mut self, buffer: &mut [u32], t: u32, object: u32) -> Answer {
        refuse(1, buffer.len() < 8 || (buffer.len() > 8 && !self.has(Fault::LongBufferTaken)))?;
        if self.has(Fault::RefusedReadClearsBuffer) {
            buffer.fill(0);
        }
        self.ready()?;
        self.transaction(t)?;
        self.object(object)?;
        self.must_be_active(t)?;
        if self.has(Fault::KnownBeforeLock) {
            refuse(7, !self.knows(t, object))?;
        }
        let page = page_of(object);
        self.asks_right(Fault::ReadRightBeforeLock, t, page, READING)?;
        self.either_lock(t, page)?;
        self.asks_right(Fault::ReadTestsRight, t, page, READING)?;
        refuse(7, !self.knows(t, object))?;

        let shown = if self.has(Fault::ReadsCopies) { &self.areas.copies } else { &self.areas.received };
        let words: [u32; 8] = shown[word_at(object, 0)..][..8].try_into().unwrap();
        let learnt = match self.fault {
            Fault::ReadTeachesNothing => 0,
            Fault::ReadTeachesThree => 3,
            _ => 4,
        };
        let (words, learnt) = self.shown_of(object, words, learnt)?;
        for &reference in &words[..learnt] {
            if reference != 0 {
                *self.areas.object_table(Table::Known, reference) |= bit(t);
            }
        }
        buffer[..8].copy_from_slice(&words);
        if self.has(Fault::ReadShowsZeros) {
            buffer.fill(0);
        }
        Ok(buffer[0])
    }

    /// "Create a named object in a free slot under the write lock; t knows it and the COT gains it
    /// for t."
    pub fn create(&mut self, t: u32, object: u32) -> Answer {
        self.ready()?;
        self.transaction(t)?;
        self.object(object)?;
        self.must_be_active(t)?;
        let page = page_of(object);
        self.write_lock(t, page)?;
        self.asks_right(Fault::CreateTestsRight, t, page, WRITING)?;
        let shown = if self.has(Fault::CreateLooksAtCopies) { &self.areas.copies } else { &self.areas.received };
        refuse(8, occupied(shown, object))?;
        self.room(2)?;

        self.receive([2, t, object, 0, 0, 0]);
        *self.areas.page_table(Table::Unflushed, page) |= bit(t);
        if !self.has(Fault::CreatorDoesNotKnow) {
            *self.areas.object_table(Table::Known, object) |= bit(t);
        }
        if !self.has(Fault::CreateMakesNoCotEntry) {
            *self.areas.object_table(Table::Created, object) |= bit(t);
        }
        Ok(self.received_count())
    }

    /// "Set a word of a known object under the write lock. A reference written must be 0 or known.
    /// If an old reference other than 0 changes, the PRT gains the old target for t." An own number
    /// is refused (document 02, L8).
    pub fn set_word(&mut self, t: u32, object: u32, field: u32, word: u32) -> Answer {
        let set = Set { t, object, field, word };
        self.ready()?;
        self.transaction(t)?;
        self.object(object)?;
        refuse(3, field > 7)?;
        self.must_be_active(t)?;
        self.not_own_after(4, set)?;
        let page = page_of(object);
        self.write_lock(t, page)?;
        self.asks_right(Fault::SetTestsRight, t, page, WRITING)?;
        self.not_own_after(5, set)?;
        self.must_know(set)?;
        self.not_own_after(7, set)?;
        self.room(2)?;
        self.not_own_after(11, set)?;

        let shown = if self.has(Fault::SetTakesOldFromCopies) { &self.areas.copies } else { &self.areas.received };
        let old = shown[word_at(object, field as usize)];
        self.receive([3, t, object, field, old, word]);
        if !(self.has(Fault::SameWordNeedsNoFlush) && old == word) {
            *self.areas.page_table(Table::Unflushed, page) |= bit(t);
        }
        let changes = old != word || self.has(Fault::PrtGainsUnchanged);
        if field < 4 && old != 0 && changes {
            self.prune_old(set, old);
        }
        Ok(self.received_count())
    }

    /// Refusal 7 of a set: "object or written reference not known to t".
    fn must_know(&self, Set { t, object, field, word }: Set) -> Result<(), u32> {
        refuse(7, !self.knows(t, object))?;
        refuse(7, self.has(Fault::SetOfFreeSlotRefused) && !occupied(&self.areas.received, object))?;
        let exists = || word <= self.areas.objects() && occupied(&self.areas.received, word);
        let may_write = word == 0 || self.knows(t, word) || (self.has(Fault::WritesAnyExistingObject) && exists());
        refuse(7, field < 4 && !may_write)
    }

    /// A PRT entry of t. "A PRT entry made while marking turns a white target grey."
    fn prune(&mut self, t: u32, target: u32) {
        let new_entry = self.areas.by_object(Table::Pruned, target) & bit(t) == 0;
        *self.areas.object_table(Table::Pruned, target) |= bit(t);
        let greys = match self.fault {
            Fault::PrunedStaysWhite => false,
            Fault::GreyForNewEntriesOnly if !new_entry => false,
            Fault::PrunedGreyInSweepToo => self.areas.work[PHASE] != NO_PASS,
            _ => self.areas.work[PHASE] == MARKING,
        };
        let again = self.has(Fault::PrunedScannedAgain);
        if greys && (again || self.areas.by_object(Table::Colours, target) == WHITE) {
            *self.areas.object_table(Table::Colours, target) = GREY;
        }
    }

    /// "Flush a page under the write lock"; "the flush compares only the slots occupied in the
    /// received page .. and the copy takes the received page" (document 02, L6).
    pub fn flush(&mut self, image: &[u32], t: u32, page: u32) -> Answer {
        if self.has(Fault::ImageLengthAfterTwo) {
            self.ready()?;
        }
        self.image_length(image.len(), page)?;
        self.ready()?;
        self.transaction(t)?;
        self.page(page)?;
        self.must_be_active(t)?;
        let page = page as usize;
        if self.has(Fault::NineBeforeFive) {
            self.image_agrees(image, page)?;
        }
        self.write_lock(t, page)?;
        self.asks_right(Fault::FlushTestsRight, t, page, WRITING)?;
        self.image_agrees(image, page)?;
        self.flushes_own(page)?;

        self.take_copy(image, page);
        self.clear_copied(Fault::FlushClearsOwn, Area::Copies, page);
        let flushed = if self.has(Fault::FlushedForAll) { u32::MAX } else { bit(t) };
        *self.areas.page_table(Table::Unflushed, page) &= !flushed;
        self.keeps_client(Fault::ClientEndsWithFlush, t);
        Ok(0)
    }

    // ---- stable storage -------------------------------------------------------------------

    /// "Force makes one more record stable."
    pub fn force(&mut self) -> Answer {
        self.ready()?;
        let [received, stable] = [RECEIVED_COUNT, STABLE_COUNT].map(|i| self.areas.counts[i]);
        refuse(4, stable == received)?;
        self.areas.counts[STABLE_COUNT] = if self.has(Fault::ForceMakesAllStable) { received } else { stable + 1 };
        Ok(self.areas.counts[STABLE_COUNT])
    }

    /// "Store page writes one copy to the stored pages. .. the last record that names it must be
    /// stable first."
    pub fn store_page(&mut self, page: u32) -> Answer {
        self.ready()?;
        self.page(page)?;
        let page = page as usize;
        let stable = self.areas.counts[STABLE_COUNT];
        refuse(12, self.last_naming(page) > stable && !self.has(Fault::StoresUnforced))?;
        refuse(19, !self.somebody_may(Fault::StoreNeedsRight, page, WRITING))?;
        let shown = if self.has(Fault::StoresReceived) { &self.areas.received } else { &self.areas.copies };
        let words = shown[page_range(page)].to_vec();
        self.areas.stored[page_range(page)].copy_from_slice(&words);
        self.clear_copied(Fault::StoreClearsOwn, Area::Stored, page);
        Ok(0)
    }

    /// "Empty log sets both counts to 0." Refusal 13: "emptying with an active transaction, an
    /// unstable record, or a copy unlike its stored page".
    pub fn empty_log(&mut self) -> Answer {
        self.ready()?;
        let a = &mut self.areas;
        let unlike = a.copies != a.stored && self.fault != Fault::EmptiesUnstored;
        refuse(13, a.work[ACTIVE] != 0 || a.received_count() != a.stable_count() || unlike)?;
        a.counts.fill(0);
        // numbers of records begin again, and so does what is noted of them (DECISIONS 73)
        if self.fault != Fault::EmptyKeepsUndoing {
            a.table(Table::Undoing).fill(0);
        }
        if self.fault == Fault::EmptyClearsLogWords {
            a.log.fill(0);
        }
        self.keeps_rights(Fault::RightsEndWithEmptying);
        Ok(0)
    }

    // ---- the pass -------------------------------------------------------------------------

    /// "Start: flagged entries go; all objects turn white; the root and every PRT target turn
    /// grey."
    pub fn start_pass(&mut self) -> Answer {
        self.ready()?;
        refuse(4, self.areas.work[PHASE] != NO_PASS)?;
        if !self.has(Fault::FlaggedStayAtStart) {
            for table in [Table::Pruned, Table::Created] {
                self.areas.table(table).iter_mut().for_each(|w| *w &= !FLAG);
            }
        }
        for object in 1..=self.areas.objects() {
            let pruned = self.areas.by_object(Table::Pruned, object) != 0 && !self.has(Fault::PrunedNoRoots);
            let own = self.has(Fault::OwnNamedAreRoots) && names_itself(&self.areas.copies, object);
            let grey = object == ROOT || pruned || own;
            *self.areas.object_table(Table::Colours, object) = if grey { GREY } else { WHITE };
        }
        self.areas.work[PHASE] = MARKING;
        self.areas.work[PASS_PAGE] = 0;
        if !self.has(Fault::StartKeepsStepNumber) {
            self.areas.work[PASS_STEP] = 0;
        }
        self.keeps_rights(Fault::RightsEndWithPass);
        Ok(0)
    }

    /// "One pass step advances the pass record by one object or one page."
    pub fn pass_step(&mut self) -> Answer {
        match self.fault {
            Fault::UnreadPagesUnchecked => self.ready_if_read()?,
            _ => self.ready()?,
        }
        match self.areas.work[PHASE] {
            NO_PASS => Err(4.into()),
            MARKING => self.marking_step(),
            _ => self.sweeping_step(),
        }
    }

    /// "the lowest grey object is taken; if its slot is occupied in the copies, its white targets
    /// turn grey; it turns black. With no grey object left, a step only turns to sweeping."
    fn marking_step(&mut self) -> Answer {
        let mut taken = self.grey_object();
        if self.has(Fault::MarksAllInFirstStep) && self.areas.work[PASS_STEP] == 0 {
            let first = taken;
            while let Some(object) = taken {
                self.scan(object);
                taken = self.grey_object();
            }
            taken = first;
        } else if let Some(object) = taken {
            self.scan(object);
        }
        let counts = match self.fault {
            Fault::TurnIsNoStep => taken.is_some(),
            Fault::FreeSlotIsNoStep => taken.is_none_or(|object| occupied(&self.areas.copies, object)),
            _ => true,
        };
        if counts {
            self.count_step();
        }
        match taken {
            Some(object) => Ok(object),
            None => {
                self.areas.work[PHASE] = SWEEPING;
                self.areas.work[PASS_PAGE] = 0;
                if self.has(Fault::TurnSweepsToo) {
                    return self.sweeping_step();
                }
                Ok(0)
            }
        }
    }

    fn grey_object(&mut self) -> Option<u32> {
        let highest = self.has(Fault::HighestGreyFirst);
        let colours = self.areas.table(Table::Colours);
        let grey = |&colour: &u32| colour == GREY;
        let found = if highest { colours.iter().rposition(grey) } else { colours.iter().position(grey) };
        found.map(|i| i as u32 + 1)
    }

    fn scan(&mut self, object: u32) {
        let shown = if self.has(Fault::MarksByReceived) { &self.areas.received } else { &self.areas.copies };
        let own = names_itself(shown, object);
        let followed = self.somebody_may(Fault::MarkingNeedsRight, page_of(object), READING);
        if occupied(shown, object) && followed && !(own && self.has(Fault::MarkingSkipsOwn)) {
            let words: [u32; 4] = shown[word_at(object, 0)..][..4].try_into().unwrap();
            for target in words {
                if target != 0 && self.areas.by_object(Table::Colours, target) == WHITE && self.is_target(target) {
                    *self.areas.object_table(Table::Colours, target) = GREY;
                }
            }
        }
        let scanned = if own && self.has(Fault::OwnStaysGrey) { GREY } else { BLACK };
        *self.areas.object_table(Table::Colours, object) = scanned;
    }

    /// The step number, up to the bound that docs/LAYOUT.md gives it (DECISIONS 35).
    fn count_step(&mut self) {
        let bound = match self.fault {
            Fault::StepNumberPastBound => u32::MAX,
            _ => largest_single(PASS_STEP, self.areas.pages()),
        };
        let word = &mut self.areas.work[PASS_STEP];
        *word = word.saturating_add(1).min(bound);
    }

    // ---- reopening ------------------------------------------------------------------------

    /// "Received pages and copies both hold the result, the received count becomes the stable
    /// count, and no transaction, lock, known object, table entry or pass remains; colours are
    /// white."
    pub fn reopen(&mut self) -> Answer {
        let (pages, records) = self.lengths()?;
        // "a count above L (reopening looks at the stable one only)"
        let stable = self.areas.stable_count();
        refuse(14, stable > records)?;
        refuse(14, self.has(Fault::ReopenChecksReceivedCount) && self.areas.received_count() > records)?;
        let log: Vec<[u32; 6]> = (0..stable).map(|i| self.areas.record(i)).collect();
        let mut result = recovered(&self.areas.stored, &log, pages, self.fault).ok_or(14u32)?;
        if self.has(Fault::ReopensToFormatted) {
            result.fill(0);
            result[0] = 1;
        }
        let a = &mut self.areas;
        if self.fault != Fault::ReopenLeavesCopies {
            a.copies.copy_from_slice(&result);
        }
        a.received.copy_from_slice(&result);
        if self.fault != Fault::ReopenKeepsReceivedCount {
            a.counts[RECEIVED_COUNT] = a.counts[STABLE_COUNT];
        }
        let before = a.work.clone();
        a.work.fill(0);
        if self.fault == Fault::ReopenKeepsKnown {
            let known = Table::Known.range(pages, records);
            a.work[known.clone()].copy_from_slice(&before[known]);
        }
        if self.fault == Fault::ReopenKeepsPass {
            a.work[PHASE..=PASS_STEP].copy_from_slice(&before[PHASE..=PASS_STEP]);
        }
        a.work[REOPENING] = 1;
        self.gives_nothing(&before, [Fault::RightsOutliveReopening, Fault::ClientsOutliveReopening]);
        Ok(0)
    }

    /// "Then P steps store one page each, page 0 first, and one more step empties the log."
    pub fn reopen_step(&mut self) -> Answer {
        self.checked()?;
        refuse(2, self.has(Fault::RestepOfNoneIsTwo) && self.areas.work[REOPENING] == 0)?;
        refuse(4, self.areas.work[REOPENING] != 1)?;
        let pages = self.areas.pages();
        let page = self.areas.work[REOPENING_PAGE] as usize;
        let a = &mut self.areas;
        if page < pages {
            let shown = if self.fault == Fault::ReopenStoresReceived { &a.received } else { &a.copies };
            let copy = shown[page_range(page)].to_vec();
            if self.fault != Fault::ReopenStoresNothing {
                a.stored[page_range(page)].copy_from_slice(&copy);
            }
            a.work[REOPENING_PAGE] += 1;
            if self.fault == Fault::ReopenEndsAtLastPage && page == pages - 1 {
                self.finish_reopening();
            }
            Ok(page as u32)
        } else {
            self.finish_reopening();
            Ok(pages as u32)
        }
    }

    /// "one more step empties the log"
    fn finish_reopening(&mut self) {
        let a = &mut self.areas;
        a.counts.fill(0);
        if self.fault != Fault::ReopeningKeepsUndoing {
            a.table(Table::Undoing).fill(0);
        }
        a.work[REOPENING] = 2;
        if self.fault != Fault::ReopeningPageStays {
            a.work[REOPENING_PAGE] = 0;
        }
        self.keeps_rights(Fault::ReopeningStepClearsRights);
        self.gives_nobody(Fault::ReopeningGivesClientZero);
    }

    // ---- the power cut --------------------------------------------------------------------

    /// "A cut keeps the stored pages, the stable count and that many records; all else comes back
    /// as zeros". A stable count above L keeps the whole log (DECISIONS 32).
    pub fn cut(&mut self) {
        let a = &mut self.areas;
        let stable = a.counts.get(STABLE_COUNT).copied().unwrap_or(0);
        let kept = (stable as usize * RECORD_WORDS).min(a.log.len());
        a.log[kept..].fill(0);
        a.copies.fill(0);
        a.received.fill(0);
        let before = a.work.clone();
        a.work.fill(0);
        a.counts.fill(0);
        if let Some(word) = a.counts.get_mut(STABLE_COUNT) {
            *word = stable;
        }
        self.gives_nothing(&before, [Fault::RightsOutliveCut, Fault::ClientsOutliveCut]);
    }
}

fn refuse(number: u32, when: bool) -> Result<(), u32> {
    if when {
        Err(number)
    } else {
        Ok(())
    }
}

fn clear_bit(table: &mut [u32], t: u32) {
    for word in table {
        *word &= !bit(t);
    }
}
