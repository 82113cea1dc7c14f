//! Document 02, L3: "Marks inside a long job."

use crate::faults::Fault;
use crate::layout::*;
use crate::old::OF_BACK;
use crate::recover::take_effect;
use crate::{clear_bit, refuse, Answer, Model};

impl Model {
    /// "A transaction may set marks 0 to 3, and set one again". A mark keeps how many changes were
    /// left, and its place behind t's other marks: two may be set with no record between them.
    pub fn mark(&mut self, t: u32, mark: u32) -> Answer {
        self.ready()?;
        self.transaction(t)?;
        self.mark_number(mark)?;
        self.must_be_active(t)?;

        let again = self.place(t, mark) != 0;
        let left = self.changes_left(t).len() as u32;
        if !(again && self.has(Fault::MarkAgainKeepsNumber)) {
            let more = u32::from(self.has(Fault::MarkCountsOneMore));
            *self.by_mark(Table::LeftAtMarks, t, mark) = left + more;
        }
        if !(again && self.has(Fault::MarkAgainKeepsPlace)) {
            self.put_last(t, mark);
        }
        self.keeps_client(Fault::ClientEndsWithMark, t);
        Ok(if self.has(Fault::MarkTellsChanges) { left } else { 0 })
    }

    /// "Going back appends undoing records, newest first, for its creates and sets since that mark
    /// that are not yet undone, drops marks set after this one and keeps it."
    pub fn back(&mut self, t: u32, mark: u32) -> Answer {
        self.ready()?;
        self.transaction(t)?;
        self.mark_number(mark)?;
        if self.has(Fault::SixteenBeforeFour) {
            self.must_be_set(t, mark)?;
        }
        self.must_be_active(t)?;
        let undone = self.changes_since(t, mark);
        if self.has(Fault::ElevenBeforeSixteen) {
            self.room_to_undo(undone.len())?;
        }
        self.must_be_set(t, mark)?;
        self.room_to_undo(undone.len())?;
        self.asks_rights(Fault::BackTestsRight, t, &undone)?;

        for change in self.undone(undone, OF_BACK)? {
            self.take_back(t, change);
            self.touch_what_is_kept(t, change);
        }
        self.drop_marks_after(t, mark);
        self.keeps_client(Fault::ClientEndsWithBack, t);
        Ok(if self.has(Fault::BackTellsCount) { self.received_count() } else { 0 })
    }

    // ---- refusals -------------------------------------------------------------------------

    /// Refusal 3: "a mark above 3 is 3".
    fn mark_number(&self, mark: u32) -> Result<(), u32> {
        let marks = if self.has(Fault::MarkFourTaken) { MARKS + 1 } else { MARKS };
        refuse(3, mark >= marks)
    }

    /// "Errors: 16, mark not set, after 4".
    fn must_be_set(&self, t: u32, mark: u32) -> Result<(), u32> {
        refuse(16, self.place(t, mark) == 0 && !self.has(Fault::BackToUnsetTaken))
    }

    /// "the undoing uses the reserve": refusal 11 only where calls do not lead (DECISIONS 71).
    fn room_to_undo(&self, undoing: usize) -> Result<(), u32> {
        match self.fault {
            Fault::BackNeedsRoom => self.room(undoing),
            Fault::BackRoomByReserve => self.room(0),
            _ => refuse(11, self.areas.received_count() + undoing > self.areas.records()),
        }
    }

    // ---- which changes are left -----------------------------------------------------------

    /// The creates and sets of t that are not undone, in log order: what t reserves records for,
    /// what a mark counts, what going back and an abort undo. "Its records are those after its last
    /// begin in the received log; without one it has none."
    pub(crate) fn changes_left(&self, t: u32) -> Vec<[u32; 6]> {
        self.left_of(self.last_records_of(t))
    }

    /// .. but with this fault the undone ones too.
    pub(crate) fn changes_unless(&self, fault: Fault, t: u32) -> Vec<[u32; 6]> {
        if !self.has(fault) {
            return self.changes_left(t);
        }
        let changes = self.last_records_of(t).into_iter().filter(|&i| !self.undoes(i, &[]));
        changes.map(|i| self.areas.record(i)).filter(is_change).collect()
    }

    /// "The reserve counts only records not undone".
    pub(crate) fn changes_reserved(&self, t: u32) -> usize {
        let mut changes = self.changes_unless(Fault::UndoneStillReserved, t);
        match self.fault {
            Fault::SetsReserveNothing => changes.retain(|record| record[0] != 3),
            Fault::ReserveOfEarlierBegins => changes = self.left_of(self.all_records_of(t)),
            _ => {}
        }
        changes.len()
    }

    /// Undoing is last in, first out: an undoing record takes away the newest change left, so that
    /// one word tells enough (DECISIONS 72).
    fn left_of(&self, records: Vec<usize>) -> Vec<[u32; 6]> {
        let mut left = Vec::new();
        for i in records {
            let record = self.areas.record(i);
            if self.undoes(i, &left) {
                left.pop();
            } else if is_change(&record) {
                left.push(record);
            }
        }
        left
    }

    /// Going back appended record i. By its look alone it might be a set that the crew made by hand.
    fn undoes(&self, i: usize, left: &[[u32; 6]]) -> bool {
        let record = self.areas.record(i);
        let noted = self.areas.get(Table::Undoing, i) != 0;
        match self.fault {
            Fault::UndoneByShape => left.last().is_some_and(|&newest| record == self.undoing_record(newest)),
            Fault::UndoingCountsAnywhere => noted,
            _ => noted && matches!(record[0], 2 | 3 | 6),
        }
    }

    /// The numbers of t's records from its last begin on; a sweep is nobody's.
    fn last_records_of(&self, t: u32) -> Vec<usize> {
        let records = self.all_records_of(t);
        match records.iter().rposition(|&i| self.areas.record(i)[0] == 1) {
            Some(begin) => records[begin..].to_vec(),
            None if self.has(Fault::ChangesWithoutBegin) => {
                (0..self.areas.received_count()).filter(|&i| self.is_of(i, t)).collect()
            }
            None => Vec::new(),
        }
    }

    /// .. and from its first one on.
    fn all_records_of(&self, t: u32) -> Vec<usize> {
        let of_t = (0..self.areas.received_count()).filter(|&i| self.is_of(i, t));
        of_t.skip_while(|&i| self.areas.record(i)[0] != 1).collect()
    }

    fn is_of(&self, i: usize, t: u32) -> bool {
        let [kind, of, ..] = self.areas.record(i);
        kind != 7 && of == t
    }

    /// What is left of the changes since the mark, newest first; none where fewer are left than the
    /// mark counted, which no calls lead to.
    fn changes_since(&self, t: u32, mark: u32) -> Vec<[u32; 6]> {
        let changes = self.changes_unless(Fault::BackUndoesAgain, t);
        let counted = match self.fault {
            Fault::BackUndoesAll => 0,
            _ => self.areas.get(Table::LeftAtMarks, self.mark_word(t, mark)) as usize,
        };
        let mut since = changes.get(counted..).unwrap_or_default().to_vec();
        if !self.has(Fault::BackOldestFirst) {
            since.reverse();
        }
        since
    }

    // ---- going back -----------------------------------------------------------------------

    /// One change undone by the record that an abort appends, and noted as undone. "Objects so
    /// uncreated are no longer known. Pages touched need flushing again."
    fn take_back(&mut self, t: u32, change: [u32; 6]) {
        let [kind, _, object, ..] = change;
        self.receive_undoing(self.undoing_record(change));
        if !self.has(Fault::BackLeavesFlushed) {
            *self.areas.page_table(Table::Unflushed, page_of(object)) |= bit(t);
        }
        if kind == 2 && !self.has(Fault::UncreatedStaysKnown) {
            let forgetting = if self.has(Fault::UncreatedUnknownToAll) { u32::MAX } else { bit(t) };
            *self.areas.object_table(Table::Known, object) &= !forgetting;
        }
    }

    fn receive_undoing(&mut self, record: [u32; 6]) {
        let i = self.areas.received_count();
        match self.fault {
            Fault::BackUnlogged => return take_effect(&mut self.areas.received, record),
            Fault::BackWithoutEffect => self.append(record),
            _ => self.receive(record),
        }
        if !self.has(Fault::UndoingNotNoted) {
            self.areas.table(Table::Undoing)[i] = 1;
        }
    }

    /// "PRT entries, COT entries and locks are kept, none are added", and copies wait for the flush:
    /// these are the faults that do otherwise.
    fn touch_what_is_kept(&mut self, t: u32, [kind, _, object, field, old, new]: [u32; 6]) {
        let page = page_of(object);
        let cut = kind == 3 && field < 4 && new != 0 && new != old;
        match self.fault {
            Fault::BackDropsPrt => clear_bit(self.areas.table(Table::Pruned), t),
            Fault::BackAddsToPrt if cut => *self.areas.object_table(Table::Pruned, new) |= bit(t),
            Fault::BackDropsCot if kind == 2 => *self.areas.object_table(Table::Created, object) &= !bit(t),
            Fault::BackGivesUpLocks => *self.areas.page_table(Table::Writers, page) &= !bit(t),
            Fault::BackRestoresCopies => {
                let received = self.areas.received[page_range(page)].to_vec();
                self.areas.copies[page_range(page)].copy_from_slice(&received);
            }
            _ => {}
        }
    }

    // ---- the order of marks ---------------------------------------------------------------

    /// The mark becomes the last of t's: those behind it move up, and it goes behind all that are
    /// set (DECISIONS 73).
    fn put_last(&mut self, t: u32, mark: u32) {
        let own = self.place(t, mark);
        let mut last = 0;
        for other in (0..MARKS).filter(|&other| other != mark) {
            let place = self.by_mark(Table::MarkOrder, t, other);
            if own != 0 && *place > own {
                *place -= 1;
            }
            let place = *place;
            last = match self.fault {
                Fault::MarkBehindHighest => last.max(place),
                _ => last + u32::from(place != 0),
            };
        }
        *self.by_mark(Table::MarkOrder, t, mark) = last + 1;
    }

    /// "drops marks set after this one and keeps it"
    fn drop_marks_after(&mut self, t: u32, mark: u32) {
        let own = self.place(t, mark);
        for other in 0..MARKS {
            let dropped = match self.fault {
                Fault::BackKeepsLaterMarks => false,
                Fault::BackDropsItsMark => self.place(t, other) >= own,
                Fault::BackDropsEarlierMarks => other != mark,
                _ => self.place(t, other) > own,
            };
            if dropped {
                self.drop_mark(t, other);
            }
        }
    }

    /// "they end with it"
    pub(crate) fn end_marks(&mut self, t: u32) {
        if !self.has(Fault::MarksOutliveTransaction) {
            (0..MARKS).for_each(|mark| self.drop_mark(t, mark));
        }
    }

    fn drop_mark(&mut self, t: u32, mark: u32) {
        for table in [Table::LeftAtMarks, Table::MarkOrder] {
            *self.by_mark(table, t, mark) = 0;
        }
    }

    /// 0 where the mark is not set.
    fn place(&self, t: u32, mark: u32) -> u32 {
        self.areas.get(Table::MarkOrder, self.mark_word(t, mark))
    }

    fn by_mark(&mut self, table: Table, t: u32, mark: u32) -> &mut u32 {
        let at = self.mark_word(t, mark);
        &mut self.areas.table(table)[at]
    }

    fn mark_word(&self, t: u32, mark: u32) -> usize {
        mark_at(if self.has(Fault::MarksShared) { 0 } else { t }, mark)
    }
}

/// A create or a set.
fn is_change(record: &[u32; 6]) -> bool {
    matches!(record[0], 2 | 3)
}
