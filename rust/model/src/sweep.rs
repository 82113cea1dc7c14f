//! Document 02, L7: "Sweep step in the paper's order": "colours and COT of the page, then nothing to
//! free, then the lock, then the page." The paper is source document 003.

use crate::faults::Fault;
use crate::layout::*;
use crate::old::names_itself;
use crate::recover::free_map;
use crate::{refuse, Answer, Model};

/// How a sweeping step leaves its page.
#[derive(Clone, Copy, PartialEq)]
enum Left {
    NothingToFree,
    Locked,
    /// Its unmarked slots are all free.
    NothingThere,
    Swept,
}

/// What a sweeping step finds of its page.
#[derive(Clone, Copy)]
struct Found {
    left: Left,
    unmarked: u32,
    /// The slots that are freed.
    map: u32,
}

impl Model {
    /// "Sweeping, page 0 upward". Every way out but refusal 11 advances the pass record and counts as
    /// a step (DECISIONS 86).
    pub(crate) fn sweeping_step(&mut self) -> Answer {
        let page = self.areas.work[PASS_PAGE] as usize;
        let found = self.misjudged(page, self.look_at(page));
        self.room_to_sweep(page, found)?;
        if found.map != 0 {
            self.free_garbage(page, found);
        } else if self.has(Fault::NothingFreedIsRecorded) && self.room(1).is_ok() {
            self.append([7, 0, page as u32, 0, 0, 0]);
        }
        if self.counts(found.left) {
            self.count_step();
        }
        self.leave_page(page, found.left);
        Ok(self.told(page, found))
    }

    // ---- the four tests -------------------------------------------------------------------

    /// In the paper's order (DECISIONS 86).
    fn look_at(&self, page: usize) -> Found {
        // Section 4.3: "the sweeper checks the color map and COT entries for the page before reading
        // the page from disk."
        let unmarked = self.unmarked(page);
        let found = |left, map| Found { left, unmarked, map };
        // 4.3: "If the page has no garbage objects on it, then the sweeper simply moves on to the next
        // page."
        if self.nothing_to_free(page, unmarked) {
            return found(Left::NothingToFree, 0);
        }
        // 4.5: "If the lock is not granted, then some transaction has a write lock on the page. In
        // this case, the sweeper simply skips the page"
        if self.skipped(page) {
            return found(Left::Locked, 0);
        }
        // Document 01: "otherwise its occupied, white objects without a COT entry are freed". The map
        // of occupied slots is read with the page (DECISIONS 86).
        match unmarked & self.slots_there(page) {
            0 => found(Left::NothingThere, 0),
            map => found(Left::Swept, map),
        }
    }

    /// The page's slots, occupied or not, that are white and have no COT entry.
    fn unmarked(&self, page: usize) -> u32 {
        let page = self.page_or_next(page, Fault::UnmarkedOfNextPage);
        let entries = |slot| self.protecting_entries(object_at(page, slot));
        let slots = match self.fault {
            Fault::FreesNothing => 0..0,
            Fault::SweepOverlooksSlotFifteen => 0..SLOTS - 1,
            Fault::CotSparesPage if (0..SLOTS).any(|slot| entries(slot) != 0) => 0..0,
            _ => 0..SLOTS,
        };
        let unmarked = |slot: &usize| self.is_white(object_at(page, *slot)) && entries(*slot) == 0;
        slots.filter(unmarked).map(|slot| bit(slot as u32)).sum()
    }

    /// 4.3: "any objects that have been left colored as garbage by the marker".
    fn is_white(&self, object: u32) -> bool {
        let colour = self.areas.by_object(Table::Colours, object);
        match self.fault {
            Fault::GreyAreFreed => colour != BLACK,
            Fault::WhiteRootSpared => colour == WHITE && object != ROOT,
            Fault::KnownAreSpared => colour == WHITE && self.areas.by_object(Table::Known, object) == 0,
            Fault::OwnNamedAreSpared => colour == WHITE && !names_itself(&self.areas.copies, object),
            _ => colour == WHITE,
        }
    }

    /// 4.3: "entries in the COT for any of the objects on that page, and if so, it does not reclaim
    /// those objects, regardless of their color". A flagged entry is one (DECISIONS 86).
    fn protecting_entries(&self, object: u32) -> u32 {
        let entries = self.areas.by_object(Table::Created, object);
        match self.fault {
            Fault::SweepIgnoresCot => 0,
            Fault::SweepIgnoresFlaggedCot => entries & !FLAG,
            Fault::FlaggedCotAlone => entries & FLAG,
            Fault::CotOfActiveAlone => entries & (FLAG | self.areas.work[ACTIVE]),
            _ => entries,
        }
    }

    fn nothing_to_free(&self, page: usize, unmarked: u32) -> bool {
        let looked_at = match self.fault {
            Fault::NothingToFreeOverlooksSlotZero => unmarked & !bit(0),
            Fault::NothingToFreeOverlooksSlotFifteen => unmarked & !bit(15),
            Fault::NothingToFreeByReceived => unmarked & self.areas.received[map_at(page)],
            _ => unmarked,
        };
        looked_at == 0
    }

    /// "occupied" is occupied in the copies (DECISIONS 12).
    fn slots_there(&self, page: usize) -> u32 {
        match self.fault {
            Fault::SweepByReceived => self.areas.received[map_at(page)],
            _ => self.areas.copies[map_at(page)],
        }
    }

    /// The page, but by this fault the next one, page 0 after the last.
    pub(crate) fn page_or_next(&self, page: usize, fault: Fault) -> usize {
        (page + usize::from(self.has(fault))) % self.areas.pages()
    }

    /// What a fault has freed in place of what the tests find.
    fn misjudged(&self, page: usize, found: Found) -> Found {
        let map = match (self.fault, found.left) {
            (Fault::NothingToFreeClearsPage, Left::NothingToFree) => self.areas.copies[map_at(page)],
            (Fault::LockedPageIsCleared, Left::Locked) => found.unmarked,
            (Fault::FreeSlotsAreFreed, Left::NothingThere | Left::Swept) => found.unmarked,
            (Fault::DeadPageDeallocated, Left::NothingThere | Left::Swept) if found.unmarked == 0xffff => 0xffff,
            _ => found.map,
        };
        Found { map, ..found }
    }

    // ---- room -----------------------------------------------------------------------------

    /// Refusal 11: "a sweep 1". Asked for last, and only where something is freed (DECISIONS 25, 86).
    fn room_to_sweep(&mut self, page: usize, found: Found) -> Result<(), u32> {
        let asked = match (self.fault, found.left) {
            (Fault::SweepAlwaysNeedsRoom, _) => true,
            (Fault::NothingToFreeNeedsRoom, Left::NothingToFree) => true,
            (Fault::RoomBeforeLock, Left::Locked) => found.unmarked & self.slots_there(page) != 0,
            (Fault::RoomBeforeMap, Left::NothingThere) => true,
            _ => found.map != 0,
        };
        let room = match self.fault {
            _ if !asked => Ok(()),
            Fault::SweepUsesReserve => refuse(11, self.areas.received_count() + 1 > self.areas.records()),
            _ => self.room(1),
        };
        if room.is_err() {
            self.act_refused(page, found);
        }
        room
    }

    /// What a step does that is refused for log room: nothing, but by a fault.
    fn act_refused(&mut self, page: usize, found: Found) {
        match self.fault {
            Fault::RefusedSweepIsStep => self.count_step(),
            Fault::RefusedSweepMovesOn => self.leave_page(page, found.left),
            Fault::RefusedSweepFrees => {
                free_map(&mut self.areas.copies, page, found.map);
                free_map(&mut self.areas.received, page, found.map);
            }
            _ => {}
        }
    }

    // ---- the page -------------------------------------------------------------------------

    /// "freed in copy and received page, with one sweep record"
    fn free_garbage(&mut self, page: usize, Found { unmarked, map, .. }: Found) {
        let read = self.areas.get(Table::Readers, page) != 0;
        let [mut recorded, mut received, mut copied] = [Some(map); 3];
        match self.fault {
            Fault::SweepsWithoutRecord => recorded = None,
            Fault::ReadPageSweptWithoutRecord if read => recorded = None,
            Fault::ReadPageSweptInCopyAlone if read => received = None,
            Fault::SweepLeavesCopies => copied = None,
            Fault::ReadPageSweptInReceivedAlone if read => copied = None,
            Fault::FreeSlotsAreRecorded => recorded = Some(unmarked),
            Fault::FreeSlotsAreFreedInReceived => received = Some(unmarked),
            _ => {}
        }
        recorded.into_iter().for_each(|map| self.append([7, 0, page as u32, 0, 0, map]));
        received.into_iter().for_each(|map| free_map(&mut self.areas.received, page, map));
        copied.into_iter().for_each(|map| free_map(&mut self.areas.copies, page, map));
        self.disturb_readers(page, map);
    }

    /// "its answer counts the slots set in the map"
    fn told(&self, page: usize, Found { left, unmarked, map }: Found) -> u32 {
        let counted = match (self.fault, left) {
            (Fault::NothingToFreeTellsSlots, Left::NothingToFree) => self.areas.copies[map_at(page)],
            (Fault::LockedPageTellsGarbage, Left::Locked) => unmarked & self.slots_there(page),
            (Fault::FreeSlotsAreCounted, Left::Swept) => unmarked,
            _ => map,
        };
        match counted.count_ones() {
            slots if self.has(Fault::FreedCountUnlikeMap) && slots > 1 => slots - 1,
            slots => slots,
        }
    }

    // ---- the pass record ------------------------------------------------------------------

    /// Whether the step counts: it does, "a page that is swept, skipped, or has nothing to free"
    /// (DECISIONS 80).
    fn counts(&self, left: Left) -> bool {
        match self.fault {
            Fault::SkippedPageIsNoStep => left != Left::Locked,
            Fault::NothingFreedIsNoStep => left != Left::NothingToFree && left != Left::NothingThere,
            Fault::NothingToFreeIsNoStep => left != Left::NothingToFree,
            _ => true,
        }
    }

    /// To the next page, or "After page P - 1 the pass is over."
    fn leave_page(&mut self, page: usize, left: Left) {
        let last = match (self.fault, left) {
            (Fault::NothingToFreeStays, Left::NothingToFree) => return,
            (Fault::LockedPageStays, Left::Locked) => return,
            (Fault::NothingThereStays, Left::NothingThere) => return,
            (Fault::NothingToFreeEndsPass, Left::NothingToFree) => page,
            (Fault::LockedPageEndsPass, Left::Locked) => page,
            (Fault::PassOverEarly, _) => self.areas.pages().saturating_sub(2),
            _ => self.areas.pages() - 1,
        };
        if page < last {
            self.areas.work[PASS_PAGE] += 1;
            return;
        }
        self.areas.work[PHASE] = NO_PASS;
        self.areas.work[PASS_PAGE] = 0;
        if !self.has(Fault::EndKeepsStepNumber) {
            self.areas.work[PASS_STEP] = 0;
        }
        if self.has(Fault::PassEndWhitens) {
            self.areas.table(Table::Colours).fill(WHITE);
        }
    }

    // ---- refusal 1 ------------------------------------------------------------------------

    /// Refusals 1 and 2 of a step, by a fault: copies and received pages are not looked at where the
    /// step leaves its page unread.
    pub(crate) fn ready_if_read(&self) -> Result<(), u32> {
        let mut looked_at = self.clone();
        if self.leaves_unread() {
            for area in [&mut looked_at.areas.copies, &mut looked_at.areas.received] {
                area.fill(0);
                area[map_at(0)] = 1;
            }
        }
        looked_at.ready()
    }

    fn leaves_unread(&self) -> bool {
        let Some((pages, _)) = self.areas.size() else { return false };
        let page = self.areas.work[PASS_PAGE] as usize;
        let unread = |page| [Left::NothingToFree, Left::Locked].contains(&self.look_at(page).left);
        self.areas.work[PHASE] == SWEEPING && page < pages && unread(page)
    }
}
