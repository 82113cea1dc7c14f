//! The lent areas, word by word, as docs/LAYOUT.md fixes them.

/// "A page is 129 words".
pub const PAGE_WORDS: usize = 129;
pub const RECORD_WORDS: usize = 6;
pub const SLOTS: usize = 16;
/// "Object 1 is the root".
pub const ROOT: u32 = 1;

/// The counts area: received count, then stable count.
pub const RECEIVED_COUNT: usize = 0;
pub const STABLE_COUNT: usize = 1;

/// Single words of the working tables.
pub const REOPENING: usize = 0;
pub const REOPENING_PAGE: usize = 1;
pub const PHASE: usize = 2;
pub const PASS_PAGE: usize = 3;
pub const PASS_STEP: usize = 4;
pub const ACTIVE: usize = 5;
const SINGLES: usize = 6;

/// "A transaction may set marks 0 to 3" (document 02, L3).
pub const MARKS: u32 = 4;
/// Transactions 0 to 15.
const TRANSACTIONS: usize = 16;
/// Words of a table by mark: one for each mark of each transaction.
const MARK_WORDS: usize = TRANSACTIONS * MARKS as usize;

/// "Each begin names a client, 0 to 7." (document 02, L9)
pub const CLIENTS: u32 = 8;
/// "0 nothing, 1 reading, or 2 reading and writing"
pub const NOTHING: u32 = 0;
pub const READING: u32 = 1;
pub const WRITING: u32 = 2;

/// Bit 16 of a PRT or COT word: entries of ended transactions.
pub const FLAG: u32 = 1 << 16;

pub const WHITE: u32 = 0;
pub const GREY: u32 = 1;
pub const BLACK: u32 = 2;

pub const NO_PASS: u32 = 0;
pub const MARKING: u32 = 1;
pub const SWEEPING: u32 = 2;

#[derive(Clone, Copy, PartialEq, Eq, Debug)]
pub enum Table {
    Readers,
    Writers,
    Unflushed,
    Known,
    Pruned,
    Created,
    Colours,
    /// By mark: the changes that were left where it was set.
    LeftAtMarks,
    /// By mark: 0 where it is not set, else its place in the order of setting, from 1.
    MarkOrder,
    /// By transaction: as which client it began, 0 once it has ended.
    Clients,
    /// By page, then client.
    Rights,
    /// By log record: 1 where going back appended it.
    Undoing,
}

pub const TABLES: [Table; 12] = [
    Table::Readers,
    Table::Writers,
    Table::Unflushed,
    Table::Known,
    Table::Pruned,
    Table::Created,
    Table::Colours,
    Table::LeftAtMarks,
    Table::MarkOrder,
    Table::Clients,
    Table::Rights,
    Table::Undoing,
];

impl Table {
    pub fn first(self, pages: usize) -> usize {
        let before = match self {
            Table::Readers => 0,
            Table::Writers => 1,
            Table::Unflushed => 2,
            Table::Known => 3,
            Table::Pruned => 19,
            Table::Created => 35,
            Table::Colours => 51,
            Table::LeftAtMarks | Table::MarkOrder | Table::Clients | Table::Rights => 67,
            Table::Undoing => 75,
        };
        let of_transactions = match self {
            Table::MarkOrder => MARK_WORDS,
            Table::Clients => 2 * MARK_WORDS,
            Table::Rights | Table::Undoing => 2 * MARK_WORDS + TRANSACTIONS,
            _ => 0,
        };
        SINGLES + before * pages + of_transactions
    }

    pub fn len(self, pages: usize, records: usize) -> usize {
        match self {
            Table::Readers | Table::Writers | Table::Unflushed => pages,
            Table::LeftAtMarks | Table::MarkOrder => MARK_WORDS,
            Table::Clients => TRANSACTIONS,
            Table::Rights => CLIENTS as usize * pages,
            Table::Undoing => records,
            _ => SLOTS * pages,
        }
    }

    /// Where its words stand in the working tables.
    pub fn range(self, pages: usize, records: usize) -> std::ops::Range<usize> {
        let first = self.first(pages);
        first..first + self.len(pages, records)
    }

    pub fn largest(self, records: usize) -> u32 {
        match self {
            Table::Pruned | Table::Created => 131071,
            Table::Colours => BLACK,
            // what calls lead to: a begin takes two records of L, each change two more, and without
            // a change nothing is undone
            Table::LeftAtMarks => (records as u32).saturating_sub(2) / 2,
            // where L = 1 no begin is accepted
            Table::MarkOrder | Table::Clients if records == 1 => 0,
            Table::MarkOrder => MARKS,
            Table::Clients => CLIENTS - 1,
            Table::Rights => WRITING,
            Table::Undoing => u32::from(records >= 4),
            _ => 65535,
        }
    }
}

/// The largest value of each single working word, in the order of the words.
pub fn largest_single(word: usize, pages: usize) -> u32 {
    let pages = pages as u32;
    match word {
        REOPENING => 2,
        REOPENING_PAGE => pages,
        PHASE => 2,
        PASS_PAGE => pages - 1,
        PASS_STEP => 17 * pages,
        _ => 65535,
    }
}

pub fn work_words(pages: usize, records: usize) -> usize {
    Table::Undoing.first(pages) + records
}

/// Where a mark of t stands in a table by mark.
pub fn mark_at(t: u32, mark: u32) -> usize {
    (MARKS * t + mark) as usize
}

/// Where the right of a client on a page stands among the rights.
pub fn right_at(client: u32, page: usize) -> usize {
    CLIENTS as usize * page + client as usize
}

/// "A reference is 0 (nothing) or 1 + 16 x page + slot".
pub fn page_of(object: u32) -> usize {
    (object as usize - 1) / SLOTS
}

pub fn slot_of(object: u32) -> usize {
    (object as usize - 1) % SLOTS
}

pub fn object_at(page: usize, slot: usize) -> u32 {
    (1 + SLOTS * page + slot) as u32
}

/// Where the map of a page stands in a page area.
pub fn map_at(page: usize) -> usize {
    PAGE_WORDS * page
}

/// Where word `field` of an object stands in a page area.
pub fn word_at(object: u32, field: usize) -> usize {
    PAGE_WORDS * page_of(object) + 1 + 8 * slot_of(object) + field
}

pub fn bit(t: u32) -> u32 {
    1 << t
}

/// The six lent areas.
#[derive(Clone, PartialEq, Eq, Debug, Default)]
pub struct Areas {
    pub stored: Vec<u32>,
    pub copies: Vec<u32>,
    pub received: Vec<u32>,
    pub log: Vec<u32>,
    pub counts: Vec<u32>,
    pub work: Vec<u32>,
}

#[derive(Clone, Copy, PartialEq, Eq, Debug)]
pub enum Area {
    Stored,
    Copies,
    Received,
    Log,
    Counts,
    Work,
}

pub const AREAS: [Area; 6] = [Area::Stored, Area::Copies, Area::Received, Area::Log, Area::Counts, Area::Work];

impl Areas {
    /// Areas of the right lengths, all words 0.
    pub fn zeros(pages: usize, records: usize) -> Areas {
        Areas {
            stored: vec![0; PAGE_WORDS * pages],
            copies: vec![0; PAGE_WORDS * pages],
            received: vec![0; PAGE_WORDS * pages],
            log: vec![0; RECORD_WORDS * records],
            counts: vec![0; 2],
            work: vec![0; work_words(pages, records)],
        }
    }

    pub fn of(&self, area: Area) -> &Vec<u32> {
        match area {
            Area::Stored => &self.stored,
            Area::Copies => &self.copies,
            Area::Received => &self.received,
            Area::Log => &self.log,
            Area::Counts => &self.counts,
            Area::Work => &self.work,
        }
    }

    pub fn of_mut(&mut self, area: Area) -> &mut Vec<u32> {
        match area {
            Area::Stored => &mut self.stored,
            Area::Copies => &mut self.copies,
            Area::Received => &mut self.received,
            Area::Log => &mut self.log,
            Area::Counts => &mut self.counts,
            Area::Work => &mut self.work,
        }
    }

    /// "P and L follow from the lengths of the stored pages and the log; a length that gives no
    /// whole number in bounds counts as differing." None where a length differs.
    pub fn size(&self) -> Option<(usize, usize)> {
        let pages = self.stored.len() / PAGE_WORDS;
        let records = self.log.len() / RECORD_WORDS;
        let same = self.stored.len() == PAGE_WORDS * pages
            && (1..=256).contains(&pages)
            && self.log.len() == RECORD_WORDS * records
            && (1..=4096).contains(&records)
            && self.copies.len() == self.stored.len()
            && self.received.len() == self.stored.len()
            && self.counts.len() == 2
            && self.work.len() == work_words(pages, records);
        same.then_some((pages, records))
    }

    /// Pages by the stored area's length; meant for areas whose lengths are right.
    pub fn pages(&self) -> usize {
        self.stored.len() / PAGE_WORDS
    }

    /// Records by the log's length, likewise.
    pub fn records(&self) -> usize {
        self.log.len() / RECORD_WORDS
    }

    pub fn objects(&self) -> u32 {
        (SLOTS * self.pages()) as u32
    }

    pub fn record(&self, i: usize) -> [u32; 6] {
        let at = RECORD_WORDS * i;
        self.log[at..at + RECORD_WORDS].try_into().unwrap()
    }

    pub fn received_count(&self) -> usize {
        self.counts[RECEIVED_COUNT] as usize
    }

    pub fn stable_count(&self) -> usize {
        self.counts[STABLE_COUNT] as usize
    }

    pub fn get(&self, table: Table, i: usize) -> u32 {
        self.work[table.first(self.pages()) + i]
    }

    pub fn table(&mut self, table: Table) -> &mut [u32] {
        let range = table.range(self.pages(), self.records());
        &mut self.work[range]
    }

    pub fn page_table(&mut self, table: Table, page: usize) -> &mut u32 {
        &mut self.table(table)[page]
    }

    pub fn object_table(&mut self, table: Table, object: u32) -> &mut u32 {
        &mut self.table(table)[object as usize - 1]
    }

    pub fn by_object(&self, table: Table, object: u32) -> u32 {
        self.get(table, object as usize - 1)
    }
}

/// The words of page `page` in a page area.
pub fn page_range(page: usize) -> std::ops::Range<usize> {
    PAGE_WORDS * page..PAGE_WORDS * (page + 1)
}

pub fn occupied(area: &[u32], object: u32) -> bool {
    area[map_at(page_of(object))] & bit(slot_of(object) as u32) != 0
}
