//! Examples of begins as clients, of grants and of the locks that rights allow (document 02, L9), each from a store on
//! which nobody has a right, with its answers and the words that it leaves.

use calls::Call;
use calls::Call::*;
use model::layout::*;

use crate::examples::{cut, no, ok, poke, Example, Step};

pub const PAGES: usize = 4;

pub fn example(name: &'static str, steps: impl IntoIterator<Item = Step>) -> Example {
    sized(name, PAGES, 64, steps)
}

pub fn sized(name: &'static str, pages: usize, records: usize, steps: impl IntoIterator<Item = Step>) -> Example {
    Example { name, pages, records, steps: steps.into_iter().collect() }
}

impl Step {
    /// .. after which transactions from t on are noted as of these clients.
    pub fn noted(self, t: usize, clients: &[u32]) -> Step {
        self.has(Table::Clients, t, clients)
    }

    /// .. after which clients 0 to 7 have these rights on a page.
    pub fn rights(self, page: usize, rights: [u32; 8]) -> Step {
        self.has(Table::Rights, 8 * page, &rights)
    }

    /// .. after which nobody has a right, and no client is noted.
    pub fn nothing(self) -> Step {
        self.has(Table::Clients, 0, &[0; 16]).has(Table::Rights, 0, &[0; 8 * PAGES])
    }

    /// .. after which log and counts are those of so many records.
    pub fn counts(self, received: u32) -> Step {
        self.leaves(Area::Counts, 0, &[received, 0])
    }
}

/// Refused with 6, which tells the holder.
pub fn held(call: Call, holder: u32) -> Step {
    Step { value: holder, ..no(call, 6) }
}

/// Rights given: client, page, right.
pub fn given(rights: &[[u32; 3]]) -> impl Iterator<Item = Step> + '_ {
    rights.iter().map(|&[client, page, right]| ok(Grant(client, page, right), 0))
}

/// A reopening to its end.
pub fn reopened() -> impl Iterator<Item = Step> {
    [ok(Reopen, 0)].into_iter().chain((0..=PAGES as u32).map(|page| ok(ReopenStep, page)))
}

/// The request's own list.
fn note() -> Vec<Example> {
    let refused = [no(Begin(0, 8), 3), no(Grant(8, 0, 1), 3), no(Grant(0, 4, 1), 3), no(Grant(0, 0, 3), 3)];
    let barred = [ok(Begin(0, 2), 1), no(LockRead(0, 0), 19), no(Grant(2, 0, 1), 4), ok(Grant(3, 0, 1), 0)];
    let reads = [
        ok(Commit(0), 2),
        ok(Grant(2, 0, 1), 0),
        ok(Begin(0, 2), 3),
        ok(LockRead(0, 0), 0),
        no(LockWrite(0, 0), 19),
        ok(Read(0, 1), 0).shows([0; 8]),
        no(Grant(2, 0, 0), 4),
    ];
    let other = [
        ok(Begin(1, 3), 4),
        no(LockWrite(1, 0), 19),
        ok(Commit(1), 5),
        ok(Grant(3, 0, 2), 0),
        ok(Begin(1, 3), 6),
        held(LockWrite(1, 0), 0),
    ];
    let again = [ok(Begin(0, 3), 1), no(LockRead(0, 0), 19)];
    let steps = refused.into_iter().chain(barred).chain(reads).chain(other).chain(reopened()).chain(again);
    vec![example("L9: contractors' tablets", steps)]
}

/// "Each begin names a client, 0 to 7."
fn begins() -> Vec<Example> {
    let all = (0..16).map(|t| ok(Begin(t, 7 - t % 8), t + 1).noted(t as usize, &[7 - t % 8]));
    let clients: Vec<u32> = (0..16).map(|t| 7 - t % 8).collect();
    let last = no(Begin(15, 0), 4).noted(0, &clients).has(Table::Rights, 0, &[0; 8 * PAGES]);
    let again = [
        ok(Begin(4, 6), 1).noted(3, &[0, 6, 0]),
        ok(Commit(4), 2).noted(3, &[0, 0, 0]),
        ok(Begin(4, 1), 3).noted(3, &[0, 1, 0]),
        ok(Begin(5, 1), 4).noted(3, &[0, 1, 1]),
        ok(Abort(4), 5).noted(3, &[0, 0, 1]),
        no(Begin(5, 2), 4).noted(3, &[0, 0, 1]),
        ok(Begin(4, 0), 6).noted(3, &[0, 0, 1]),
    ];
    let refused = [ok(Begin(0, 3), 1), no(Begin(1, 5), 11).noted(0, &[3, 0]), ok(Commit(0), 2).noted(0, &[0, 0])];
    vec![
        example("L9: each begin names a client, 0 to 7", all.chain([last])),
        example("L9: .. until its transaction ends", again),
        sized("11: a refused begin notes no client", PAGES, 2, refused),
    ]
}

/// "a client .. out of range is 3", of a begin: before 4 and 11, after 2.
fn begins_refused() -> Vec<Example> {
    let range = [8, 9, 15, 16, 65536, u32::MAX].map(|client| no(Begin(0, client), 3).noted(0, &[0]).counts(0));
    let active = [ok(Begin(0, 7), 1), no(Begin(0, 8), 3), no(Begin(0, 7), 4), no(Begin(16, 7), 3)];
    let full = [no(Begin(0, 8), 3), no(Begin(0, 7), 11), no(Begin(0, 0), 11)];
    let reopening = [ok(Reopen, 0), no(Begin(0, 8), 2), cut(), no(Begin(0, 8), 2)];
    let colour = Table::Colours.first(PAGES);
    let unsound = [poke(Area::Work, colour, 3), no(Begin(0, 8), 1), poke(Area::Work, colour, 2)];
    vec![
        example("3: a begin as a client above 7", range),
        example("3: .. before 4", active),
        sized("3: .. before 11, L = 1", PAGES, 1, full),
        example("2: .. while reopening", reopening),
        example("1: .. with a colour out of range", unsound.into_iter().chain([no(Begin(0, 8), 3)])),
    ]
}

/// "a call changes one entry": value 0, no record, and no other word.
fn entries() -> Vec<Example> {
    let one = [
        ok(Grant(2, 1, 1), 0).rights(0, [0; 8]).rights(1, [0, 0, 1, 0, 0, 0, 0, 0]).rights(2, [0; 8]),
        ok(Grant(2, 1, 2), 0).rights(1, [0, 0, 2, 0, 0, 0, 0, 0]).counts(0),
        ok(Grant(2, 1, 2), 0).rights(1, [0, 0, 2, 0, 0, 0, 0, 0]),
        ok(Grant(3, 1, 1), 0).rights(1, [0, 0, 2, 1, 0, 0, 0, 0]),
        ok(Grant(2, 1, 1), 0).rights(1, [0, 0, 1, 1, 0, 0, 0, 0]),
        ok(Grant(2, 1, 0), 0).rights(1, [0, 0, 0, 1, 0, 0, 0, 0]).leaves(Area::Log, 0, &[0; 6]),
        ok(Grant(7, 0, 2), 0).rights(0, [0, 0, 0, 0, 0, 0, 0, 2]).rights(1, [0, 0, 0, 1, 0, 0, 0, 0]),
        ok(Grant(0, 3, 2), 0).rights(3, [2, 0, 0, 0, 0, 0, 0, 0]).rights(2, [0; 8]),
    ];
    let each = (0..32).map(|n| ok(Grant(n % 8, n / 8, 1 + n % 2), 0).has(Table::Rights, n as usize, &[1 + n % 2]));
    let last = no(Grant(0, 4, 0), 3).has(Table::Rights, 0, &[1, 2].repeat(16)).has(Table::Undoing, 0, &[0; 64]);
    vec![example("L9: a call changes one entry", one), example("L9: .. of 8 x P", each.chain([last]))]
}

/// Where the tables stand, in the numbers of docs/LAYOUT.md.
fn places() -> Vec<Example> {
    let at = |index: usize, word: u32| (Area::Work, index, vec![word]);
    let placed = |step: Step, places: Vec<(Area, usize, Vec<u32>)>| Step { words: places, ..step };
    let largest = [
        placed(ok(Grant(7, 255, 2), 0), vec![at(150 + 67 * 256 + 8 * 255 + 7, 2), at(150 + 75 * 256, 0)]),
        placed(ok(Grant(0, 1, 1), 0), vec![at(150 + 67 * 256 + 8, 1)]),
        placed(ok(Begin(15, 6), 1), vec![at(134 + 67 * 256 + 15, 6), at(150 + 67 * 256, 0)]),
        no(Grant(0, 256, 1), 3),
    ];
    let least = [
        placed(ok(Grant(5, 0, 2), 0), vec![at(150 + 67 + 5, 2)]),
        placed(ok(Begin(0, 5), 1), vec![at(134 + 67, 5)]),
        ok(LockWrite(0, 0), 0),
        ok(Mark(0, 0), 0),
        ok(Create(0, 2), 2),
        placed(ok(Back(0, 0), 0), vec![at(150 + 75 + 2, 1), at(150 + 67 + 8, 0), at(134 + 67, 5)]),
        no(Grant(0, 1, 1), 3),
    ];
    vec![sized("L9: the tables at P = 256", 256, 8, largest), sized("L9: .. at P = 1", 1, 8, least)]
}

/// "A read lock needs reading, a write lock needs writing."
fn locks() -> Vec<Example> {
    let barred = |step: Step| step.at_page(Table::Readers, 2, 0).at_page(Table::Writers, 2, 0);
    let begun = |right| given(&[[6, 2, right]]).chain([ok(Begin(3, 6), 1)]).collect::<Vec<_>>().into_iter();
    let none = [barred(no(LockRead(3, 2), 19)), barred(no(LockWrite(3, 2), 19)), no(Read(3, 33), 5)];
    let reading = [
        barred(no(LockWrite(3, 2), 19)),
        ok(LockRead(3, 2), 0).at_page(Table::Readers, 2, bit(3)),
        no(LockRead(3, 1), 19),
        no(LockRead(3, 3), 19),
    ];
    let writing = [
        ok(LockRead(3, 2), 0),
        ok(LockWrite(3, 2), 0).at_page(Table::Writers, 2, bit(3)).at_page(Table::Readers, 2, 0),
        ok(LockRead(3, 2), 0).at_page(Table::Writers, 2, bit(3)).at_page(Table::Readers, 2, 0),
        ok(LockWrite(3, 2), 0),
        no(LockWrite(3, 1), 19),
        no(LockRead(3, 0), 19),
    ];
    vec![
        example("19: without a right neither lock", begun(0).chain(none)),
        example("L9: a read lock needs reading", begun(1).chain(reading)),
        example("L9: a write lock needs writing, a read lock no more than reading", begun(2).chain(writing)),
    ]
}

/// A sole reader may become the writer, with the right 2.
fn upgrades() -> Vec<Example> {
    let refused = [
        ok(Begin(0, 1), 1),
        ok(LockRead(0, 0), 0),
        no(LockWrite(0, 0), 19).at_page(Table::Readers, 0, 1).at_page(Table::Writers, 0, 0),
        no(Create(0, 2), 5),
        no(SetWord(0, 1, 4, 7), 5),
        no(Flush(0, 0), 5),
        ok(LockRead(0, 0), 0),
        ok(Read(0, 1), 0),
        ok(Commit(0), 2),
    ];
    let then = [ok(Grant(1, 0, 2), 0), ok(Begin(0, 1), 3), ok(LockRead(0, 0), 0), ok(LockWrite(0, 0), 0)];
    let steps = given(&[[1, 0, 1]]).chain(refused).chain(then).chain([ok(Create(0, 2), 4)]);
    vec![example("19: an upgrade needs writing", steps)]
}

/// "Errors: 19, right missing, after 4", and so before 6: who has the page is told to those alone who may lock it.
fn order() -> Vec<Example> {
    let early = [
        no(LockRead(0, 0), 4),
        no(LockWrite(0, 0), 4),
        ok(Begin(0, 5), 1),
        no(LockRead(0, 4), 3),
        no(LockWrite(16, 0), 3),
        no(LockRead(5, 0), 4),
        no(LockRead(0, 0), 19),
        ok(Reopen, 0),
        no(LockRead(0, 0), 2),
    ];
    let rights = [[0, 1, 2], [4, 1, 1]];
    let late = [
        ok(Begin(9, 0), 1),
        ok(Begin(3, 4), 2),
        ok(Begin(2, 6), 3),
        ok(LockWrite(9, 1), 0),
        held(LockRead(3, 1), 9),
        no(LockWrite(3, 1), 19),
        no(LockRead(2, 1), 19),
        no(LockWrite(2, 1), 19),
        ok(Commit(9), 4),
        ok(LockRead(3, 1), 0),
        ok(Begin(9, 0), 5),
        held(LockWrite(9, 1), 3),
        no(LockWrite(2, 1), 19),
    ];
    let word = Table::Rights.first(PAGES) + 9;
    let range = [ok(Begin(0, 5), 1), poke(Area::Work, word, 3), no(LockRead(0, 0), 1), poke(Area::Work, word, 2)];
    vec![
        example("19: after 2, 3 and 4", early),
        example("19: before 6", given(&rights).chain(late)),
        example("1: before 19", range.into_iter().chain([no(LockRead(0, 0), 19)])),
    ]
}

/// "only for a client without an active transaction"
fn active() -> Vec<Example> {
    let one = [
        ok(Begin(2, 5), 1),
        no(Grant(5, 0, 1), 4).rights(0, [0; 8]),
        no(Grant(5, 3, 0), 4),
        ok(Grant(2, 0, 1), 0).rights(0, [0, 0, 1, 0, 0, 0, 0, 0]),
        ok(Grant(0, 0, 2), 0).rights(0, [2, 0, 1, 0, 0, 0, 0, 0]),
        ok(Begin(0, 2), 2),
        no(Grant(2, 0, 1), 4),
        ok(Abort(2), 3),
        ok(Grant(5, 0, 1), 0),
        no(Grant(2, 0, 0), 4).rights(0, [2, 0, 1, 0, 0, 1, 0, 0]),
    ];
    let several = [
        ok(Begin(1, 7), 1),
        ok(Begin(15, 7), 2),
        ok(Commit(1), 3),
        no(Grant(7, 1, 2), 4),
        no(Grant(7, 0, 2), 4),
        ok(Commit(15), 4),
        ok(Grant(7, 1, 2), 0),
    ];
    let zero = [
        ok(Grant(0, 0, 2), 0),
        ok(Begin(4, 3), 1),
        ok(Grant(0, 0, 1), 0),
        ok(Begin(5, 0), 2),
        no(Grant(0, 0, 2), 4),
        ok(Commit(5), 3),
        ok(Grant(0, 0, 0), 0).rights(0, [0; 8]),
    ];
    vec![
        example("4: a change for a client with an active transaction", one),
        example("4: .. with two", several),
        example("L9: what is noted beside inactive ones does not count", zero),
    ]
}

/// Grant's own order: 1, 2, 3, 4.
fn grants_refused() -> Vec<Example> {
    let ranges = [
        no(Grant(8, 0, 1), 3),
        no(Grant(u32::MAX, 0, 1), 3),
        no(Grant(0, 4, 1), 3),
        no(Grant(0, u32::MAX, 1), 3),
        no(Grant(0, 0, 3), 3),
        no(Grant(0, 0, u32::MAX), 3).nothing(),
        ok(Grant(7, 3, 2), 0),
    ];
    let running = [
        ok(Begin(0, 0), 1),
        no(Grant(0, 4, 1), 3),
        no(Grant(0, 0, 3), 3),
        no(Grant(8, 0, 0), 3),
        no(Grant(0, 0, 2), 4).nothing(),
    ];
    let client = Table::Clients.first(PAGES) + 3;
    let unsound = [poke(Area::Work, client, 8), no(Grant(8, 4, 3), 1), no(Grant(0, 0, 2), 1)];
    let sound = [poke(Area::Work, client, 7), ok(Grant(7, 0, 2), 0), no(Grant(8, 0, 2), 3)];
    let [page, last] = [2, PAGES as u32].map(|page| ok(ReopenStep, page));
    let between = [ok(ReopenStep, 0), no(Grant(0, 0, 2), 2), ok(ReopenStep, 1), page, ok(ReopenStep, 3)];
    let reopening = [cut(), no(Grant(8, 4, 3), 2), ok(Reopen, 0), no(Grant(0, 0, 2), 2)];
    let done = [no(Grant(0, 0, 2), 2).nothing(), last, ok(Grant(0, 0, 2), 0)];
    vec![
        example("3: a client, page or right out of range", ranges),
        example("3: .. before 4", running),
        example("1: a grant, and a client word out of range", unsound.into_iter().chain(sound)),
        example("2: a grant before the last reopening step", reopening.into_iter().chain(between).chain(done)),
        sized("L9: a grant needs no log room, L = 1", PAGES, 1, [ok(Grant(6, 2, 2), 0), no(Begin(0, 6), 11)]),
        sized(
            "L9: .. L = 2",
            PAGES,
            2,
            [ok(Begin(0, 6), 1), no(Begin(1, 5), 11), ok(Grant(5, 2, 2), 0).counts(1)],
        ),
    ]
}

pub fn examples() -> Vec<Example> {
    let begins = [note(), begins(), begins_refused()];
    let grants = [entries(), places(), active(), grants_refused()];
    begins.into_iter().chain(grants).chain([locks(), upgrades(), order()]).flatten().collect()
}
