//! Examples of marks and of going back (document 02, L3), each with its answers, the records that it appends and the
//! words that it leaves.

use calls::Call::*;
use model::layout::*;

use crate::examples::{cut, no, ok, poke, Example, Step};

const PAGES: usize = 4;

fn example(name: &'static str, steps: impl IntoIterator<Item = Step>) -> Example {
    with_records(name, 64, steps)
}

fn with_records(name: &'static str, records: usize, steps: impl IntoIterator<Item = Step>) -> Example {
    Example { name, pages: PAGES, records, steps: steps.into_iter().collect() }
}

impl Step {
    /// .. which appends these records of transaction 0 after so many, and no others: kind, object, field, old, new.
    pub fn appends(self, before: usize, records: &[[u32; 5]]) -> Step {
        let words: Vec<u32> =
            records.iter().flat_map(|&[kind, rest @ ..]| [[kind, 0].to_vec(), rest.to_vec()].concat()).collect();
        let count = before + records.len();
        self.leaves(Area::Log, RECORD_WORDS * before, &words).leaves(Area::Counts, RECEIVED_COUNT, &[count as u32])
    }

    /// .. after which these words stand in a table, from its first or a later one on.
    pub fn has(self, table: Table, from: usize, words: &[u32]) -> Step {
        self.leaves(Area::Work, table.first(PAGES) + from, words)
    }

    /// .. after which transaction 0 has marks 0 to 3 so placed.
    fn orders(self, places: [u32; 4]) -> Step {
        self.has(Table::MarkOrder, 0, &places)
    }
}

/// The object's word in a table by object.
fn of_object(object: u32) -> usize {
    object as usize - 1
}

/// After these two, transaction 0 may change page 0.
fn begun() -> [Step; 2] {
    [ok(Begin(0, 0), 1), ok(LockWrite(0, 0), 0)]
}

/// Object 2 is made, then after mark 0 object 3, and both are linked.
fn laid_out() -> impl Iterator<Item = Step> {
    let tried = [
        ok(Create(0, 2), 2),
        ok(Mark(0, 0), 0),
        ok(SetWord(0, 1, 0, 2), 3),
        ok(Create(0, 3), 4),
        ok(SetWord(0, 3, 4, 7), 5),
        ok(Mark(0, 1), 0).has(Table::LeftAtMarks, 0, &[1, 4, 0, 0]).orders([1, 2, 0, 0]),
        ok(SetWord(0, 1, 1, 3), 6),
    ];
    begun().into_iter().chain(tried)
}

/// Back to mark 0 from there.
fn gone_back() -> Step {
    let undoing = [[3, 1, 1, 3, 0], [3, 3, 4, 7, 0], [6, 3, 0, 0, 0], [3, 1, 0, 2, 0]];
    ok(Back(0, 0), 0)
        .appends(6, &undoing)
        .has(Table::Undoing, 0, &[0, 0, 0, 0, 0, 0, 1, 1, 1, 1, 0])
        .has(Table::LeftAtMarks, 0, &[1, 0, 0, 0])
        .orders([1, 0, 0, 0])
}

/// "A crew tries a meter layout, then goes back."
fn layouts() -> Vec<Example> {
    let then = [
        gone_back(),
        no(Back(0, 1), 16),
        ok(Back(0, 0), 0).appends(10, &[]),
        no(Read(0, 3), 7),
        no(Commit(0), 10),
        ok(Flush(0, 0), 0),
        ok(Create(0, 3), 11),
        ok(Abort(0), 14).appends(11, &[[6, 3, 0, 0, 0], [6, 2, 0, 0, 0], [5, 0, 0, 0, 0]]),
    ];
    let committed = [gone_back(), ok(Flush(0, 0), 0), ok(Commit(0), 11)];
    vec![
        example("L3: a crew tries a layout, then goes back", laid_out().chain(then)),
        example("L3: .. and commits what stood before", laid_out().chain(committed)),
    ]
}

/// "A transaction may set marks 0 to 3, and set one again".
fn marks_set() -> Vec<Example> {
    let four = [
        ok(Begin(0, 0), 1),
        ok(Mark(0, 2), 0).orders([0, 0, 1, 0]),
        ok(Mark(0, 0), 0).orders([2, 0, 1, 0]),
        ok(Mark(0, 3), 0).orders([2, 0, 1, 3]),
        ok(Mark(0, 1), 0).orders([2, 4, 1, 3]),
        ok(Mark(0, 0), 0).orders([4, 3, 1, 2]),
        ok(Mark(0, 0), 0).orders([4, 3, 1, 2]),
    ];
    let others = [
        ok(Begin(0, 0), 1),
        ok(Begin(15, 0), 2),
        ok(Mark(15, 3), 0).has(Table::MarkOrder, mark_at(15, 3), &[1]).orders([0; 4]),
        no(Back(0, 3), 16),
        ok(Mark(0, 3), 0).orders([0, 0, 0, 1]),
        ok(Mark(15, 0), 0).has(Table::MarkOrder, mark_at(15, 0), &[2, 0, 0, 1]).orders([0, 0, 0, 1]),
    ];
    vec![example("L3: marks 0 to 3, and one set again", four), example("L3: marks of other transactions", others)]
}

fn set_again() -> Vec<Example> {
    let last = [
        ok(Begin(0, 0), 1),
        ok(Mark(0, 0), 0),
        ok(Mark(0, 1), 0),
        ok(Mark(0, 0), 0),
        ok(Back(0, 1), 0).appends(1, &[]),
        no(Back(0, 0), 16),
    ];
    let anew = [
        ok(Mark(0, 0), 0),
        ok(Create(0, 2), 2),
        ok(Mark(0, 0), 0).has(Table::LeftAtMarks, 0, &[1]),
        ok(Create(0, 3), 3),
        ok(Back(0, 0), 0).appends(3, &[[6, 3, 0, 0, 0]]),
    ];
    vec![
        example("L3: a mark set again is the last", last),
        example("L3: .. and counts anew", begun().into_iter().chain(anew)),
    ]
}

/// "they end with it."
fn marks_end() -> Vec<Example> {
    let set = || begun().into_iter().chain([ok(Create(0, 2), 2), ok(Mark(0, 0), 0), ok(Mark(0, 3), 0)]);
    let gone = |step: Step| step.has(Table::LeftAtMarks, 0, &[0; 4]).orders([0; 4]);
    let again = |count| [no(Back(0, 0), 4), ok(Begin(0, 0), count), no(Back(0, 0), 16), no(Back(0, 3), 16)];
    let committed = [ok(Flush(0, 0), 0), gone(ok(Commit(0), 3))];
    let reopened = [gone(ok(Reopen, 0)), no(Mark(0, 0), 2), no(Back(0, 0), 2)];
    let steps = (0..=PAGES as u32).map(|page| ok(ReopenStep, page));
    let lost = [gone(cut()), no(Mark(0, 0), 2), no(Back(0, 4), 2)];
    vec![
        example("L3: marks end with a commit", set().chain(committed).chain(again(4))),
        example("L3: marks end with an abort", set().chain([gone(ok(Abort(0), 4))]).chain(again(5))),
        example("L3: marks end with a reopening", set().chain(reopened).chain(steps).chain(again(1))),
        example("L3: marks end with a cut", set().chain(lost)),
    ]
}

/// "Going back appends undoing records, newest first, for its creates and sets since that mark that are not yet
/// undone".
fn going_back() -> Vec<Example> {
    let newest = [
        ok(Mark(0, 0), 0),
        ok(SetWord(0, 1, 4, 5), 2),
        ok(SetWord(0, 1, 4, 9), 3),
        ok(Back(0, 0), 0)
            .appends(3, &[[3, 1, 4, 9, 5], [3, 1, 4, 5, 0]])
            .leaves(Area::Received, word_at(1, 4), &[0])
            .leaves(Area::Copies, word_at(1, 4), &[0]),
    ];
    let stages = [
        ok(Mark(0, 0), 0),
        ok(Create(0, 2), 2),
        ok(Mark(0, 1), 0),
        ok(Create(0, 3), 3),
        ok(Back(0, 1), 0).appends(3, &[[6, 3, 0, 0, 0]]),
        ok(Create(0, 4), 5),
        ok(Back(0, 1), 0).appends(5, &[[6, 4, 0, 0, 0]]),
        ok(Back(0, 0), 0).appends(6, &[[6, 2, 0, 0, 0]]),
        ok(Back(0, 0), 0).appends(7, &[]),
    ];
    let nothing = [ok(Begin(0, 0), 1), ok(Mark(0, 1), 0), ok(Mark(0, 2), 0), ok(Back(0, 1), 0), ok(Commit(0), 2)];
    vec![
        example("L3: newest first", begun().into_iter().chain(newest)),
        example("L3: those not yet undone", begun().into_iter().chain(stages)),
        example("L3: nothing to undo", nothing),
    ]
}

/// "drops marks set after this one and keeps it."
fn dropped() -> Vec<Example> {
    let steps = [
        ok(Mark(0, 3), 0),
        ok(Create(0, 2), 2),
        ok(Mark(0, 1), 0),
        ok(Mark(0, 0), 0),
        ok(Mark(0, 2), 0).has(Table::LeftAtMarks, 0, &[1, 1, 1, 0]).orders([3, 2, 4, 1]),
        ok(Back(0, 0), 0).has(Table::LeftAtMarks, 0, &[1, 1, 0, 0]).orders([3, 2, 0, 1]),
        no(Back(0, 2), 16),
        ok(Back(0, 0), 0).orders([3, 2, 0, 1]),
        ok(Back(0, 3), 0).has(Table::LeftAtMarks, 0, &[0; 4]).orders([0, 0, 0, 1]),
        no(Back(0, 1), 16),
        no(Back(0, 0), 16),
        ok(Mark(0, 1), 0).orders([0, 2, 0, 1]),
    ];
    vec![example("L3: marks set after this one are dropped, and it is kept", begun().into_iter().chain(steps))]
}

/// The old word set by hand is a change like any other, though its record looks like an undoing one.
fn by_hand() -> Vec<Example> {
    let steps = [
        ok(SetWord(0, 1, 4, 7), 2),
        ok(SetWord(0, 1, 4, 0), 3),
        ok(Mark(0, 0), 0).has(Table::LeftAtMarks, 0, &[2]),
        ok(SetWord(0, 1, 5, 1), 4),
        ok(SetWord(0, 1, 5, 0), 5),
        ok(Back(0, 0), 0).appends(5, &[[3, 1, 5, 0, 1], [3, 1, 5, 1, 0]]),
        ok(Mark(0, 1), 0).has(Table::LeftAtMarks, 0, &[2, 2]),
        ok(Abort(0), 10).appends(7, &[[3, 1, 4, 0, 7], [3, 1, 4, 7, 0], [5, 0, 0, 0, 0]]),
    ];
    vec![example("L3: the old word set by hand", begun().into_iter().chain(steps))]
}

/// "Objects so uncreated are no longer known."
fn forgotten() -> Vec<Example> {
    let then = [
        gone_back().has(Table::Known, 0, &[1, 1, 0]),
        no(Read(0, 3), 7),
        no(SetWord(0, 3, 4, 7), 7),
        no(SetWord(0, 1, 0, 3), 7),
        ok(SetWord(0, 1, 0, 2), 11),
        ok(Create(0, 3), 12),
        ok(Read(0, 3), 0),
    ];
    vec![example("L3: objects so uncreated are no longer known", laid_out().chain(then))]
}

/// "Pages touched need flushing again."
fn touched() -> Vec<Example> {
    let word = word_at(1, 4);
    let went = ok(Back(0, 0), 0).leaves(Area::Received, word, &[0]).leaves(Area::Copies, word, &[7]);
    let went = went.has(Table::Unflushed, 0, &[1, 0]);
    let steps = [
        ok(LockWrite(0, 1), 0),
        ok(Create(0, 17), 2),
        ok(Mark(0, 0), 0),
        ok(SetWord(0, 1, 4, 7), 3),
        ok(Flush(0, 0), 0),
        ok(Flush(0, 1), 0),
        went,
        no(Commit(0), 10),
        ok(Flush(0, 0), 0).leaves(Area::Copies, word, &[0]),
        ok(Commit(0), 5),
    ];
    vec![example("L3: pages touched need flushing again", begun().into_iter().chain(steps))]
}

/// "The reserve counts only records not undone, and an abort undoes only those." .. "the undoing uses the reserve."
fn reserves() -> Vec<Example> {
    let full = [no(Create(0, 4), 11), no(Begin(1, 0), 11), gone_back(), no(Create(0, 4), 11), no(Begin(1, 0), 11)];
    let one_more = [gone_back(), ok(Create(0, 4), 11), no(SetWord(0, 1, 4, 1), 11), ok(Abort(0), 14)];
    let aborted = [gone_back(), ok(Abort(0), 12).appends(10, &[[6, 2, 0, 0, 0], [5, 0, 0, 0, 0]])];
    let all = [
        ok(Mark(0, 0), 0),
        ok(Create(0, 2), 2),
        ok(SetWord(0, 1, 0, 2), 3),
        ok(SetWord(0, 1, 1, 2), 4),
        no(Begin(1, 0), 11),
        ok(Back(0, 0), 0).appends(4, &[[3, 1, 1, 2, 0], [3, 1, 0, 2, 0], [6, 2, 0, 0, 0]]),
        no(Begin(1, 0), 11),
        ok(Flush(0, 0), 0),
        ok(Commit(0), 8),
    ];
    vec![
        with_records("L3: going back gives no room back", 13, laid_out().chain(full)),
        with_records("L3: the reserve counts only records not undone", 14, laid_out().chain(one_more)),
        with_records("L3: an abort undoes only those", 12, laid_out().chain(aborted)),
        with_records("L3: the undoing uses the reserve", 8, begun().into_iter().chain(all)),
    ]
}

/// The root names object 2, by a transaction that has ended.
fn standing() -> impl Iterator<Item = Step> {
    let made = [ok(Create(0, 2), 2), ok(SetWord(0, 1, 0, 2), 3), ok(Flush(0, 0), 0), ok(Commit(0), 4)];
    begun().into_iter().chain(made)
}

/// "PRT entries, COT entries and locks are kept, none are added".
fn kept() -> Vec<Example> {
    let tried = [
        ok(Begin(0, 0), 5),
        ok(LockWrite(0, 0), 0),
        ok(LockRead(0, 2), 0),
        ok(Read(0, 1), 2),
        ok(StartPass, 0),
        ok(Mark(0, 0), 0),
        ok(SetWord(0, 1, 0, 0), 6),
        ok(Create(0, 3), 7),
        ok(SetWord(0, 1, 1, 3), 8),
    ];
    let undoing = [[3, 1, 1, 3, 0], [6, 3, 0, 0, 0], [3, 1, 0, 0, 2]];
    let went = ok(Back(0, 0), 0)
        .appends(8, &undoing)
        .has(Table::Pruned, of_object(1), &[0, 1, 0])
        .has(Table::Created, of_object(1), &[0, 0, 1])
        .has(Table::Colours, of_object(1), &[GREY, GREY, WHITE])
        .has(Table::Writers, 0, &[1, 0, 0, 0])
        .has(Table::Readers, 0, &[0, 0, 1, 0]);
    let ended = [ok(Flush(0, 0), 0), ok(Commit(0), 12).has(Table::Pruned, of_object(2), &[FLAG])];
    let steps = standing().chain(tried).chain([went]).chain(ended);
    vec![example("L3: PRT entries, COT entries and locks are kept, none are added", steps)]
}

/// Object 3 is tried in place of what stands, and flushed.
fn replaced() -> impl Iterator<Item = Step> {
    let tried = [
        ok(Begin(0, 0), 5),
        ok(LockWrite(0, 0), 0),
        ok(SetWord(0, 1, 4, 1), 6),
        ok(Mark(0, 0), 0),
        ok(SetWord(0, 1, 0, 0), 7),
        ok(Create(0, 3), 8),
        ok(SetWord(0, 3, 5, 9), 9),
        ok(Flush(0, 0), 0),
    ];
    standing().chain(tried)
}

/// "A cut that keeps only part of that undoing still undoes the whole transaction.": so many records are stable then,
/// and the page may have been stored as it was tried.
fn cut_after(stable: u32, stored: bool) -> Example {
    let undoing = [[3, 3, 5, 9, 0], [6, 3, 0, 0, 0], [3, 1, 0, 0, 2]];
    let forced = |counts: std::ops::RangeInclusive<u32>| counts.map(|count| ok(Force, count));
    let before = if stored { 9 } else { 0 };
    let store = stored.then(|| ok(StorePage(0), 0));
    let back = forced(1..=before).chain(store).chain([ok(Back(0, 0), 0).appends(9, &undoing)]);
    let mut page = [0; PAGE_WORDS];
    page[map_at(0)] = 0b11;
    page[word_at(1, 0)] = 2;
    let again = ok(Reopen, 0).leaves(Area::Received, 0, &page).leaves(Area::Copies, 0, &page);
    let reopened = [cut(), again].into_iter().chain((0..=PAGES as u32).map(|page| ok(ReopenStep, page)));
    let last = no(Back(0, 0), 4).leaves(Area::Stored, 0, &page);
    let steps = replaced().chain(back).chain(forced(before + 1..=stable)).chain(reopened).chain([last]);
    example("L3: a cut that keeps only part of that undoing", steps)
}

/// "Errors: 16, mark not set, after 4; a mark above 3 is 3."
fn refusals() -> Vec<Example> {
    let unset = [
        no(Back(0, 0), 4),
        no(Mark(0, 0), 4),
        ok(Begin(0, 0), 1),
        no(Back(0, 0), 16),
        ok(Mark(0, 0), 0),
        no(Back(0, 1), 16),
        ok(Back(0, 0), 0),
        no(Back(1, 0), 4),
    ];
    let above = [
        no(Mark(0, 4), 3),
        no(Back(0, 4), 3),
        ok(Begin(0, 0), 1),
        ok(Begin(15, 0), 2),
        no(Mark(0, 4), 3),
        no(Back(0, 4), 3),
        no(Mark(15, 4), 3),
        no(Back(0, u32::MAX), 3),
        no(Mark(16, 0), 3),
        no(Back(16, 0), 3),
        ok(Mark(15, 3), 0),
        ok(Back(15, 3), 0),
    ];
    vec![example("16: mark not set, after 4", unset), example("3: a mark above 3", above)]
}

/// Numbers of records begin again with an emptied log, and nothing is noted of them.
fn emptied() -> Vec<Example> {
    let ended = [gone_back(), ok(Flush(0, 0), 0), ok(Commit(0), 11)];
    let stable = (1..=11).map(|count| ok(Force, count));
    let none = [0; 64];
    let empty = [
        ok(StorePage(0), 0).has(Table::Undoing, 6, &[1; 4]),
        ok(EmptyLog, 0).has(Table::Undoing, 0, &none),
        ok(Begin(0, 0), 1),
        ok(LockWrite(0, 0), 0),
    ];
    let sets = (2..=9).map(|count| ok(SetWord(0, 1, 4, count), count));
    let again = [ok(Mark(0, 0), 0).has(Table::LeftAtMarks, 0, &[8])];
    let steps = laid_out().chain(ended).chain(stable).chain(empty).chain(sets).chain(again);
    let reopened = [undoing(5), ok(Reopen, 0).has(Table::Undoing, 0, &none), undoing(5)];
    let stores = (0..PAGES as u32).map(|page| ok(ReopenStep, page).has(Table::Undoing, 5, &[1]));
    let last = ok(ReopenStep, PAGES as u32).has(Table::Undoing, 0, &none);
    vec![
        example("L3: emptying forgets what was undone", steps),
        example("L3: .. and so does a reopening", reopened.into_iter().chain(stores).chain([last])),
    ]
}

/// Working words at their bounds and above them, by the number of records.
fn ranges() -> Vec<Example> {
    let word = |table: Table, at: usize, word| poke(Area::Work, table.first(PAGES) + at, word);
    let bounds = |name, records, table: Table, at, largest| {
        let taken = [word(table, at, largest), no(Back(16, 0), 3)];
        with_records(name, records, taken.into_iter().chain([word(table, at, largest + 1), no(Back(16, 0), 1)]))
    };
    let [left, order, undoing] = [Table::LeftAtMarks, Table::MarkOrder, Table::Undoing];
    vec![
        bounds("1: changes left at a mark", 64, left, 63, 31),
        bounds("1: .. with L = 5", 5, left, 0, 1),
        bounds("1: .. with L = 3", 3, left, 7, 0),
        bounds("1: .. with L = 1", 1, left, 0, 0),
        bounds("1: the order of marks", 64, order, 63, 4),
        bounds("1: .. with L = 2", 2, order, 0, 4),
        bounds("1: .. with L = 1", 1, order, 5, 0),
        bounds("1: an undoing word", 64, undoing, 63, 1),
        bounds("1: .. with L = 4", 4, undoing, 0, 1),
        bounds("1: .. with L = 3", 3, undoing, 2, 0),
    ]
}

/// Calls lead to the largest words.
fn bounds_reached() -> Vec<Example> {
    let sets = (2..=32).map(|count| ok(SetWord(0, 1, 4, count), count));
    let most = [no(SetWord(0, 1, 4, 0), 11), ok(Mark(0, 3), 0).has(Table::LeftAtMarks, 3, &[31])];
    let four = (0..MARKS).map(|mark| ok(Mark(0, mark), 0));
    let undone = [ok(Mark(0, 0), 0), ok(Create(0, 2), 2), ok(Back(0, 0), 0).has(Table::Undoing, 0, &[0, 0, 1, 0])];
    vec![
        example("L3: as many changes at a mark as L allows", begun().into_iter().chain(sets).chain(most)),
        with_records("L3: four marks with L = 2", 2, [ok(Begin(0, 0), 1)].into_iter().chain(four)),
        with_records("L3: going back with L = 4", 4, begun().into_iter().chain(undone).chain([ok(Abort(0), 4)])),
    ]
}

/// Marks that no calls set so.
fn odd_marks() -> Vec<Example> {
    let left = |mark, changes| poke(Area::Work, Table::LeftAtMarks.first(PAGES) + mark, changes);
    let order = |mark, place| poke(Area::Work, Table::MarkOrder.first(PAGES) + mark, place);
    let begun = || begun().into_iter().chain([ok(Create(0, 2), 2)]);
    let more = [order(0, 1), left(0, 5), order(3, 2), ok(Back(0, 0), 0).appends(2, &[]).orders([1, 0, 0, 0])];
    let unset = [left(1, 1), no(Back(0, 1), 16)];
    let equal = [order(0, 2), order(1, 2), order(2, 3), left(1, 9), ok(Back(0, 0), 0).orders([2, 2, 0, 0])];
    let gaps = [order(0, 4), order(2, 4), ok(Mark(0, 1), 0).orders([4, 3, 4, 0])];
    let above = [order(0, 2), order(1, 4), order(2, 1), ok(Mark(0, 0), 0).orders([3, 3, 1, 0])];
    let inactive = [order(0, 1), ok(Begin(0, 0), 1).orders([1, 0, 0, 0]), ok(Back(0, 0), 0)];
    vec![
        example("rubbish: a mark of more changes than are left", begun().chain(more)),
        example("rubbish: changes left at a mark that is not set", begun().chain(unset)),
        example("rubbish: two marks in one place", begun().chain(equal)),
        example("rubbish: gaps in the order", begun().chain(gaps)),
        example("rubbish: .. above a mark set again", begun().chain(above)),
        example("rubbish: marks of one that is not active", inactive),
    ]
}

/// Three changes, of the last three records.
fn made() -> impl Iterator<Item = Step> {
    begun().into_iter().chain([ok(Create(0, 2), 2), ok(SetWord(0, 1, 0, 2), 3), ok(Create(0, 3), 4)])
}

fn undoing(record: usize) -> Step {
    poke(Area::Work, Table::Undoing.first(PAGES) + record, 1)
}

/// Undoing words that no calls lead to.
fn odd_undoing() -> Vec<Example> {
    let counts = |changes| ok(Mark(0, 0), 0).has(Table::LeftAtMarks, 0, &[changes]);
    let at_begins = [ok(Begin(1, 0), 5), undoing(0), undoing(4), counts(3)];
    let at_a_commit = [poke(Area::Log, 6 * 3, 4), poke(Area::Log, 6 * 3 + 2, 0), undoing(3), counts(2)];
    let at_a_create = [undoing(3), counts(1), ok(Back(0, 0), 0).appends(4, &[])];
    let at_all = [undoing(1), undoing(2), undoing(3), counts(0), ok(Create(0, 4), 5), counts(1)];
    let ahead = [undoing(4), ok(Create(0, 4), 5).has(Table::Undoing, 4, &[1]), counts(2), ok(Abort(0), 8)];
    let uncreate = [poke(Area::Log, 6 * 3, 6), counts(2), undoing(3), counts(1)];
    vec![
        example("rubbish: an undoing word at a begin", made().chain(at_begins)),
        example("rubbish: .. at a commit", made().chain(at_a_commit)),
        example("rubbish: .. at a create", made().chain(at_a_create)),
        example("rubbish: .. at more records than there are changes", made().chain(at_all)),
        example("rubbish: .. ahead of its record", made().chain(ahead)),
        example("rubbish: an uncreate with none, and with one", made().chain(uncreate)),
    ]
}

/// Logs and known objects that no calls lead to.
fn odd_states() -> Vec<Example> {
    let set_mark = |changes| {
        let [left, order] = [Table::LeftAtMarks, Table::MarkOrder].map(|table| table.first(PAGES));
        [poke(Area::Work, left, changes), poke(Area::Work, order, 1)]
    };
    let no_begin = [poke(Area::Log, 1, 9), ok(Back(0, 0), 0).appends(4, &[]), ok(Abort(0), 5)];
    let known = poke(Area::Work, Table::Known.first(PAGES) + of_object(3), 0b1011);
    let others = [known, ok(Back(0, 0), 0).has(Table::Known, of_object(3), &[0b1010])];
    let sweeps = |until| {
        let swept = (4..until).map(|i| poke(Area::Log, 6 * i, 7));
        swept.chain([poke(Area::Counts, RECEIVED_COUNT, until as u32)])
    };
    let full = [no(Back(0, 1), 16), no(Back(0, 0), 11), no(Abort(0), 11)];
    let one = [ok(Back(0, 0), 0).appends(7, &[[6, 3, 0, 0, 0]])];
    vec![
        example("rubbish: changes without a begin", made().chain(set_mark(0)).chain(no_begin)),
        example("rubbish: others know what is uncreated", made().chain(set_mark(2)).chain(others)),
        with_records("11: no room to go back", 8, made().chain(sweeps(8)).chain(set_mark(0)).chain(full)),
        with_records(
            "rubbish: room, but less than is reserved",
            8,
            made().chain(sweeps(7)).chain(set_mark(2)).chain(one),
        ),
    ]
}

pub fn examples() -> Vec<Example> {
    let sentences = [
        layouts(),
        marks_set(),
        set_again(),
        marks_end(),
        going_back(),
        dropped(),
        by_hand(),
        forgotten(),
        touched(),
        reserves(),
        kept(),
        (4..=12).map(|stable| cut_after(stable, false)).collect(),
        (9..=12).map(|stable| cut_after(stable, true)).collect(),
        refusals(),
    ];
    let others = [emptied(), bounds_reached(), ranges(), odd_marks(), odd_undoing(), odd_states()];
    sentences.into_iter().chain(others).flatten().collect()
}
