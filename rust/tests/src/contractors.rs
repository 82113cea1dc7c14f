//! Examples of what rights outlive, what contractors can change and see, and what needs no right (document 02, L9), each
//! from a store on which nobody has a right, with its answers and the words that it leaves.

use calls::Call::*;
use model::layout::*;

use crate::examples::{cut, no, ok, poke, Example, Step};
use crate::rights::{example, given, held, reopened, sized, PAGES};

/// Client 3 may write pages 0 and 1 and has made object 17 there, which the root names: five records.
fn made() -> impl Iterator<Item = Step> {
    let built = [
        ok(Begin(0, 3), 1),
        ok(LockWrite(0, 0), 0),
        ok(LockWrite(0, 1), 0),
        ok(Create(0, 17), 2),
        ok(SetWord(0, 17, 4, 8), 3),
        ok(SetWord(0, 1, 0, 17), 4),
        ok(Flush(0, 0), 0),
        ok(Flush(0, 1), 0),
        ok(Commit(0), 5),
    ];
    given(&[[3, 0, 2], [3, 1, 2]]).chain(built)
}

/// What rights outlive, and what they do not.
fn kept() -> Vec<Example> {
    let stay = |step: Step| step.rights(0, [0, 0, 0, 2, 0, 0, 0, 0]).rights(1, [0, 0, 0, 2, 0, 0, 0, 0]);
    let forced = (1..=5).map(|count| ok(Force, count));
    let stored = (0..2).map(|page| ok(StorePage(page), 0));
    let emptied = made().chain(forced).chain(stored).chain([stay(ok(EmptyLog, 0)), ok(Begin(2, 3), 1)]);
    let pass =
        [ok(PassStep, 1), ok(PassStep, 17), ok(PassStep, 0)].into_iter().chain((0..4).map(|_| ok(PassStep, 0)));
    let passed = made().chain([stay(ok(StartPass, 0))]).chain(pass.map(stay)).chain([ok(Begin(2, 3), 6)]);
    let locked = || [ok(LockWrite(2, 0), 0), stay(ok(Abort(2), 7)), ok(Begin(1, 3), 8), ok(LockWrite(1, 1), 0)];
    let lost = |step: Step| step.nothing();
    let steps = (0..=PAGES as u32).map(|page| ok(ReopenStep, page).nothing());
    let again = || [ok(Begin(0, 3), 1), no(LockRead(0, 0), 19), ok(Commit(0), 2), ok(Grant(3, 0, 1), 0)];
    let begun = || made().chain([ok(Begin(9, 3), 6).noted(9, &[3])]);
    let reopening = begun().chain([lost(ok(Reopen, 0))]).chain(steps.clone()).chain(again());
    let cut_off =
        begun().chain([lost(cut()), no(LockRead(9, 0), 2), lost(ok(Reopen, 0))]).chain(steps).chain(again());
    let unsound = [poke(Area::Stored, 0, 0), stay(no(Reopen, 14)).noted(9, &[3]), ok(LockRead(9, 0), 0)];
    vec![
        example("L9: rights outlive an emptied log", emptied.chain([ok(LockWrite(2, 1), 0)])),
        example("L9: .. a pass, a commit and an abort", passed.chain(locked())),
        example("L9: reopening gives all clients nothing", reopening),
        example("L9: .. and so does a cut", cut_off),
        example("L9: .. and formatting", begun().chain([ok(Format, 0).nothing()]).chain(again())),
        example("14: a refused reopening leaves rights and clients", begun().chain(unsound)),
    ]
}

/// A contractor that may read page 0 and write page 1: "no word of a page it may not write is changed by its sets,
/// creates, going back or abort".
fn contractor() -> impl Iterator<Item = Step> {
    let rights = [[5, 0, 1], [5, 1, 2]];
    let begun = [
        ok(Begin(4, 5), 6),
        ok(LockRead(4, 0), 0),
        ok(Read(4, 1), 17).shows([17, 0, 0, 0, 0, 0, 0, 0]),
        ok(LockWrite(4, 1), 0),
        ok(Read(4, 17), 0).shows([0, 0, 0, 0, 8, 0, 0, 0]),
        ok(Mark(4, 2), 0).noted(4, &[5]),
        ok(SetWord(4, 17, 4, 9), 7),
        ok(Create(4, 18), 8),
        no(SetWord(4, 1, 4, 1), 5),
        no(LockWrite(4, 0), 19),
        ok(Flush(4, 1), 0).noted(4, &[5]),
    ];
    made().chain(given(&rights).collect::<Vec<_>>()).chain(begun)
}

fn isolated() -> Vec<Example> {
    let root = [1, 17, 0];
    let spared = |step: Step| step.leaves(Area::Received, 0, &root).leaves(Area::Copies, 0, &root);
    let back = [
        spared(ok(Back(4, 2), 0)).noted(4, &[5]).leaves(Area::Received, map_at(1), &[1]),
        no(LockWrite(4, 0), 19),
        no(LockRead(4, 2), 19),
        ok(LockWrite(4, 1), 0),
        ok(Flush(4, 1), 0),
        spared(ok(Commit(4), 11)).noted(4, &[0]),
    ];
    let abort = [
        spared(ok(Abort(4), 11)).noted(4, &[0]).in_both(word_at(17, 4), 8).rights(1, [0, 0, 0, 2, 0, 2, 0, 0]),
        ok(Grant(5, 1, 0), 0),
        ok(Begin(4, 5), 12),
        no(LockRead(4, 1), 19),
        ok(LockRead(4, 0), 0),
        ok(Read(4, 1), 17),
        no(Read(4, 17), 5),
    ];
    vec![
        example("L9: a contractor goes back, and commits", contractor().chain(back)),
        example("L9: .. aborts, and its page is closed to it", contractor().chain(abort)),
    ]
}

/// A number is not hidden: who may read the record that names it may write it elsewhere. The record itself is closed.
fn numbers() -> Vec<Example> {
    let rights = [[5, 0, 1], [5, 2, 2]];
    let named = [
        ok(Begin(4, 5), 6),
        ok(LockRead(4, 0), 0),
        ok(Read(4, 1), 17),
        no(LockRead(4, 1), 19),
        no(Read(4, 17), 5),
        ok(LockWrite(4, 2), 0),
        ok(Create(4, 33), 7),
        ok(SetWord(4, 33, 0, 17), 8),
        ok(Read(4, 33), 17),
        ok(Flush(4, 2), 0),
        ok(Commit(4), 9),
    ];
    vec![example("L9: numbers are not hidden", made().chain(given(&rights).collect::<Vec<_>>()).chain(named))]
}

/// "The collector needs no rights", nor do force, store page, empty log, chain and share.
fn nobody() -> Vec<Example> {
    let unlinked = [
        ok(Begin(0, 3), 6),
        ok(LockWrite(0, 0), 0),
        ok(SetWord(0, 1, 0, 0), 7),
        ok(Flush(0, 0), 0),
        ok(Commit(0), 8),
    ];
    let forced = (1..=8).map(|count| ok(Force, count));
    let pass = [
        ok(StartPass, 0).nothing(),
        ok(PassStep, 1),
        ok(PassStep, 0),
        ok(PassStep, 0),
        ok(PassStep, 1).in_both(map_at(1), 0),
        ok(PassStep, 0),
        ok(PassStep, 0),
    ];
    let desk = [
        ok(Force, 1),
        ok(StorePage(1), 0).leaves(Area::Stored, map_at(1), &[0]),
        ok(EmptyLog, 0),
        ok(PassShare(10), 6),
        ok(Chain(1), 1),
        no(Chain(17), 15),
    ];
    let steps = made().chain(unlinked).chain(forced).chain([cut()]).chain(reopened()).chain(pass).chain(desk);
    vec![example("L9: the collector needs no rights, nor does the desk", steps)]
}

/// Marking goes over pages that nobody may read, and rights may be given while a pass runs.
fn marked() -> Vec<Example> {
    let forced = (1..=5).map(|count| ok(Force, count));
    let pass = [
        ok(StartPass, 0).nothing(),
        ok(PassStep, 1).at_object(Table::Colours, 17, GREY),
        ok(Grant(6, 1, 2), 0).rights(1, [0, 0, 0, 0, 0, 0, 2, 0]),
        ok(PassStep, 17),
        ok(PassStep, 0),
        ok(Grant(6, 1, 0), 0).nothing(),
        ok(PassStep, 0),
        ok(PassStep, 0).in_both(map_at(1), 1),
    ];
    vec![example("L9: marking needs no rights", made().chain(forced).chain([cut()]).chain(reopened()).chain(pass))]
}

/// Several transactions of one client, and two clients on a page of their own each.
fn side_by_side() -> Vec<Example> {
    let same = [
        ok(Begin(0, 3), 1),
        ok(Begin(1, 3), 2),
        ok(LockWrite(0, 1), 0),
        held(LockRead(1, 1), 0),
        held(LockWrite(1, 1), 0),
        ok(Commit(0), 3),
        ok(LockWrite(1, 1), 0),
    ];
    let apart = [
        ok(Begin(0, 1), 1),
        ok(Begin(1, 2), 2),
        no(LockRead(0, 2), 19),
        no(LockWrite(1, 1), 19),
        ok(LockWrite(0, 1), 0),
        ok(LockWrite(1, 2), 0),
        ok(Create(0, 17), 3),
        ok(Create(1, 33), 4),
        ok(Flush(1, 2), 0),
        ok(Abort(0), 6).in_both(map_at(1), 0).in_both(map_at(2), 1).noted(0, &[0, 2]),
        ok(Commit(1), 7),
    ];
    vec![
        example("L9: two transactions of one client", given(&[[3, 1, 2]]).chain(same)),
        example("L9: two clients with a page each", given(&[[1, 1, 2], [2, 2, 2]]).chain(apart)),
    ]
}

/// Transaction 7 is active as client 2, with this right on page 1, and has it locked for reading, writing or both.
fn without_right(name: &'static str, right: u32, locks: u32, asked: [Step; 2]) -> Example {
    let words = [
        poke(Area::Work, ACTIVE, bit(7)),
        poke(Area::Work, Table::Clients.first(PAGES) + 7, 2),
        poke(Area::Work, Table::Rights.first(PAGES) + right_at(2, 1), right),
        poke(Area::Work, Table::Readers.first(PAGES) + 1, bit(7) * (locks & 1)),
        poke(Area::Work, Table::Writers.first(PAGES) + 1, bit(7) * (locks >> 1)),
    ];
    let stays = |step: Step| step.noted(7, &[2]);
    example(name, words.into_iter().chain(asked.map(stays)))
}

/// States that no calls lead to: a lock that is held without its right is asked for in vain.
fn locked_without() -> Vec<Example> {
    let both = |reading, writing| {
        let step = |call, number| if number == 0 { ok(call, 0) } else { no(call, number) };
        [step(LockRead(7, 1), reading), step(LockWrite(7, 1), writing)]
    };
    vec![
        without_right("rubbish: a reader without a right", 0, 1, both(19, 19)),
        without_right("rubbish: a writer without a right", 0, 2, both(19, 19)),
        without_right("rubbish: both bits without a right", 0, 3, both(19, 19)),
        without_right("rubbish: a writer that may read", 1, 2, both(0, 19)),
        without_right("rubbish: a reader that may write", 2, 1, both(0, 0)),
    ]
}

/// .. and no other call looks at the right.
fn other_calls() -> Vec<Example> {
    let taken = [
        poke(Area::Work, Table::Writers.first(PAGES), 1),
        no(LockRead(0, 0), 19),
        ok(Read(0, 1), 0),
        ok(Mark(0, 0), 0),
        ok(Create(0, 2), 2),
        ok(SetWord(0, 1, 0, 2), 3),
        ok(Flush(0, 0), 0),
        ok(Back(0, 0), 0),
        ok(Create(0, 3), 6),
        ok(Abort(0), 8).in_both(0, 1),
    ];
    let inactive = [
        poke(Area::Work, Table::Clients.first(PAGES) + 3, 5),
        ok(Grant(5, 0, 2), 0).noted(3, &[5]),
        ok(Begin(0, 5), 1).noted(3, &[5]),
        ok(LockWrite(0, 0), 0),
        no(LockRead(3, 0), 4),
        ok(Abort(0), 2).noted(3, &[5]),
        ok(Grant(5, 0, 1), 0),
        ok(Begin(3, 1), 3).noted(3, &[1]),
        ok(Grant(5, 0, 0), 0),
    ];
    let rights = Table::Rights.first(PAGES);
    let steps = (0..=PAGES as u32).map(|page| ok(ReopenStep, page).rights(0, [0, 2, 0, 0, 0, 0, 0, 0]));
    let reopening = [ok(Reopen, 0), poke(Area::Work, rights + 1, 2), no(Grant(1, 0, 0), 2)];
    let locked = [ok(Begin(0, 1), 1), ok(LockWrite(0, 0), 0)];
    vec![
        example("rubbish: a right while reopening stays", reopening.into_iter().chain(steps).chain(locked)),
        example("rubbish: no other call asks for a right", [ok(Begin(0, 4), 1)].into_iter().chain(taken)),
        example("rubbish: a client beside an inactive transaction", inactive),
    ]
}

/// Refusal 1 by the two tables; lock_read of transaction 16 looks at every word and changes none.
fn ranges() -> Vec<Example> {
    let audit = |number| no(LockRead(16, 0), number);
    let set = |table: Table, at: usize, word: u32| poke(Area::Work, table.first(PAGES) + at, word);
    let bounds = |table: Table, last: usize, most: u32| {
        [0, last].into_iter().flat_map(move |at| {
            let above = [set(table, at, most + 1), audit(1), no(PassStep, 1), set(table, at, u32::MAX), audit(1)];
            above.into_iter().chain([set(table, at, most), audit(3), no(PassStep, 4)])
        })
    };
    let unread = [
        set(Table::Clients, 0, 8),
        set(Table::Rights, 31, 3),
        no(Begin(0, 0), 1),
        ok(Reopen, 0).nothing(),
        ok(ReopenStep, 0),
        set(Table::Rights, 31, 3),
        no(ReopenStep, 1),
        cut().nothing(),
        set(Table::Rights, 31, 3),
        no(Begin(0, 0), 2),
        no(ReopenStep, 4),
        ok(Format, 0).nothing(),
    ];
    vec![
        example("1: a client word above 7", bounds(Table::Clients, 15, 7)),
        example("1: a rights word above 2", bounds(Table::Rights, 31, 2)),
        sized("1: .. a client word above 0 where L = 1", PAGES, 1, bounds(Table::Clients, 15, 0)),
        sized("1: .. a rights word above 2 where L = 1", PAGES, 1, bounds(Table::Rights, 31, 2)),
        sized("1: .. a client word above 7 where L = 2", PAGES, 2, bounds(Table::Clients, 15, 7)),
        example("1: format, reopen and the word 0 look at lengths alone", unread),
    ]
}

pub fn examples() -> Vec<Example> {
    let pages = [kept(), isolated(), numbers(), nobody(), marked(), side_by_side()];
    pages.into_iter().chain([locked_without(), other_calls(), ranges()]).flatten().collect()
}
