//! Examples of stores in which objects name themselves already (document 02, L8), each with its answers and the words
//! that it leaves.

use calls::Call::*;
use model::layout::*;

use crate::chains::{chain, graph_in};
use crate::examples::{cut, no, ok, poke, Example, Step};

const PAGES: usize = 4;
/// Where word 0 of object 2 stands.
const WORD: usize = 1 + 8;

/// A store of which every page area has these objects, each with its references from word 0 on; and what is done then.
fn old(name: &'static str, objects: &[(u32, &[u32])], steps: impl IntoIterator<Item = Step>) -> Example {
    let areas = [Area::Stored, Area::Copies, Area::Received];
    let pages = areas.into_iter().flat_map(|area| graph_in(area, objects));
    Example { name, pages: PAGES, records: 64, steps: pages.chain(steps).collect() }
}

/// .. in which the root names a valve, object 2, that names itself.
fn valve(name: &'static str, steps: impl IntoIterator<Item = Step>) -> Example {
    old(name, &[(1, &[2]), (2, &[2])], steps)
}

/// Transaction 0 may change page 0, and knows what the root's word 0 names.
fn begun(named: u32) -> [Step; 3] {
    [ok(Begin(0, 0), 1), ok(LockWrite(0, 0), 0), ok(Read(0, 1), named)]
}

/// .. of the valve.
fn then(steps: impl IntoIterator<Item = Step>) -> impl Iterator<Item = Step> {
    begun(2).into_iter().chain(steps)
}

/// A set of the object's own number, refused.
fn own(object: u32, field: u32, number: u32) -> Step {
    no(SetWord(0, object, field, object), number)
}

fn forced(counts: std::ops::RangeInclusive<u32>) -> impl Iterator<Item = Step> {
    counts.map(|count| ok(Force, count))
}

/// A reopening to its end, in which the valve's word 0 comes to be this.
fn reopened(word: u32) -> impl Iterator<Item = Step> {
    let steps = (0..=PAGES as u32).map(move |page| ok(ReopenStep, page).leaves(Area::Received, WORD, &[word]));
    let stored = no(Commit(0), 4).leaves(Area::Stored, WORD, &[word]);
    [ok(Reopen, 0).in_both(WORD, word)].into_iter().chain(steps).chain([stored])
}

/// A pass that scans these objects and frees so many slots of page 0.
fn pass(scanned: &[u32], freed: u32) -> impl Iterator<Item = Step> + '_ {
    let scans = scanned.iter().map(|&object| ok(PassStep, object));
    let pages = [freed, 0, 0, 0].map(|slots| ok(PassStep, slots));
    [ok(StartPass, 0)].into_iter().chain(scans).chain([ok(PassStep, 0)]).chain(pages)
}

/// The request's own old store.
fn note() -> Vec<Example> {
    let steps = [
        own(2, 0, 18),
        ok(SetWord(0, 2, 0, 0), 2).appends(1, &[[3, 2, 0, 2, 0]]).at_object(Table::Pruned, 2, 1),
        own(2, 0, 18),
        ok(Abort(0), 4).appends(2, &[[3, 2, 0, 0, 2], [5, 0, 0, 0, 0]]).in_both(WORD, 2),
        ok(Begin(0, 0), 5).at_object(Table::Pruned, 2, 0),
    ];
    let again = forced(1..=5).chain(reopened(2)).chain(pass(&[1, 2], 0));
    vec![valve("L8: ones already stored may be overwritten, and undoing puts one back", then(steps).chain(again))]
}

/// "Ones already stored .. are read": shown as they are, with what else the object names.
fn reads() -> Vec<Example> {
    let four = [
        ok(Read(0, 2), 2).shows([2, 3, 2, 2, 0, 0, 0, 0]).has(Table::Known, 0, &[1, 1, 1, 0]),
        own(3, 1, 18),
        ok(SetWord(0, 3, 1, 2), 2),
    ];
    let root = [ok(Begin(0, 0), 1), ok(LockRead(0, 0), 0), ok(Read(0, 1), 1).shows([1, 2, 0, 0, 0, 0, 0, 0])];
    vec![
        old("L8: .. are read", &[(1, &[2]), (2, &[2, 3, 2, 2]), (3, &[])], then(four)),
        old("L8: .. of the root", &[(1, &[1, 2]), (2, &[])], root),
    ]
}

/// A chain does not go round, and an object that only names itself has none.
fn shown_chains() -> Vec<Example> {
    let chains = [chain(1, &[1]), chain(2, &[1, 2]), chain(3, &[1, 2, 3]), chain(5, &[]), chain(7, &[])];
    let root = [chain(1, &[1]), chain(2, &[1, 2])];
    vec![
        old("L8: chains", &[(1, &[2]), (2, &[2, 3]), (3, &[3]), (5, &[5, 7])], chains),
        old("L8: .. of a root that names itself", &[(1, &[1, 1, 2, 1]), (2, &[2])], root),
    ]
}

/// ".. marked": whatever it names is reached through it; and what only it names goes with it.
fn passes() -> Vec<Example> {
    let objects: [(u32, &[u32]); 5] = [(1, &[2]), (2, &[2, 3]), (3, &[3]), (5, &[5, 7]), (6, &[6; 4])];
    let start = ok(StartPass, 0).has(Table::Colours, 0, &[GREY, WHITE, WHITE, WHITE, WHITE, WHITE, WHITE]);
    let scans = [1, 2, 3].map(|object| ok(PassStep, object).at_object(Table::Colours, object, BLACK));
    let sweep = [7, 0, 0, 0, 0, 0b111_0000];
    let freed = ok(PassStep, 3).in_both(0, 0b111).in_both(word_at(5, 0), 0).leaves(Area::Log, 0, &sweep);
    let gone = [no(Chain(5), 15), ok(PassStep, 0), ok(PassStep, 0), ok(PassStep, 0).rests()];
    let again = [
        ok(Begin(0, 0), 2),
        ok(LockWrite(0, 0), 0),
        ok(Create(0, 5), 3),
        ok(Read(0, 5), 0).shows([0; 8]),
        own(5, 0, 18),
    ];
    let swept = [start].into_iter().chain(scans).chain([ok(PassStep, 0), freed]).chain(gone).chain(again);
    vec![
        old("L8: .. are marked, and swept where the root does not reach them", &objects, swept),
        old("L8: .. a root that names itself is marked", &[(1, &[1, 2]), (2, &[2, 1])], pass(&[1, 2], 0)),
    ]
}

/// "may be overwritten": by 0 and by another object, and not by itself, in that word or another.
fn overwritten() -> Vec<Example> {
    let other = [
        own(2, 0, 18).leaves(Area::Counts, 0, &[1, 0]).at_page(Table::Unflushed, 0, 0),
        own(2, 0, 18).at_object(Table::Pruned, 2, 0),
        own(2, 1, 18),
        ok(SetWord(0, 2, 0, 1), 2).leaves(Area::Received, WORD, &[1]).has(Table::Pruned, 0, &[0, 1]),
        own(2, 0, 18),
        ok(SetWord(0, 2, 4, 2), 3),
        ok(Flush(0, 0), 0).leaves(Area::Copies, WORD, &[1]),
        ok(Commit(0), 4),
    ];
    let colours = |step: Step, valve| step.has(Table::Colours, 0, &[GREY, valve]);
    let marking = [
        colours(ok(StartPass, 0), WHITE),
        colours(own(2, 0, 18), WHITE),
        colours(ok(SetWord(0, 2, 0, 0), 2), GREY),
        ok(PassStep, 1),
        ok(PassStep, 2),
    ];
    let root = [
        own(1, 0, 18),
        ok(SetWord(0, 1, 0, 0), 2).has(Table::Pruned, 0, &[1, 0]),
        own(1, 0, 18),
        ok(Abort(0), 4).in_both(1, 1),
    ];
    let unknown =
        [ok(Begin(0, 0), 1), own(2, 0, 5), ok(LockWrite(0, 0), 0), own(2, 0, 7), ok(Read(0, 1), 2), own(2, 0, 18)];
    vec![
        valve("L8: .. by another object", then(other)),
        valve("L8: .. while marking it turns grey", then(marking)),
        old("L8: .. the root's", &[(1, &[1])], begun(1).into_iter().chain(root)),
        valve("L8: .. of an object that t does not know", unknown),
    ]
}

/// "stay": flushed, stored, with an emptied log, cut and reopened.
fn stay() -> Vec<Example> {
    let flushed = [ok(SetWord(0, 2, 5, 9), 2), ok(Flush(0, 0), 0).in_both(WORD, 2), ok(Commit(0), 3)];
    let stored = || [ok(StorePage(0), 0).leaves(Area::Stored, WORD, &[2]), ok(EmptyLog, 0)];
    let unflushed = [Area::Copies, Area::Stored].map(|area| poke(area, WORD, 0));
    let taken = [chain(2, &[1, 2]), ok(Flush(0, 0), 0).in_both(WORD, 2), ok(Commit(0), 2)];
    let gone = poke(Area::Received, WORD, 0);
    let lag = [no(SetWord(0, 2, 0, 2), 18), ok(Flush(0, 0), 0).in_both(WORD, 0), ok(Commit(0), 2), own(2, 0, 4)];
    let disk = then(flushed).chain(forced(1..=3)).chain(stored()).chain([cut()]).chain(reopened(2));
    vec![
        valve("L8: .. stay, are flushed, stored and reopened", disk.chain(pass(&[1, 2], 0))),
        valve("L8: .. in the received page alone", unflushed.into_iter().chain(then(taken))),
        valve("L8: .. in the copy alone", [gone].into_iter().chain(then(lag))),
    ]
}

/// "Undoing may put an old one back": going back to a mark.
fn gone_back() -> Vec<Example> {
    let undoing = [[3, 2, 0, 3, 0], [6, 3, 0, 0, 0], [3, 2, 0, 0, 2]];
    let went =
        ok(Back(0, 1), 0).appends(4, &undoing).leaves(Area::Received, WORD, &[2]).leaves(Area::Copies, WORD, &[3]);
    let steps = [
        ok(Mark(0, 1), 0),
        ok(SetWord(0, 2, 0, 0), 2),
        ok(Create(0, 3), 3),
        ok(SetWord(0, 2, 0, 3), 4),
        ok(Flush(0, 0), 0),
        went.at_page(Table::Unflushed, 0, 1).at_object(Table::Pruned, 2, 1),
        own(2, 0, 18),
        no(Commit(0), 10),
        ok(Flush(0, 0), 0).in_both(WORD, 2),
        ok(Back(0, 1), 0).appends(7, &[]),
    ];
    let committed = steps.clone().into_iter().chain([ok(Commit(0), 8)]).chain(forced(1..=8)).chain([cut()]);
    let aborted = [ok(SetWord(0, 2, 0, 0), 8), ok(Abort(0), 10).appends(8, &[[3, 2, 0, 0, 2], [5, 0, 0, 0, 0]])];
    vec![
        valve("L8: going back puts one back", then(committed).chain(reopened(2))),
        valve("L8: .. and so does an abort after it", then(steps).chain(aborted)),
    ]
}

/// After a mark the valve's word is overwritten twice, and then this is done; so many records are stable at the cut.
fn cut_after(name: &'static str, end: &[Step], stable: u32, word: u32) -> Example {
    let sets = [ok(Mark(0, 0), 0), ok(SetWord(0, 2, 0, 1), 2), ok(SetWord(0, 2, 0, 0), 3), ok(Flush(0, 0), 0)];
    let steps = then(sets).chain(end.to_vec()).chain(forced(1..=stable)).chain([cut()]).chain(reopened(word));
    valve(name, steps)
}

/// "reopened": a cut after each record, where the transaction is aborted, goes back, or is committed.
fn cuts() -> Vec<Example> {
    let aborted = [ok(Abort(0), 6).appends(3, &[[3, 2, 0, 0, 1], [3, 2, 0, 1, 2], [5, 0, 0, 0, 0]])];
    let went = [ok(Back(0, 0), 0).appends(3, &[[3, 2, 0, 0, 1], [3, 2, 0, 1, 2]])];
    let committed = [ok(Commit(0), 4)];
    let name = "L8: a cut, and what is stable is reopened";
    let undone = (0..=6).map(|stable| cut_after(name, &aborted, stable, 2));
    let gone_back = (3..=5).map(|stable| cut_after(name, &went, stable, 2));
    let kept = (0..=4).map(|stable| cut_after(name, &committed, stable, if stable == 4 { 0 } else { 2 }));
    undone.chain(gone_back).chain(kept).collect()
}

/// These records of transaction 0 are received and stable: kind, old, new of the valve's word 0.
fn records(records: &[[u32; 3]]) -> Vec<Step> {
    let words = records.iter().flat_map(|&[kind, old, new]| [kind, 0, if kind == 3 { 2 } else { 0 }, 0, old, new]);
    let log = words.enumerate().map(|(at, word)| poke(Area::Log, at, word));
    let counts = (0..2).map(|count| poke(Area::Counts, count, records.len() as u32));
    log.chain(counts).collect()
}

/// A disk of before: its stored word, its stable records, and the word that reopening makes of it.
fn disk(name: &'static str, stored: u32, log: &[[u32; 3]], word: u32) -> Example {
    let steps =
        [poke(Area::Stored, WORD, stored)].into_iter().chain(records(log)).chain([cut()]).chain(reopened(word));
    valve(name, steps.chain(then([own(2, 0, 18), ok(SetWord(0, 2, 0, 1), 2), ok(SetWord(0, 2, 0, 0), 3)])))
}

const BEGIN: [u32; 3] = [1, 0, 0];
const COMMIT: [u32; 3] = [4, 0, 0];
const ABORTED: [u32; 3] = [5, 0, 0];

/// Records that write, overwrite and write again an own number, of a transaction that was committed, aborted or lost.
fn disks() -> Vec<Example> {
    let [write, overwrite, again] = [[3, 0, 2], [3, 2, 0], [3, 2, 2]];
    vec![
        disk("L8: a record that writes one is reopened", 0, &[BEGIN, write, COMMIT], 2),
        disk("L8: .. over a page that has it", 2, &[BEGIN, write, COMMIT], 2),
        disk("L8: .. undone", 2, &[BEGIN, write], 0),
        disk("L8: a record that overwrites one is reopened", 2, &[BEGIN, overwrite, COMMIT], 0),
        disk("L8: .. undone", 2, &[BEGIN, overwrite], 2),
        disk("L8: .. undone over a page that lacks it", 0, &[BEGIN, overwrite], 2),
        disk("L8: .. with its undoing record", 0, &[BEGIN, overwrite, write], 2),
        disk("L8: .. aborted", 0, &[BEGIN, overwrite, write, ABORTED], 2),
        disk("L8: a record that writes one again is reopened", 2, &[BEGIN, again, COMMIT], 2),
        disk("L8: .. undone", 2, &[BEGIN, again], 2),
    ]
}

/// A transaction of before that runs: it is active, has page 0, and knows the root and the valve.
fn running(name: &'static str, word: u32, log: &[[u32; 3]], steps: impl IntoIterator<Item = Step>) -> Example {
    let [writers, known] = [Table::Writers, Table::Known].map(|table| table.first(PAGES));
    let work =
        [(ACTIVE, 1), (writers, 1), (known, 1), (known + 1, 1)].map(|(at, word)| poke(Area::Work, at, word));
    let pages = [Area::Stored, Area::Copies, Area::Received].map(|area| poke(area, WORD, word));
    valve(name, pages.into_iter().chain(records(log)).chain(work).chain(steps))
}

/// Its records are in range, and are undone as any other.
fn received() -> Vec<Example> {
    let to_abort =
        [own(2, 0, 18), ok(Abort(0), 4).appends(2, &[[3, 2, 0, 2, 0], [5, 0, 0, 0, 0]]).in_both(WORD, 0)];
    let mark = [Table::LeftAtMarks, Table::MarkOrder].map(|table| table.first(PAGES));
    let marked = || [poke(Area::Work, mark[0], 0), poke(Area::Work, mark[1], 1)];
    let back = [ok(Back(0, 0), 0).appends(2, &[[3, 2, 0, 2, 0]]).leaves(Area::Received, WORD, &[0, 0])];
    let put_back = [ok(Back(0, 0), 0).appends(2, &[[3, 2, 0, 0, 2]]).leaves(Area::Received, WORD, &[2, 0])];
    let again = [own(2, 0, 18), ok(Abort(0), 4).appends(2, &[[3, 2, 0, 2, 2], [5, 0, 0, 0, 0]]).in_both(WORD, 2)];
    vec![
        running("L8: a running transaction wrote one, and aborts", 2, &[BEGIN, [3, 0, 2]], to_abort),
        running("L8: .. and goes back", 2, &[BEGIN, [3, 0, 2]], marked().into_iter().chain(back)),
        running(
            "L8: .. overwrote one, and goes back",
            0,
            &[BEGIN, [3, 2, 0]],
            marked().into_iter().chain(put_back),
        ),
        running("L8: .. wrote one again, and aborts", 2, &[BEGIN, [3, 2, 2]], again),
    ]
}

/// The number of an object in its own data words, and rings of two, are no own numbers.
fn others() -> Vec<Example> {
    let data = [Area::Stored, Area::Copies, Area::Received].map(|area| poke(area, word_at(1, 4), 1));
    let set = [ok(Read(0, 1), 0).shows([0, 0, 0, 0, 1, 0, 0, 0]), ok(SetWord(0, 1, 4, 1), 2), own(1, 3, 18)];
    let data = data.into_iter().chain(begun(0)).chain(set).chain([ok(Abort(0), 4)]).chain(pass(&[1], 0));
    let ring = [
        ok(Read(0, 2), 3),
        ok(SetWord(0, 2, 0, 3), 2),
        ok(SetWord(0, 3, 0, 2), 3),
        own(3, 0, 18),
        ok(SetWord(0, 1, 0, 0), 4),
        ok(Flush(0, 0), 0),
        ok(Commit(0), 5),
    ];
    let ring = begun(2).into_iter().chain(ring).chain(pass(&[1], 2));
    vec![
        old("L8: data words", &[(1, &[])], data),
        old("L8: a ring of two is swept as one that names itself is", &[(1, &[2]), (2, &[3]), (3, &[2])], ring),
    ]
}

pub fn examples() -> Vec<Example> {
    let sentences = [note(), reads(), shown_chains(), passes(), overwritten(), stay(), gone_back()];
    let logs = [cuts(), disks(), received(), others()];
    sentences.into_iter().chain(logs).flatten().collect()
}
