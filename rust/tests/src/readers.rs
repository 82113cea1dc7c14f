//! Examples of sweeping under readers, and of the images that flush takes (document 02, L6), each with its answers and
//! the words that it leaves.

use calls::Call::*;
use model::layout::*;

use crate::actions::{Image, Request};
use crate::examples::{cut, no, ok, poke, Example, Step};

const PAGES: usize = 4;

fn example(name: &'static str, steps: impl IntoIterator<Item = Step>) -> Example {
    with_records(name, 64, steps)
}

fn with_records(name: &'static str, records: usize, steps: impl IntoIterator<Item = Step>) -> Example {
    Example { name, pages: PAGES, records, steps: steps.into_iter().collect() }
}

impl Step {
    /// .. after which this word of a page is the same in copy and received page.
    pub fn in_both(self, at: usize, word: u32) -> Step {
        self.leaves(Area::Copies, at, &[word]).leaves(Area::Received, at, &[word])
    }

    /// .. after which page 0 is this in the copies.
    fn copied(self, map: u32, words: &[(usize, u32)]) -> Step {
        self.leaves(Area::Copies, 0, &page(map, words))
    }

    /// .. after which a table by page has this at a page.
    pub fn at_page(self, table: Table, page: usize, word: u32) -> Step {
        self.leaves(Area::Work, table.first(PAGES) + page, &[word])
    }

    /// .. after which a table by object has this at an object.
    pub fn at_object(self, table: Table, object: u32, word: u32) -> Step {
        self.leaves(Area::Work, table.first(PAGES) + object as usize - 1, &[word])
    }

    /// .. which shows these words.
    pub fn shows(self, words: [u32; 8]) -> Step {
        Step { buffer: Some(words.to_vec()), ..self }
    }
}

/// A page of this map and these words, the others 0.
fn page(map: u32, words: &[(usize, u32)]) -> Vec<u32> {
    let mut page = vec![0; PAGE_WORDS];
    page[0] = map;
    words.iter().for_each(|&(at, word)| page[at] = word);
    page
}

/// A flush of page 0 by t with such an image.
fn flush(t: u32, map: u32, words: &[(usize, u32)]) -> Request {
    Request::flush(t, 0, Image::Seen(page(map, words)))
}

/// Object 2, which nothing names, with a word 4: committed in three records, or four.
fn litter(word: u32) -> Vec<Step> {
    let set = (word != 0).then(|| ok(SetWord(0, 2, 4, word), 3));
    let end = [ok(Flush(0, 0), 0), ok(Commit(0), 3 + u32::from(word != 0))];
    [ok(Begin(0, 0), 1), ok(LockWrite(0, 0), 0), ok(Create(0, 2), 2)].into_iter().chain(set).chain(end).collect()
}

/// The root is scanned, the pass turns to sweeping, and the step of page 0 frees object 2.
fn swept() -> [Step; 4] {
    [ok(StartPass, 0), ok(PassStep, 1), ok(PassStep, 0), ok(PassStep, 1).in_both(0, 1)]
}

/// The note's list: 1 reads page 0, of which object 2 is swept, and locks it for writing.
fn note() -> impl Iterator<Item = Step> {
    let reader = [ok(Begin(1, 0), 4), ok(LockRead(1, 0), 0), ok(Read(1, 1), 0)];
    litter(0).into_iter().chain(reader).chain(swept()).chain([ok(LockWrite(1, 0), 0)])
}

/// "a page is skipped only if someone has it write-locked".
fn skipped() -> Vec<Example> {
    let sweep = [7, 0, 0, 0, 0, 0b10];
    let reader = [ok(Begin(1, 0), 4), ok(LockRead(1, 0), 0), ok(Read(1, 1), 0), ok(StartPass, 0), ok(PassStep, 1)];
    let freed = [
        ok(PassStep, 0),
        ok(PassStep, 1)
            .in_both(0, 1)
            .leaves(Area::Log, RECORD_WORDS * 4, &sweep)
            .leaves(Area::Counts, RECEIVED_COUNT, &[5])
            .at_page(Table::Readers, 0, bit(1))
            .at_object(Table::Known, ROOT, bit(1)),
        ok(Read(1, 1), 0).shows([0; 8]),
        ok(Commit(1), 6),
    ];
    let writer = [ok(Begin(1, 0), 4), ok(LockRead(1, 0), 0), ok(LockWrite(1, 0), 0), ok(StartPass, 0)];
    let left = [ok(PassStep, 1), ok(PassStep, 0), ok(PassStep, 0).in_both(0, 0b11)];
    vec![
        example("L6: a page with a reader is swept", litter(0).into_iter().chain(reader).chain(freed)),
        example(
            "L6: .. and skipped if someone has it write-locked",
            litter(0).into_iter().chain(writer).chain(left),
        ),
    ]
}

/// Two readers keep the page; and a reader and a writer have a page each.
fn several() -> Vec<Example> {
    let both = [ok(Begin(1, 0), 4), ok(Begin(2, 0), 5), ok(LockRead(1, 0), 0), ok(LockRead(2, 0), 0)];
    let go_on = [
        ok(Read(1, 1), 0).at_page(Table::Readers, 0, bit(1) + bit(2)),
        ok(Read(2, 1), 0),
        Step { value: 2, ..no(LockWrite(1, 0), 6) },
        ok(Commit(2), 7),
        ok(LockWrite(1, 0), 0),
        ok(flush(1, 0b11, &[]), 0).copied(1, &[]),
        ok(Create(1, 2), 8),
        ok(flush(1, 0b11, &[]), 0).copied(0b11, &[]),
        ok(Commit(1), 9),
    ];
    let two_pages = [ok(Begin(0, 0), 1), ok(LockWrite(0, 0), 0), ok(LockWrite(0, 1), 0), ok(Create(0, 2), 2)];
    let littered = [ok(Create(0, 32), 3), ok(Flush(0, 0), 0), ok(Flush(0, 1), 0), ok(Commit(0), 4)];
    let apart = [ok(Begin(1, 0), 5), ok(LockRead(1, 0), 0), ok(Begin(2, 0), 6), ok(LockWrite(2, 1), 0)];
    let last = |freed| [ok(PassStep, freed), ok(PassStep, 0), ok(PassStep, 0)];
    let again = [ok(Commit(2), 8), ok(StartPass, 0), ok(PassStep, 1), ok(PassStep, 0), ok(PassStep, 0)];
    vec![
        example("L6: two readers", litter(0).into_iter().chain(both).chain(swept()).chain(go_on)),
        example(
            "L6: a reader and a writer on different pages",
            two_pages
                .into_iter()
                .chain(littered)
                .chain(apart)
                .chain(swept())
                .chain(last(0))
                .chain(again)
                .chain(last(1)),
        ),
    ]
}

/// "the flush compares only the slots occupied in the received page": the note's table.
fn images() -> Vec<Example> {
    let long = |words| Request::flush(1, 0, Image::Long(words));
    let taken = |name, map, words: &[(usize, u32)]| {
        example(name, note().chain([ok(flush(1, map, words), 0).copied(1, &[]), ok(Commit(1), 6)]))
    };
    vec![
        taken("L6: an image as read before the sweep", 0b11, &[]),
        taken("L6: .. that still shows words of the swept slot", 0b11, &[(9, 77)]),
        taken("L6: the map does not count: none", 0, &[]),
        taken("L6: .. another slot", 0b10, &[]),
        taken("L6: .. all", 65535, &[]),
        taken("L6: .. above 65535", 65536, &[]),
        taken("L6: .. every bit", u32::MAX, &[(9, u32::MAX), (128, u32::MAX)]),
        example("9: a word of the root", note().chain([no(flush(1, 1, &[(5, 7)]), 9).copied(1, &[])])),
        example("9: .. that the map shows free", note().chain([no(flush(1, 0, &[(5, 7)]), 9)])),
        example(
            "1: 128 words",
            note().chain([no(long(128), 1), no(long(9), 1), no(long(130), 1), no(long(0), 1)]),
        ),
    ]
}

/// An image of zeros agrees with occupied slots of zeros alone.
fn zeros() -> Vec<Example> {
    let set = [ok(SetWord(1, 1, 4, 7), 6), no(flush(1, 0, &[]), 9), no(flush(1, 1, &[]), 9).copied(1, &[])];
    let sent = ok(flush(1, 0, &[(5, 7)]), 0).copied(1, &[(5, 7)]);
    let free = [ok(Begin(0, 0), 1), ok(LockWrite(0, 3), 0), ok(Request::flush(0, 3, Image::Noise(5)), 0)];
    let any = free.into_iter().chain([ok(Commit(0), 2).leaves(Area::Copies, map_at(3), &[0; PAGE_WORDS])]);
    vec![
        example("9: an image of zeros, and an occupied slot with other words", note().chain(set).chain([sent])),
        example("L6: a page without objects takes any image", any),
    ]
}

/// Each word of a page by itself.
fn single_words() -> Vec<Example> {
    let changed = |at, word| Request::flush(0, 0, Image::Changed(at, word));
    let begun = || [ok(Begin(0, 0), 1), ok(LockWrite(0, 0), 0)].into_iter();
    let creates = (2..=16).map(|object| ok(Create(0, object), object));
    let all: Vec<Step> = (1..PAGE_WORDS).map(|at| no(changed(at, 1), 9).copied(1, &[])).collect();
    let maps = [0, 1, 32768, 65535, 65536, u32::MAX].map(|map| ok(changed(0, map), 0).copied(65535, &[]));
    let root = (1..9).map(|at| no(changed(at, 1), 9));
    let free = (9..PAGE_WORDS).map(|at| ok(changed(at, 77), 0).copied(1, &[]));
    let last = [ok(Create(0, 16), 2), no(changed(121, 1), 9), no(changed(128, 1), 9), ok(changed(120, 1), 0)];
    vec![
        example("9: each word of sixteen occupied slots", begun().chain(creates).chain(all).chain(maps)),
        example("L6: the rest of the image does not count", begun().chain(root).chain(free)),
        example("9: the last slot", begun().chain(last)),
    ]
}

/// What is occupied in the received page counts, not what the copy has.
fn by_received() -> Vec<Example> {
    let begun =
        || [ok(Begin(0, 0), 1), ok(LockWrite(0, 0), 0), ok(Mark(0, 0), 0), ok(Create(0, 2), 2)].into_iter();
    let unflushed = [
        ok(SetWord(0, 2, 7, 9), 3),
        no(flush(0, 1, &[]), 9),
        no(flush(0, 0b11, &[(9, 1), (16, 9)]), 9),
        ok(flush(0, 1, &[(16, 9)]), 0).copied(0b11, &[(16, 9)]),
    ];
    let undone = [
        ok(SetWord(0, 2, 7, 9), 3),
        ok(Flush(0, 0), 0).copied(0b11, &[(16, 9)]),
        ok(Back(0, 0), 0).copied(0b11, &[(16, 9)]),
        ok(flush(0, 0b11, &[(12, 5)]), 0).copied(1, &[]),
        ok(Commit(0), 6),
    ];
    vec![
        example("9: a slot that the copy does not have yet", begun().chain(unflushed)),
        example("L6: .. and one that it has still", begun().chain(undone)),
    ]
}

/// "Order of flush: 1, 2, 3, 4, 5, 9".
fn order() -> Vec<Example> {
    let wrong = |t, page| Request::flush(t, page, Image::Noise(7));
    let short = |t| Request::flush(t, 0, Image::Long(128));
    let steps = [
        ok(Begin(0, 0), 1),
        no(wrong(16, 0), 3),
        no(wrong(0, 4), 3),
        no(wrong(1, 0), 4),
        no(wrong(0, 0), 5),
        ok(LockRead(0, 0), 0),
        no(wrong(0, 0), 5),
        no(short(0), 1),
        ok(LockWrite(0, 0), 0),
        no(wrong(0, 0), 9),
        ok(Reopen, 0),
        no(wrong(0, 0), 2),
        no(short(16), 1),
    ];
    vec![example("1, 2, 3, 4, 5, 9: the order of flush", steps)]
}

/// "A tablet may then flush an image that still shows a swept slot": the slot does not come back.
fn stays_swept() -> Vec<Example> {
    let read = [ok(Begin(1, 0), 5), ok(LockRead(1, 0), 0), ok(Read(1, 1), 0)];
    let stale = flush(1, 0b11, &[(5, 6), (13, 77)]);
    let sent =
        [ok(LockWrite(1, 0), 0), ok(SetWord(1, 1, 4, 6), 7), ok(stale, 0).copied(1, &[(5, 6)]), ok(Commit(1), 8)];
    let sent: Vec<Step> = litter(77).into_iter().chain(read).chain(swept()).chain(sent).collect();
    let forced = || (1..=8).map(|count| ok(Force, count));
    let stored = ok(StorePage(0), 0).leaves(Area::Stored, 0, &page(1, &[(5, 6)]));
    let reopened = || {
        let steps = (0..=4).map(|page| ok(ReopenStep, page));
        [cut(), ok(Reopen, 0).in_both(0, 1).in_both(13, 0).in_both(5, 6)].into_iter().chain(steps)
    };
    let again = || {
        let created =
            [ok(Begin(2, 0), 1), ok(LockWrite(2, 0), 0), ok(Create(2, 2), 2), ok(Read(2, 2), 0).shows([0; 8])];
        [no(Chain(2), 15)].into_iter().chain(created)
    };
    let emptied = [stored.clone(), ok(EmptyLog, 0)];
    let replayed = sent.clone().into_iter().chain(forced()).chain(reopened()).chain(again());
    let both = sent.clone().into_iter().chain(forced()).chain([stored]).chain(reopened()).chain(again());
    let from_disk = sent.into_iter().chain(forced()).chain(emptied).chain(reopened()).chain(again());
    vec![
        example("L6: a stale image flushed, then stored, emptied, cut and reopened", from_disk),
        example("L6: .. stored, cut and reopened", both),
        example("L6: .. cut and reopened", replayed),
    ]
}

/// "Records that a reader knows stay safe as before": one that it unlinks itself too, until it ends.
fn safe() -> Vec<Example> {
    let words = [0, 0, 0, 0, 8, 0, 0, 0];
    let made = [
        ok(Begin(0, 0), 1),
        ok(LockWrite(0, 0), 0),
        ok(LockWrite(0, 1), 0),
        ok(Create(0, 17), 2),
        ok(SetWord(0, 17, 4, 8), 3),
        ok(SetWord(0, 1, 0, 17), 4),
        ok(Flush(0, 0), 0),
        ok(Flush(0, 1), 0),
        ok(Commit(0), 5),
    ];
    let read = [ok(Begin(1, 0), 6), ok(LockRead(1, 0), 0), ok(Read(1, 1), 17), ok(LockRead(1, 1), 0)];
    let unlinked = [
        ok(Read(1, 17), 0).shows(words),
        ok(LockWrite(1, 0), 0),
        ok(SetWord(1, 1, 0, 0), 7),
        ok(flush(1, 1, &[]), 0),
        ok(StartPass, 0),
        ok(PassStep, 1),
        ok(PassStep, 17),
        ok(PassStep, 0),
    ];
    let kept = (0..4).map(|_| ok(PassStep, 0)).chain([ok(Read(1, 17), 0).shows(words), ok(Commit(1), 8)]);
    let gone = [ok(StartPass, 0), ok(PassStep, 1), ok(PassStep, 0), ok(PassStep, 0), ok(PassStep, 1)];
    let name = "L6: records that a reader knows stay safe";
    vec![example(name, made.into_iter().chain(read).chain(unlinked).chain(kept).chain(gone))]
}

/// A page that is read needs room for its sweep record.
fn room() -> Vec<Example> {
    let full = [ok(Begin(1, 0), 4), ok(LockRead(1, 0), 0), ok(StartPass, 0), ok(PassStep, 1), ok(PassStep, 0)];
    let refused = [no(PassStep, 11).in_both(0, 0b11), ok(Commit(1), 5), no(PassStep, 11)];
    vec![with_records(
        "11: a page that is read, in a full log",
        5,
        litter(0).into_iter().chain(full).chain(refused),
    )]
}

/// Page 0 has object 2 as litter and these readers and writers, none of them active; whether its step frees something.
fn masks(name: &'static str, readers: u32, writers: u32, freed: bool) -> Example {
    let words = [(Table::Readers, readers), (Table::Writers, writers), (Table::Unflushed, 9)];
    let pokes = words.map(|(table, word)| poke(Area::Work, table.first(PAGES), word));
    let known = [Table::Known, Table::Pruned].map(|table| poke(Area::Work, table.first(PAGES) + 1, 5));
    let step = ok(PassStep, u32::from(freed))
        .in_both(0, if freed { 1 } else { 0b11 })
        .at_object(Table::Known, 2, 5)
        .at_object(Table::Pruned, 2, 5);
    let stays = words.into_iter().fold(step, |step, (table, word)| step.at_page(table, 0, word));
    let pass = [ok(StartPass, 0), ok(PassStep, 1), ok(PassStep, 0)];
    example(name, litter(0).into_iter().chain(pass).chain(pokes).chain(known).chain([stays]))
}

/// States that no calls lead to: a bit is a lock, active or not, and a sweep changes no known, PRT, COT or unflushed
/// word.
fn rubbish() -> Vec<Example> {
    vec![
        masks("rubbish: all sixteen read", 65535, 0, true),
        masks("rubbish: a writer that is not active", 0, 1 << 15, false),
        masks("rubbish: a reader and another writer", 1 << 3, 1 << 4, false),
        masks("rubbish: both bits of one", 1 << 3, 1 << 3, false),
        masks("rubbish: nobody", 0, 0, true),
    ]
}

pub fn examples() -> Vec<Example> {
    let sweeps = [skipped(), several(), safe(), room(), rubbish()];
    let flushes = [images(), zeros(), single_words(), by_received(), order(), stays_swept()];
    sweeps.into_iter().chain(flushes).flatten().collect()
}
