//! Examples of the sweeping step in the paper's order (document 02, L7), each with its answer, the phase, the page and
//! the step number, and what it leaves of pages and log.

use std::ops::RangeInclusive;

use calls::Call::*;
use model::layout::*;

use crate::examples::{no, ok, poke, Example, Step};
use crate::passes::{example, pass, row, start, with_records};

impl Step {
    /// .. after which so many records are received.
    fn received(self, count: u32) -> Step {
        self.leaves(Area::Counts, RECEIVED_COUNT, &[count])
    }

    /// .. the last of which is the sweep of these slots.
    fn swept(self, count: u32, page: u32, map: u32) -> Step {
        let record = [7, 0, page, 0, 0, map];
        self.received(count).leaves(Area::Log, RECORD_WORDS * (count as usize - 1), &record)
    }
}

/// Objects of page 0 that nothing names, committed: 2 records and one for each.
fn litter(objects: &[u32]) -> Vec<Step> {
    litter_of(0, 0, objects)
}

/// .. of any page, where so many records are received.
fn litter_of(page: u32, records: u32, objects: &[u32]) -> Vec<Step> {
    let creates = (records + 2..).zip(objects).map(|(count, &object)| ok(Create(0, object), count));
    let end = [ok(Flush(0, page), 0), ok(Commit(0), records + 2 + objects.len() as u32)];
    [ok(Begin(0, 0), records + 1), ok(LockWrite(0, page), 0)].into_iter().chain(creates).chain(end).collect()
}

/// A transaction that changes nothing, from the record with this number on.
fn idle(record: u32) -> [Step; 2] {
    [ok(Begin(1, 0), record), ok(Abort(1), record + 1)]
}

/// A pass up to its sweep of page 0: the root is scanned, and the next step turns.
fn to_sweep() -> [Step; 3] {
    let scan = ok(PassStep, ROOT).stands(MARKING, 0, 1);
    [start(), scan, ok(PassStep, 0).stands(SWEEPING, 0, 2)]
}

/// Gives each of these objects this word in a table.
fn all(table: Table, pages: usize, objects: RangeInclusive<u32>, word: u32) -> impl Iterator<Item = Step> {
    objects.map(move |object| poke(Area::Work, table.first(pages) + object as usize - 1, word))
}

fn black(pages: usize, objects: RangeInclusive<u32>) -> impl Iterator<Item = Step> {
    all(Table::Colours, pages, objects, BLACK)
}

/// One page: so many records, calls before the pass, words that no calls lead to, and the step that sweeps.
fn swept_once<const N: usize>(
    name: &'static str,
    records: usize,
    before: Vec<Step>,
    pokes: impl IntoIterator<Item = Step>,
    steps: [Step; N],
) -> Example {
    with_records(name, 1, records, before.into_iter().chain(to_sweep()).chain(pokes).chain(steps))
}

/// "colours and COT of the page, then nothing to free".
fn nothing_to_free() -> Vec<Example> {
    let kept = || ok(PassStep, 0).rests().in_both(0, 0b10001).received(3);
    let freed = ok(PassStep, 2).rests().in_both(0, 1).swept(5, 0, 0b1_0001_0000);
    let grey = all(Table::Colours, 1, 5..=5, GREY);
    let root = [ok(PassStep, 1).rests().in_both(0, 0b10000).swept(4, 0, 1), no(Begin(1, 0), 1)];
    let white_root = all(Table::Colours, 1, 1..=1, WHITE).chain(black(1, 5..=5));
    vec![
        swept_once("L7: white slots that are occupied", 64, litter(&[5, 9]), [], [freed]),
        swept_once("L7: nothing to free, all black", 64, litter(&[5]), black(1, 1..=16), [kept()]),
        swept_once("rubbish: a grey object", 64, litter(&[5]), grey, [kept()]),
        swept_once("rubbish: the root is white", 64, litter(&[5]), white_root, root),
    ]
}

/// "A flagged entry is one", and an entry is its object's alone.
fn created() -> Vec<Example> {
    let entry_of_5 = |word| all(Table::Created, 1, 5..=5, word);
    let kept = |count, word| {
        let at = Table::Created.first(1) + 4;
        ok(PassStep, 1).rests().in_both(0, 0b10001).swept(count, 0, 0b100000).leaves(Area::Work, at, &[word])
    };
    let new =
        [ok(Begin(1, 0), 4), ok(LockWrite(1, 0), 0), ok(Create(1, 5), 5), ok(Flush(1, 0), 0), ok(Commit(1), 6)];
    let [start, scan, turn] = to_sweep();
    let flagged = litter(&[6]).into_iter().chain([start]).chain(new).chain([scan, turn, kept(7, FLAG)]);
    let next_pass = to_sweep().into_iter().chain([ok(PassStep, 1).rests().in_both(0, 1).swept(8, 0, 0b10000)]);
    let two = || litter(&[5, 6]);
    vec![
        example("L7: a COT entry, flagged, until the next pass", 1, flagged.chain(next_pass)),
        swept_once("rubbish: a COT entry of one that is not active", 64, two(), entry_of_5(8), [kept(5, 8)]),
        swept_once("rubbish: a flagged COT entry", 64, two(), entry_of_5(FLAG), [kept(5, FLAG)]),
    ]
}

/// "then the lock": before the room, and after what is told from the tables.
fn locked() -> Vec<Example> {
    let begun = || litter(&[5]).into_iter().chain([ok(Begin(1, 0), 4)]);
    let writer = || begun().chain([ok(LockWrite(1, 0), 0)]).collect();
    let reader = begun().chain([ok(LockRead(1, 0), 0)]).collect();
    let kept = || ok(PassStep, 0).rests().in_both(0, 0b10001).received(4);
    let freed = ok(PassStep, 1).rests().in_both(0, 1).swept(5, 0, 0b10000);
    let entries = all(Table::Created, 1, 1..=16, 1);
    let [start, scan, turn] = to_sweep();
    let unlocked = [kept(), ok(Commit(1), 5), start, scan, turn, no(PassStep, 11).stands(SWEEPING, 0, 2)];
    vec![
        swept_once("L7: a page that someone writes, in a full log", 5, writer(), [], unlocked),
        swept_once("L7: .. with COT entries of all", 5, writer(), entries, [kept()]),
        swept_once("L7: .. all black", 5, writer(), black(1, 1..=16), [kept()]),
        swept_once("L7: a page that someone reads", 64, reader, [], [freed]),
    ]
}

/// "then the page": room for the record comes last.
fn room() -> Vec<Example> {
    let full = litter(&[5]).into_iter().chain(idle(4)).collect();
    let refused = || no(PassStep, 11).stands(SWEEPING, 0, 2).in_both(0, 0b10001);
    let free = ok(PassStep, 0).rests().in_both(0, 1).received(2);
    let one_active = || {
        let maps = [Area::Copies, Area::Received].map(|area| poke(area, 0, 0b10001));
        maps.into_iter().chain([poke(Area::Work, ACTIVE, 1)])
    };
    let freed = ok(PassStep, 1).rests().in_both(0, 1).swept(3, 0, 0b10000);
    let unused = || idle(1).to_vec();
    vec![
        swept_once("11: a slot to free, in a full log", 5, full, [], [refused().received(5), refused()]),
        swept_once("L7: the white slots are all free, in a full log", 2, unused(), [], [free]),
        swept_once("11: L = 3, two used, one active", 3, unused(), one_active(), [refused().received(2)]),
        swept_once("L7: .. L = 4", 4, unused(), one_active(), [freed]),
    ]
}

/// "Every way out but 11 advances the pass record, and so counts as a step": page 0 has nothing to free, page 1 is
/// locked, nothing is there in page 2, and the log is full.
fn early_ways() -> Vec<Example> {
    let idles = (0..13).flat_map(|i| idle(37 + 2 * i));
    let locked = [ok(Begin(2, 0), 63), ok(LockWrite(2, 1), 0), start()];
    let kept = ok(PassStep, 0).rests().received(63).in_both(map_at(0), 65535).in_both(map_at(1), 0b11);
    let ways = [ok(PassStep, 0).stands(SWEEPING, 1, 18), ok(PassStep, 0).stands(SWEEPING, 2, 19), kept];
    let unlocked = [ok(Commit(2), 64), start()];
    let refused = || no(PassStep, 11).stands(SWEEPING, 1, 18).received(64).in_both(map_at(1), 0b11);
    let marked = || pass(3, 16).into_iter().take(17);
    let steps = row(3, 16)
        .into_iter()
        .chain(litter_of(1, 32, &[17, 18]))
        .chain(idles)
        .chain(locked)
        .chain(marked())
        .chain(ways)
        .chain(unlocked)
        .chain(marked())
        .chain([ok(PassStep, 0).stands(SWEEPING, 1, 18), refused(), refused()]);
    vec![example("L7: every early way out is a step", 3, steps)]
}

/// "After page P - 1 the pass is over", however it is left.
fn last_page() -> Vec<Example> {
    let last = |name, before: Vec<Step>, pokes: Vec<Step>, step: Step| {
        let first = ok(PassStep, 0).stands(SWEEPING, 1, 3);
        example(name, 2, before.into_iter().chain(to_sweep()).chain([first]).chain(pokes).chain([step]))
    };
    let littered = || litter_of(1, 0, &[17, 18]);
    let writer = littered().into_iter().chain([ok(Begin(1, 0), 5), ok(LockWrite(1, 1), 0)]).collect();
    let kept = |records| ok(PassStep, 0).rests().in_both(map_at(1), 0b11).received(records);
    let empty = ok(PassStep, 0).rests().in_both(map_at(1), 0).received(0);
    let freed = ok(PassStep, 2).rests().in_both(map_at(1), 0).swept(5, 1, 0b11);
    vec![
        last("L7: the last page has nothing to free", littered(), black(2, 17..=32).collect(), kept(4)),
        last("L7: .. is locked", writer, vec![], kept(5)),
        last("L7: .. has no objects", vec![], vec![], empty),
        last("L7: .. is swept", littered(), vec![], freed),
    ]
}

/// The tables and the lock are those of the page itself, and every slot counts.
fn each_slot() -> Vec<Example> {
    let last = ok(PassStep, 1).rests().in_both(0, 1).swept(4, 0, 0x8000);
    let both = || litter(&[5]).into_iter().chain(litter_of(1, 3, &[17]));
    let two_pages = |name, pokes: Vec<Step>, steps: [Step; 2]| {
        example(name, 2, both().chain(to_sweep()).chain(pokes).chain(steps))
    };
    let kept = || ok(PassStep, 0).stands(SWEEPING, 1, 3).in_both(0, 0b10001).received(6);
    let freed = || ok(PassStep, 1).rests().in_both(map_at(1), 0).swept(7, 1, 1);
    let first = ok(PassStep, 1).stands(SWEEPING, 1, 3).in_both(0, 1).swept(7, 0, 0b10000);
    let left = || ok(PassStep, 0).rests().in_both(map_at(1), 1).received(7);
    let [first_written, second_written] =
        [0, 1].map(|page| vec![poke(Area::Work, Table::Writers.first(2) + page, 4)]);
    vec![
        swept_once("L7: slot 15 alone is white", 64, litter(&[16]), black(1, 1..=15), [last]),
        two_pages(
            "L7: slot 0 alone is white",
            black(2, 18..=32).chain(black(2, 1..=16)).collect(),
            [kept(), freed()],
        ),
        two_pages("L7: the next page is black", black(2, 17..=32).collect(), [first.clone(), left()]),
        two_pages("L7: the next page is locked", second_written, [first, left()]),
        two_pages("L7: the next page is not locked", first_written, [kept(), freed()]),
    ]
}

/// "m is the slots of u that are occupied in its copy": copies and received pages as no calls leave them.
fn unlike_pages() -> Vec<Example> {
    let not_yet = [poke(Area::Copies, 0, 1 << 8 | 1)];
    let of_copy = ok(PassStep, 1).rests().leaves(Area::Copies, 0, &[1]).leaves(Area::Received, 0, &[0b10001]);
    let still = [poke(Area::Received, 0, 1)].into_iter().chain(black(1, 1..=4)).chain(black(1, 6..=16));
    let gone = ok(PassStep, 1).rests().in_both(0, 1).swept(4, 0, 0b10000);
    vec![
        swept_once(
            "rubbish: a slot that the copy lacks",
            64,
            litter(&[5, 9]),
            not_yet,
            [of_copy.swept(5, 0, 1 << 8)],
        ),
        swept_once("rubbish: a slot that the received page lacks", 64, litter(&[5]), still, [gone]),
    ]
}

/// Refusal 1 looks at all pages before the step, also where it would leave its page unread.
fn unsound() -> Vec<Example> {
    let steps = |area| {
        let refused = || no(PassStep, 1).stands(SWEEPING, 0, 2);
        [poke(area, 9, 7), refused(), poke(area, 9, 0), ok(PassStep, 0).rests()]
    };
    let writer = vec![ok(Begin(1, 0), 1), ok(LockWrite(1, 0), 0)];
    vec![
        swept_once(
            "1: nothing to free, and the copy is unsound",
            64,
            vec![],
            black(1, 1..=16),
            steps(Area::Copies),
        ),
        swept_once("1: a locked page, and the received page is unsound", 64, writer, [], steps(Area::Received)),
    ]
}

pub fn examples() -> Vec<Example> {
    let tests = [nothing_to_free(), created(), locked(), room()];
    let pages = [early_ways(), last_page(), each_slot(), unlike_pages(), unsound()];
    tests.into_iter().chain(pages).flatten().collect()
}
