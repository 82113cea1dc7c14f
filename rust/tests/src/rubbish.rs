//! Lent areas in states that no calls lead to.

use model::layout::*;

use crate::actions::Filling;
use crate::graphs::linked_pages;
use crate::old;
use crate::random::Random;

pub fn fill(filling: Filling, seed: u64, pages: usize, records: usize) -> Areas {
    let mut random = Random::new(seed);
    let mut areas = Areas::zeros(pages, records);
    match filling {
        Filling::Noise => noise(&mut areas, &mut random),
        Filling::Sound => sound(&mut areas, &mut random),
        Filling::Linked => linked(&mut areas, &mut random),
        Filling::Contended => contended(&mut areas, &mut random),
        Filling::Marked => marked(&mut areas, &mut random),
        Filling::Reopening => reopening(&mut areas, &mut random),
        Filling::Damaged => {
            reopening(&mut areas, &mut random);
            damage_one(&mut areas, &mut random);
        }
        Filling::Old => areas = old::store(pages, records, &mut random),
    }
    areas
}

fn noise(areas: &mut Areas, random: &mut Random) {
    let reopening_word = random.below(5) as u32;
    for area in AREAS {
        areas.of_mut(area).fill_with(|| random.word());
    }
    areas.work[REOPENING] = reopening_word;
    if random.percent(50) {
        areas.counts[STABLE_COUNT] = random.below(areas.records() + 2) as u32;
    }
}

/// A word where each bit below 16 is set one time in n.
pub fn mask(random: &mut Random, n: usize) -> u32 {
    (0..16).filter(|_| random.below(n) == 0).map(bit).sum()
}

pub fn sound_pages(area: &mut [u32], pages: usize, random: &mut Random) {
    let objects = SLOTS * pages;
    let thin = random.between(1, 4);
    for page in 0..pages {
        let map = mask(random, thin) | u32::from(page == 0);
        area[map_at(page)] = map;
        for slot in (0..SLOTS).filter(|&slot| map & bit(slot as u32) != 0) {
            let object = object_at(page, slot);
            for field in 0..8 {
                area[word_at(object, field)] = match random.below(3) {
                    0 => 0,
                    _ if field < 4 => reference_of(object, objects, random),
                    1 => random.below(3) as u32,
                    _ => random.word(),
                };
            }
        }
    }
}

/// Any, and now and then the object itself.
fn reference_of(object: u32, objects: usize, random: &mut Random) -> u32 {
    match random.below(10) {
        0 => object,
        _ => random.below(objects + 1) as u32,
    }
}

fn sound_record(pages: usize, random: &mut Random) -> [u32; 6] {
    let objects = SLOTS * pages;
    let transactions = if random.percent(70) { 3 } else { 16 };
    let t = random.below(transactions) as u32;
    let object = random.between(2, objects) as u32;
    match random.weighted(&[14, 16, 40, 8, 6, 8, 8]) {
        0 => [1, t, 0, 0, 0, 0],
        1 => [2, t, object, 0, 0, 0],
        2 => set_record(t, random.between(1, objects) as u32, pages, random),
        3 => [4, t, 0, 0, 0, 0],
        4 => [5, t, 0, 0, 0, 0],
        5 => [6, t, object, 0, 0, 0],
        _ => sweep_record(pages, random),
    }
}

fn set_record(t: u32, object: u32, pages: usize, random: &mut Random) -> [u32; 6] {
    let field = random.below(8) as u32;
    let mut word = || match field {
        0..=3 => reference_of(object, SLOTS * pages, random),
        _ => random.word() >> random.below(32),
    };
    [3, t, object, field, word(), word()]
}

fn sweep_record(pages: usize, random: &mut Random) -> [u32; 6] {
    let page = random.below(pages) as u32;
    let thin = random.between(1, 8);
    let map = mask(random, thin);
    [7, 0, page, 0, 0, if page == 0 { map & !1 } else { map }]
}

fn sound(areas: &mut Areas, random: &mut Random) {
    let pages = areas.pages();
    sound_pages(&mut areas.received, pages, random);
    match random.below(3) {
        0 => sound_pages(&mut areas.copies, pages, random),
        _ => areas.copies.clone_from(&areas.received),
    }
    match random.below(3) {
        0 => areas.stored.fill_with(|| random.word()),
        1 => sound_pages(&mut areas.stored, pages, random),
        _ => areas.stored.clone_from(&areas.copies),
    }
    sound_log(areas, random);
    sound_work(areas, random);
    single_holders(areas, random);
    if random.percent(if areas.records() == 1 { 25 } else { 4 }) {
        above_bound(areas, random);
    }
}

/// One client or right is above its bound.
fn above_bound(areas: &mut Areas, random: &mut Random) {
    let table = random.pick(&[Table::Clients, Table::Rights]).unwrap();
    let (at, most) = (random.below(table.len(areas.pages(), areas.records())), table.largest(areas.records()));
    areas.table(table)[at] = random.pick(&[most + 1, most + 1, most + 2, 8, u32::MAX]).unwrap();
}

/// The copies linked, now and then with an unsound word; the received pages alike or not.
fn linked(areas: &mut Areas, random: &mut Random) {
    sound(areas, random);
    let pages = areas.pages();
    linked_pages(&mut areas.copies, pages, random);
    if random.percent(50) {
        areas.received.clone_from(&areas.copies);
    }
    if random.percent(6) {
        let at = random.below(areas.copies.len());
        areas.copies[at] = odd_word(areas.copies[at], pages, random);
    }
}

/// Most transactions are active, or next to none, and a few, active or not, have locks on each page.
fn contended(areas: &mut Areas, random: &mut Random) {
    sound(areas, random);
    let [one, other] = [0; 2].map(|_| bit(random.below(16) as u32));
    let most = 0xffff & !mask(random, 4);
    areas.work[ACTIVE] = random.pick(&[one, one | other, most, most, most]).unwrap();
    (0..areas.pages()).for_each(|page| several_holders(areas, page, random));
}

/// Each of them has either lock or both; or all of them read.
fn several_holders(areas: &mut Areas, page: usize, random: &mut Random) {
    let most = if random.percent(25) { 1 } else { 3 };
    let [mut readers, mut writers] = [0, 0];
    for _ in 0..random.between(1, 4) {
        let (holder, locks) = (bit(random.below(16) as u32), random.between(1, most) as u32);
        readers |= holder * (locks & 1);
        writers |= holder * (locks >> 1);
    }
    *areas.page_table(Table::Readers, page) = readers;
    *areas.page_table(Table::Writers, page) = writers;
}

/// One to three transactions run, with changes that going back undid or not: the undoing words stand at records
/// of every kind, and above the received ones.
fn marked(areas: &mut Areas, random: &mut Random) {
    sound(areas, random);
    let few = random.between(1, 3) as u32;
    areas.work[ACTIVE] = bit(few) - 1;
    let is_there = |&object: &u32| occupied(&areas.received, object);
    let (there, free): (Vec<u32>, Vec<u32>) = (ROOT..=areas.objects()).partition(is_there);
    for i in 0..areas.received_count() {
        let t = random.below(few as usize) as u32;
        let record = record_of(t, &there, &free, areas.pages(), random);
        put(areas, i, record);
    }
    let records = areas.records();
    let [left, order, undoing] = [Table::LeftAtMarks, Table::MarkOrder, Table::Undoing];
    for at in 0..mark_at(few, 0) {
        areas.table(left)[at] = changes_at_mark(records, random);
        areas.table(order)[at] = random.below(order.largest(records) as usize + 1) as u32;
    }
    let thin = random.between(2, 8);
    areas.table(undoing).fill_with(|| u32::from(random.below(thin) == 0).min(undoing.largest(records)));
    single_holders(areas, random);
}

/// Mostly a set of an object that is there, or the create of one that is not: undone, they leave free slots zero.
fn record_of(t: u32, there: &[u32], free: &[u32], pages: usize, random: &mut Random) -> [u32; 6] {
    let created = random.pick(free).unwrap_or(ROOT + 1);
    match random.weighted(&[4, 25, 50, 8, 10]) {
        0 => [1, t, 0, 0, 0, 0],
        1 => [2, t, created, 0, 0, 0],
        2 => set_record(t, random.pick(there).unwrap(), pages, random),
        3 => [6, t, created, 0, 0, 0],
        _ => sound_record(pages, random),
    }
}

fn sound_log(areas: &mut Areas, random: &mut Random) {
    let records = areas.records();
    // many calls need room: the log is full now and then only
    let received = match random.below(4) {
        0 => records,
        1 => records / 2,
        _ => random.below(records.min(40) + 1),
    };
    for i in 0..records {
        let record = sound_record(areas.pages(), random);
        if i < received || random.percent(50) {
            put(areas, i, record);
        }
    }
    areas.counts[RECEIVED_COUNT] = received as u32;
    areas.counts[STABLE_COUNT] =
        if random.percent(40) { received as u32 } else { random.below(received + 1) as u32 };
}

fn put(areas: &mut Areas, i: usize, record: [u32; 6]) {
    areas.log[RECORD_WORDS * i..][..RECORD_WORDS].copy_from_slice(&record);
}

fn sound_work(areas: &mut Areas, random: &mut Random) {
    let (pages, records) = (areas.pages(), areas.records());
    // few transactions meet often
    let among = random.pick(&[0b11, 0b111, 0xffff]).unwrap();
    let thins = [1, 2, 3, 8, 40];
    for word in REOPENING..ACTIVE {
        areas.work[word] = random.below(largest_single(word, pages) as usize + 1) as u32;
    }
    areas.work[REOPENING] = if random.percent(90) { 2 } else { 1 };
    let thin = random.pick(&thins).unwrap();
    areas.work[ACTIVE] = mask(random, thin) & among;
    let rights = rights(random);
    for table in TABLES {
        let thin = random.pick(&thins).unwrap();
        let zero = random.percent(25);
        for at in table.range(pages, records) {
            areas.work[at] = match table {
                Table::Rights => random.pick(&rights).unwrap(),
                _ if zero => 0,
                Table::Clients => random.below(table.largest(records) as usize + 1) as u32,
                Table::Colours => random.below(3) as u32,
                Table::LeftAtMarks => changes_at_mark(records, random),
                Table::MarkOrder => random.below(table.largest(records) as usize + 1) as u32,
                Table::Undoing => u32::from(random.below(thin + 1) == 0).min(table.largest(records)),
                Table::Pruned | Table::Created if random.percent(10) => mask(random, thin) & among | FLAG,
                _ => mask(random, thin) & among,
            };
        }
    }
}

/// What clients have: mostly much, so that locks are granted.
fn rights(random: &mut Random) -> Vec<u32> {
    match random.below(8) {
        0 => vec![NOTHING],
        1 => vec![NOTHING, READING],
        2 | 3 => vec![NOTHING, READING, WRITING],
        4 => vec![WRITING],
        _ => vec![WRITING, WRITING, WRITING, WRITING, READING, NOTHING],
    }
}

/// Mostly few, as few changes are left; now and then as many as there may be.
fn changes_at_mark(records: usize, random: &mut Random) -> u32 {
    let most = Table::LeftAtMarks.largest(records) as usize;
    match random.below(8) {
        0 => most as u32,
        1 => random.below(most + 1) as u32,
        _ => random.below(most.min(3) + 1) as u32,
    }
}

/// Pages with one holder, of either lock or both.
fn single_holders(areas: &mut Areas, random: &mut Random) {
    let holders = transactions_in(areas.work[ACTIVE]);
    for page in 0..areas.pages() {
        if let (Some(t), true) = (random.pick(&holders), random.percent(40)) {
            let locks = random.between(1, 3) as u32;
            *areas.page_table(Table::Readers, page) = bit(t) * (locks & 1);
            *areas.page_table(Table::Writers, page) = bit(t) * (locks >> 1);
        }
    }
}

fn transactions_in(mask: u32) -> Vec<u32> {
    (0..16).filter(|&t| mask & bit(t) != 0).collect()
}

/// Stored pages and a stable log in the order that calls make, mostly with sets of occupied slots,
/// so that the replay goes through. Some logs have one record out of order, some have records of
/// all kinds anywhere.
fn reopening(areas: &mut Areas, random: &mut Random) {
    let (pages, records) = (areas.pages(), areas.records());
    noise(areas, random);
    areas.stored.fill(0);
    sound_pages(&mut areas.stored, pages, random);
    let stable = random.below(records.min(400) + 1);
    areas.counts[STABLE_COUNT] = stable as u32;

    let wild = random.pick(&[0, 0, 0, 0, 2, 30]).unwrap();
    let stray = if random.percent(25) { random.below(stable + 1) } else { stable };
    let mut shown = areas.stored.clone();
    let mut running: u32 = 0;
    for i in 0..stable {
        let begun = transactions_in(running);
        let other = random.below(if i % 2 == 0 { 4 } else { 16 }) as u32;
        let record = in_order(&shown, pages, &begun, other, random);
        let record = match i {
            _ if random.percent(wild) => sound_record(pages, random),
            _ if i == stray => out_of_order(&begun, other, random),
            _ => record,
        };
        match record[0] {
            1 => running |= bit(record[1]),
            4 | 5 => running &= !bit(record[1]),
            _ => {}
        }
        model::recover::take_effect(&mut shown, record);
        put(areas, i, record);
    }
}

/// A record that may follow: of one begun, or the begin of another.
fn in_order(shown: &[u32], pages: usize, begun: &[u32], other: u32, random: &mut Random) -> [u32; 6] {
    let objects = SLOTS * pages;
    let Some(t) = random.pick(begun) else {
        return if random.percent(10) { sweep_record(pages, random) } else { [1, other, 0, 0, 0, 0] };
    };
    let object = random.between(2, objects) as u32;
    let full: Vec<u32> = (1..=objects as u32).filter(|&o| occupied(shown, o)).collect();
    let full = random.pick(&full).unwrap_or(1);
    match random.weighted(&[10, 20, 45, 8, 5, 5, 5]) {
        0 if !begun.contains(&other) => [1, other, 0, 0, 0, 0],
        1 => [2, t, object, 0, 0, 0],
        3 => [4, t, 0, 0, 0, 0],
        4 => [5, t, 0, 0, 0, 0],
        5 => [6, t, object, 0, 0, 0],
        6 => sweep_record(pages, random),
        _ => {
            let full = if random.below(60) == 0 { object } else { full };
            let mut record = set_record(t, full, pages, random);
            if random.percent(80) {
                record[4] = shown[word_at(full, record[3] as usize)];
            }
            record
        }
    }
}

/// A begin of one begun and not ended, or a record of one not begun or already ended.
fn out_of_order(begun: &[u32], t: u32, random: &mut Random) -> [u32; 6] {
    if random.percent(50) || begun.contains(&t) {
        return [1, random.pick(begun).unwrap_or(t), 0, 0, 0, 0];
    }
    match random.between(2, 6) as u32 {
        3 => [3, t, ROOT, 4, 0, 0],
        kind @ (2 | 6) => [kind, t, random.between(2, 16) as u32, 0, 0, 0],
        kind => [kind, t, 0, 0, 0, 0],
    }
}

fn damage_one(areas: &mut Areas, random: &mut Random) {
    let stable = areas.stable_count();
    if random.percent(60) && stable > 0 {
        let at = random.below(RECORD_WORDS * stable);
        areas.log[at] = odd_word(areas.log[at], areas.pages(), random);
    } else {
        let at = random.below(areas.stored.len());
        areas.stored[at] = odd_word(areas.stored[at], areas.pages(), random);
    }
}

/// A word at or about a bound, or the old one with a bit turned.
pub fn odd_word(old: u32, pages: usize, random: &mut Random) -> u32 {
    let p = pages as u32;
    let bounds = [
        0,
        1,
        2,
        3,
        4,
        5,
        6,
        7,
        8,
        15,
        16,
        p - 1,
        p,
        p + 1,
        16 * p - 1,
        16 * p,
        16 * p + 1,
        17 * p,
        17 * p + 1,
        65535,
        65536,
        131071,
        131072,
        u32::MAX,
    ];
    match random.below(4) {
        0 => old ^ bit(random.below(32) as u32),
        1 => random.word(),
        2 => old.wrapping_add(if random.percent(50) { 1 } else { u32::MAX }),
        _ => random.pick(&bounds).unwrap(),
    }
}
