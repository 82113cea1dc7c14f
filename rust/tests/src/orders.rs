//! The sweeping step in the order that stood before L7, beside the paper's: "Answers and buffers do not change for any
//! input" (document 02, L7). Random states of small stores, in range and not.

use calls::Call;
use model::layout::*;
use model::recover::take_effect;
use model::sound::in_range;
use model::{coded, Answer, Fault, Model};

use crate::actions::Filling;
use crate::random::Random;
use crate::rubbish::{fill, mask, odd_word};
use crate::run::{show, Pair};
use crate::sides::{Kind, MODEL};

// ---- the order before --------------------------------------------------------------------------

/// A pass step that sweeps as before L7: the lock, then the page and the tables together.
fn step_before(store: &mut Model) -> Answer {
    if !sweeps(&store.areas) {
        return store.pass_step(); // L7 is of sweeping alone
    }
    let page = store.areas.work[PASS_PAGE] as usize;
    let locked = store.areas.get(Table::Writers, page) != 0;
    let map = if locked { 0 } else { garbage(&store.areas, page) };
    if map != 0 {
        store.room(1)?;
        let a = &mut store.areas;
        let (at, record) = (RECORD_WORDS * a.received_count(), [7, 0, page as u32, 0, 0, map]);
        a.log[at..][..RECORD_WORDS].copy_from_slice(&record);
        a.counts[RECEIVED_COUNT] += 1;
        take_effect(&mut a.received, record);
        take_effect(&mut a.copies, record);
    }
    leave(&mut store.areas, page);
    Ok(map.count_ones())
}

/// Whether a pass step on these areas comes to sweep a page.
fn sweeps(a: &Areas) -> bool {
    let Some((pages, records)) = a.size() else { return false };
    a.work[REOPENING] == 2 && in_range(a, pages, records, Fault::None) && a.work[PHASE] == SWEEPING
}

fn slots(page: usize, which: impl Fn(u32) -> bool) -> u32 {
    (0..SLOTS).filter(|&slot| which(object_at(page, slot))).map(|slot| bit(slot as u32)).sum()
}

fn unmarked(a: &Areas, object: u32) -> bool {
    a.by_object(Table::Colours, object) == WHITE && a.by_object(Table::Created, object) == 0
}

fn garbage(a: &Areas, page: usize) -> u32 {
    slots(page, |object| occupied(&a.copies, object) && unmarked(a, object))
}

fn leave(a: &mut Areas, page: usize) {
    let pages = a.pages();
    let number = (a.work[PASS_STEP] + 1).min(largest_single(PASS_STEP, pages));
    let over = page + 1 == pages;
    let pass = if over { [NO_PASS, 0, 0] } else { [SWEEPING, page as u32 + 1, number] };
    a.work[PHASE..=PASS_STEP].copy_from_slice(&pass);
}

// ---- states ------------------------------------------------------------------------------------

/// One to three pages, one of which is to be swept; now and then a word is out of range, or every word is noise.
fn state(random: &mut Random) -> Areas {
    let (pages, records) = (random.between(1, 3), random.between(1, 12));
    let fillings = [Filling::Sound, Filling::Contended, Filling::Marked];
    let filling = if random.percent(2) { Filling::Noise } else { random.pick(&fillings).unwrap() };
    let mut a = fill(filling, random.next(), pages, records);
    if filling == Filling::Noise {
        return a;
    }
    [a.work[REOPENING], a.work[PHASE]] = [2, SWEEPING];
    if random.percent(60) {
        a.work[ACTIVE] = 0; // nothing is reserved
    }
    let page = a.work[PASS_PAGE] as usize;
    lock(&mut a, page, random);
    unmark(&mut a, page, random);
    if random.percent(8) {
        let area = random.pick(&AREAS).unwrap();
        let at = random.below(a.of(area).len());
        a.of_mut(area)[at] = odd_word(a.of(area)[at], pages, random);
    }
    a
}

/// Nobody, one, some or all read and write it.
fn lock(a: &mut Areas, page: usize, random: &mut Random) {
    for table in [Table::Readers, Table::Writers] {
        let [one, some] = [bit(random.below(16) as u32), mask(random, 3)];
        *a.page_table(table, page) = random.pick(&[0, 0, 0, one, some, 65535]).unwrap();
    }
}

/// Of its slots none, one, all, free ones alone or any are white without a COT entry; the others have a colour, an
/// entry or both.
fn unmark(a: &mut Areas, page: usize, random: &mut Random) {
    let any = mask(random, 2);
    let unmarked = match random.below(6) {
        0 => 0,
        1 => bit(random.below(SLOTS) as u32),
        2 => 0xffff,
        3 => any & !a.copies[map_at(page)],
        _ => any,
    };
    for slot in 0..SLOTS {
        let one = bit(random.below(16) as u32);
        let entries = random.pick(&[FLAG, FLAG | any, one, 65535]).unwrap();
        let colour = random.pick(&[GREY, BLACK]).unwrap();
        let (colour, entries) = match random.below(3) {
            _ if unmarked & bit(slot as u32) != 0 => (WHITE, 0),
            0 => (WHITE, entries),
            1 => (colour, 0),
            _ => (colour, entries),
        };
        *a.object_table(Table::Colours, object_at(page, slot)) = colour;
        *a.object_table(Table::Created, object_at(page, slot)) = entries;
    }
}

// ---- the comparison ----------------------------------------------------------------------------

/// Makes the step on both sides and in the order before: its answer, or what differs.
fn made([left, right]: [Kind; 2], state: &Areas) -> Result<u64, String> {
    let mut pair = Pair::new(left, right, state.pages(), state.records());
    pair.load(state);
    let answer = pair.step(&Call::PassStep.into())?;
    let mut before = Model { areas: state.clone(), fault: Fault::None };
    let answered = coded(step_before(&mut before));
    if answer != answered {
        return Err(format!("answers {}, and {} in the order before", show(answer), show(answered)));
    }
    pair.compare_with(&before).map_err(|what| format!("the order before: {what}"))?;
    Ok(answer)
}

/// After how many states a fault that is in both sides shows beside the order before.
pub fn noticed(fault: Fault, seed: u64, states: u64) -> Option<u64> {
    let mut random = Random::new(seed);
    (1..=states).find(|_| made([Kind::Model(fault); 2], &state(&mut random)).is_err())
}

/// How a step ends, by the paper's order.
const ENDS: [&str; 6] = [
    "before it sweeps",
    "with nothing to free",
    "locked",
    "with nothing there",
    "without room",
    "with slots freed",
];

fn end(a: &Areas, answer: u64) -> usize {
    let page = a.work[PASS_PAGE] as usize;
    match answer >> 32 {
        _ if !sweeps(a) => 0,
        _ if slots(page, |object| unmarked(a, object)) == 0 => 1,
        _ if a.get(Table::Writers, page) != 0 => 2,
        _ if garbage(a, page) == 0 => 3,
        11 => 4,
        _ => 5,
    }
}

pub fn run(seed: u64, states: u64) -> bool {
    let mut random = Random::new(seed);
    let mut ends = [0; ENDS.len()];
    for n in 1..=states {
        let state = state(&mut random);
        match made([Kind::Library, MODEL], &state) {
            Ok(answer) => ends[end(&state, answer)] += 1,
            Err(what) => {
                println!("DIFFERENCE: state {n} of seed {seed}: {what}");
                return false;
            }
        }
    }
    let ends: Vec<String> = ENDS.iter().zip(ends).map(|(end, steps)| format!("{steps} {end}")).collect();
    println!("orders: {states} states, steps that end {}, no difference", ends.join(", "));
    true
}
