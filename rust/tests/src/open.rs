//! `Held::open` on random disks, against the model's reopening and `whole`; from every store that it opens on, random
//! calls and cuts. None of them may lead to a store that is not well formed, or to a disk that does not open.

use calls::{Call, Server};
use kophdaen::{Held, NotHeld, CHAIN_WORDS, OBJECT_WORDS, SHARE_WORDS};
use model::layout::*;
use model::{whole, Fault, Model, Refusal};

use crate::actions::{Action, Filling};
use crate::generate::{size, Generator, Habit, Style, PLAIN};
use crate::random::Random;
use crate::reads::Reads;
use crate::rubbish::fill;
use crate::run::Pair;
use crate::sides::{Kind, MODEL};
use crate::steps::Steps;
use crate::whole::joined;

/// What a disk holds, and the room for records.
struct Disk {
    stored: Vec<u32>,
    stable: Vec<u32>,
    records: usize,
}

impl Disk {
    /// Pages that are whole or not, without a log; or a disk of before L8; or pages with a log, sound or damaged; or
    /// lengths that do not fit.
    fn new(random: &mut Random) -> Disk {
        let (pages, records) = size(random, false);
        let mut areas = match random.weighted(&[45, 15, 30, 10]) {
            0 => Areas::zeros(pages, records),
            1 => fill(Filling::Old, random.next(), pages, records),
            2 => fill(Filling::Reopening, random.next(), pages, records),
            _ => fill(Filling::Damaged, random.next(), pages, records),
        };
        if areas.stored[0] == 0 {
            joined(&mut areas.stored, pages, random);
        }
        let mut disk = Disk { stored: Vec::new(), stable: Vec::new(), records };
        disk.leave(areas);
        match random.below(60) {
            0 => disk.stored.truncate(random.below(PAGE_WORDS * pages)),
            1 => disk.stable.resize(random.below(RECORD_WORDS * (records + 3)), 0),
            2 => disk.records = random.pick(&[0, 4097]).unwrap(),
            _ => {}
        }
        disk
    }

    /// What is stable of these areas.
    fn leave(&mut self, areas: Areas) {
        self.stable = areas.log[..RECORD_WORDS * areas.stable_count()].to_vec();
        self.stored = areas.stored;
    }
}

/// The store of a disk by the model: the areas, or why not.
fn opened(disk: &Disk) -> Result<Areas, NotHeld> {
    let mut model = Model::new(disk.stored.len() / PAGE_WORDS, disk.records);
    let whole_records = disk.stable.len().is_multiple_of(RECORD_WORDS);
    if !whole_records || disk.stable.len() > model.areas.log.len() || model.areas.stored.len() != disk.stored.len()
    {
        return Err(NotHeld::Lengths);
    }
    model.areas.stored.copy_from_slice(&disk.stored);
    model.areas.log[..disk.stable.len()].copy_from_slice(&disk.stable);
    model.areas.counts[STABLE_COUNT] = (disk.stable.len() / RECORD_WORDS) as u32;
    match model.reopen() {
        Err(Refusal { number: 1, .. }) => Err(NotHeld::Lengths),
        Err(_) => Err(NotHeld::Unsound),
        Ok(_) if whole(&model.areas.received, Fault::None) != Ok(1) => Err(NotHeld::NotWhole),
        Ok(_) => Ok(model.areas),
    }
}

/// What an opened store answers to short buffers, a long image, calls after a cut and the reopening then; whether it is
/// well formed, and its areas.
fn tried(mut held: Held) -> (Vec<u32>, bool, Areas) {
    let mut answers = vec![
        held.read(&mut [0; OBJECT_WORDS - 1], 0, ROOT),
        held.chain(&mut [0; CHAIN_WORDS - 1], ROOT),
        held.pass_share(&mut [0; SHARE_WORDS - 1], 1),
        held.flush(&[0; PAGE_WORDS + 1], 0, 0),
    ];
    held.cut();
    answers.extend([held.begin(0, 0), held.grant(0, 0, 2), held.reopen()]);
    let numbers = answers.iter().map(|answer| answer.number).collect();
    (numbers, held.audit(), held.into_store().into_areas())
}

/// Opens a disk by both: the store's areas, or why not; or what differs.
fn open(disk: &Disk) -> Result<Result<Areas, NotHeld>, String> {
    let told = Held::open(&disk.stored, &disk.stable, disk.records).map(tried);
    let expected = opened(disk);
    if told != expected.clone().map(|areas| (vec![1, 1, 1, 1, 2, 2, 0], true, areas)) {
        return Err(format!("opened differently ({:?} and {:?})", told.err(), expected.err()));
    }
    Ok(expected)
}

/// Whether both format a store of this size, or both do not.
fn formats_alike(pages: usize, records: usize) -> bool {
    let mut model = Model::new(pages, records);
    let expected = model.format().map(|_| model.areas).map_err(|_| NotHeld::Lengths);
    Held::format(pages, records).map(|held| held.into_store().into_areas()) == expected
}

/// Calls and cuts from an opened store on: what the last of them leaves, and how many calls; or what differs or is not
/// well formed.
fn go_on(areas: &Areas, random: &mut Random) -> Result<(Areas, u64), String> {
    let audit = Action::from(Call::LockRead(16, 0));
    let crowd = random.between(1, 4);
    let habits = [Habit::Mixed, Habit::Building, Habit::Trying, Habit::Crowding, Habit::Reading];
    let habit = habits[random.weighted(&[40, 18, 22, 8, 12])];
    let style = Style { cuts: 6, lengths: 0, wild: 40, crowd, habit, ..PLAIN };
    let mut generator = Generator::new(Random::new(random.next()), style, areas.pages()).going_on();
    let mut pair = Pair::new(Kind::Library, MODEL, areas.pages(), areas.records());
    pair.load(areas);
    pair.steps = Steps::reopened();
    pair.reads = Reads::reopened();
    pair.owns.reopened(areas);
    pair.ledger.reopened(&*pair.left);
    let mut calls = 0;
    for _ in 0..random.between(20, 400) {
        let action = generator.next(&pair.areas());
        pair.step(&action).map_err(|what| format!("{action}: {what}"))?;
        calls += u64::from(action.call().is_some());
        if pair.step(&audit)? >> 32 == 1 {
            return Err(format!("{action}: not well formed after it"));
        }
    }
    Ok((pair.areas(), calls))
}

/// What became of the disks.
#[derive(Default)]
struct Opened {
    held: u64,
    calls: u64,
    /// By the reason.
    not: [u64; 3],
}

impl Opened {
    /// Opens the disk, and each disk that calls and cuts leave from there on.
    fn serve(&mut self, disk: &mut Disk, random: &mut Random) -> Result<(), String> {
        let mut opened = open(disk)?;
        if let Err(why) = opened {
            self.not[why as usize] += 1;
        }
        while let Ok(areas) = opened {
            let (after, calls) = go_on(&areas, random)?;
            self.held += 1;
            self.calls += calls;
            if random.percent(40) {
                break;
            }
            disk.leave(after);
            opened = open(disk)?;
            if let Err(why) = opened {
                return Err(format!("{why:?}: a disk that calls and cuts led to"));
            }
        }
        Ok(())
    }
}

pub fn run(seed: u64, calls: u64) -> bool {
    let sizes = [(0, 1), (1, 0), (1, 1), (256, 4096), (257, 1), (1, 4097)];
    if let Some(size) = sizes.into_iter().find(|&(pages, records)| !formats_alike(pages, records)) {
        println!("open: {size:?} pages and records are formatted differently");
        return false;
    }
    let mut disks = Random::new(seed);
    let mut opened = Opened::default();
    while opened.calls < calls {
        let mut random = Random::new(disks.next());
        let mut disk = Disk::new(&mut random);
        if let Err(what) = opened.serve(&mut disk, &mut random) {
            println!("open: {what}");
            println!("stored {:?}, stable {:?}, L = {}", disk.stored, disk.stable, disk.records);
            return false;
        }
    }
    let Opened { held, calls, not: [lengths, unsound, not_whole] } = opened;
    print!("open: {held} disks held, {not_whole} not whole, {unsound} unsound, {lengths} of wrong lengths; ");
    println!("{calls} calls, no difference, all well formed");
    true
}
