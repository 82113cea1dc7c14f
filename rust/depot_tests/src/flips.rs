//! Flipped bits anywhere in the three files: never a panic, and never another state taken where a sum can tell.

use std::panic::{catch_unwind, AssertUnwindSafe};

use depot::disk::Part;
use depot::image::{self, Damage, Files, Found, PLACE_BYTES};
use kophdaen::RECORD_WORDS;

use crate::committed::{reached_in_pages, reopened, Objects};
use crate::ground::{Case, Ground};
use crate::platter::part_of;
use crate::process::{files_in, put_files, text};
use crate::random::Random;

pub const CASES: [Case; 3] = [
    ("every bit flipped, one at a time", every_bit),
    ("many bits flipped at once", many_bits),
    ("flipped bits, and the program", by_program),
];

const PARTS: [Part; 3] = [Part::Snapshot(0), Part::Snapshot(1), Part::Log];

/// What files hold, reopened to the end.
struct Held {
    found: Found,
    state: Objects,
    /// For each stable place, how many places the later ones tell were synced.
    synced_behind: Vec<usize>,
}

impl Held {
    fn of(files: &Files) -> Result<Held, String> {
        let found = image::read(files).map_err(|damage| damage.to_string())?;
        let state = state_of(&found)?;
        let count = found.records.len() / RECORD_WORDS;
        let synced = |index: usize| {
            let bytes = &files.log[PLACE_BYTES * index..PLACE_BYTES * (index + 1)];
            image::read_place(found.id, found.epoch, index, bytes).map_or(0, |(_, synced)| synced)
        };
        let behind = |index: usize| (index + 1..count).map(synced).max().unwrap_or(0);
        let synced_behind = (0..count).map(behind).collect();
        Ok(Held { found, state, synced_behind })
    }

    /// What a flip in this byte must lead to: the state it must be read as, or none where a server may not start.
    fn expected(&self, part: Part, byte: usize) -> Option<Objects> {
        let place = byte / PLACE_BYTES;
        match part {
            Part::Snapshot(which) if which == self.found.file && !self.synced_behind.is_empty() => None,
            Part::Log if self.synced_behind.get(place).is_some_and(|&synced| synced > place) => None,
            Part::Log if place < self.synced_behind.len() => {
                let records = &self.found.records[..RECORD_WORDS * place];
                let pages = reopened(&self.found.pages, records, self.found.room).ok()?;
                reached_in_pages(&pages).ok()
            }
            _ => Some(self.state.clone()),
        }
    }
}

fn state_of(found: &Found) -> Result<Objects, String> {
    reached_in_pages(&reopened(&found.pages, &found.records, found.room)?)
}

/// What the files are read as; a panic is wrong.
fn read(files: &Files) -> Result<Result<Found, Damage>, String> {
    catch_unwind(AssertUnwindSafe(|| image::read(files))).map_err(|_| "a panic".to_string())
}

fn check(files: &Files, expected: &Option<Objects>) -> Result<(), String> {
    match (read(files)?, expected) {
        (Err(_), None) => Ok(()),
        (Ok(found), Some(state)) if state_of(&found)? == *state => Ok(()),
        (Ok(_), None) => Err("damaged files are taken".to_string()),
        (Ok(_), Some(_)) => Err("damaged files are taken with another state".to_string()),
        (Err(damage), Some(_)) => Err(format!("files that hold the state are refused: {damage}")),
    }
}

/// Two stores: one with records behind the newest snapshot, one without.
fn stores(ground: &mut Ground) -> Result<[Files; 2], String> {
    let killed = ground.killed("flips_killed", 3)?;
    let stopped = ground.stopped("flips_stopped", 3)?;
    Ok([files_in(&killed.folder)?, files_in(&stopped.folder)?])
}

fn every_bit(ground: &mut Ground) -> Result<(), String> {
    let stores = stores(ground)?;
    stores.iter().try_for_each(|files| PARTS.into_iter().try_for_each(|part| every_bit_of(files, part)))
}

fn every_bit_of(files: &Files, part: Part) -> Result<(), String> {
    let held = Held::of(files)?;
    let mut files = files.clone();
    for byte in 0..part_of(&mut files, part).len() {
        let expected = held.expected(part, byte);
        (0..8).try_for_each(|bit| {
            part_of(&mut files, part)[byte] ^= 1 << bit;
            let checked = check(&files, &expected);
            part_of(&mut files, part)[byte] ^= 1 << bit;
            checked.map_err(|what| format!("{part:?}, byte {byte}, bit {bit}: {what}"))
        })?;
    }
    Ok(())
}

/// Flips, overwrites or zeroes something somewhere.
fn spoil(files: &mut Files, random: &mut Random) {
    let bytes = part_of(files, PARTS[random.below(3)]);
    let (at, length) = (random.below(bytes.len()), random.between(1, 600));
    let end = bytes.len().min(at + length);
    match random.below(4) {
        0 => bytes[at..end].fill(0),
        1 => bytes[at..end].iter_mut().for_each(|byte| *byte = random.word() as u8),
        _ => bytes[at] ^= 1 << random.below(8),
    }
}

/// Whatever was spoilt: what is taken is a state of some number of the records.
fn many_bits(ground: &mut Ground) -> Result<(), String> {
    let stores = stores(ground)?;
    let states: Vec<Vec<Objects>> = stores.iter().map(prefixes).collect::<Result<_, _>>()?;
    for _ in 0..50 * ground.rounds {
        let which = ground.random.below(2);
        let mut files = stores[which].clone();
        (0..ground.random.between(1, 5)).for_each(|_| spoil(&mut files, &mut ground.random));
        if let Ok(found) = read(&files)? {
            let state = state_of(&found)?;
            if !states[which].contains(&state) {
                return Err("damaged files are taken with a state that never was".to_string());
            }
        }
    }
    Ok(())
}

/// The state after each number of the records; of an empty log's store, those of the older snapshot's too.
fn prefixes(files: &Files) -> Result<Vec<Objects>, String> {
    let mut older = files.clone();
    let newest = image::read(files).map_err(|damage| damage.to_string())?;
    older.snapshots[newest.file].fill(0);
    let older = image::read(&older).ok();
    let of = |found: &Found, count: usize| {
        reached_in_pages(&reopened(&found.pages, &found.records[..RECORD_WORDS * count], found.room)?)
    };
    let all = [Some(&newest), older.as_ref()];
    let counts = all
        .into_iter()
        .flatten()
        .flat_map(|found| (0..=found.records.len() / RECORD_WORDS).map(move |count| (found, count)));
    counts.map(|(found, count)| of(found, count)).collect()
}

/// The program takes what the pure layer takes, and ends with 3 where it does not.
fn by_program(ground: &mut Ground) -> Result<(), String> {
    let stock = ground.killed("flips_program", 3)?;
    let whole = files_in(&stock.folder)?;
    for _ in 0..ground.rounds {
        let mut files = whole.clone();
        (0..ground.random.between(1, 3)).for_each(|_| spoil(&mut files, &mut ground.random));
        put_files(&stock.folder, &files)?;
        let code = if read(&files)?.is_ok() { 0 } else { 3 };
        ground.program.run(&["check", text(&stock.folder)])?.is(code)?;
        match ground.program.serve(&stock.folder, &crate::ground::QUIET) {
            Ok(serving) if code == 0 => drop(serving.kill()),
            Ok(_) => return Err("the server starts".to_string()),
            Err(exit) => exit.is(code)?,
        }
    }
    Ok(())
}
