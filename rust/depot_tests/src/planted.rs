//! Each planted fault through the same rounds as the server without one: all must be found, by both.

use crate::faults::{Fault, FAULTS};
use crate::options::Options;
use crate::random::Random;
use crate::report::Row;
use crate::{cuts, disk};

/// In how many of so many rounds something was found, and what first.
struct Found {
    rounds: u64,
    found: u64,
    first: Option<String>,
}

fn by(rounds: u64, seed: u64, round: &dyn Fn(u64) -> Result<(), String>) -> Found {
    let mut random = Random::new(seed);
    let mut all = Found { rounds, found: 0, first: None };
    for _ in 0..rounds {
        if let Err(what) = round(random.next()) {
            all.found += 1;
            all.first.get_or_insert(what);
        }
    }
    all
}

fn by_disk(fault: Fault, rounds: u64, seed: u64) -> Found {
    by(rounds, seed, &|seed| disk::round(seed, fault).1)
}

fn by_cuts(fault: Fault, rounds: u64, seed: u64) -> Found {
    by(rounds, seed, &|seed| cuts::series(seed, fault, cuts::SERIES).1)
}

pub fn run(options: &Options) -> Row {
    let rounds = options.rounds(40);
    let mut row = Row::new("faults", "stores for each fault");
    let mut found_all = 0;
    for (fault, what) in [(Fault::None, "none")].into_iter().chain(FAULTS) {
        let found = [by_disk(fault, rounds, options.seed), by_cuts(fault, rounds.div_ceil(2), options.seed)];
        let [disk, cuts] = found.each_ref().map(|found| format!("{} of {}", found.found, found.rounds));
        options.say(&format!("faults: {what}: disk {disk} stores, cuts {cuts} stores"));
        row.table.push(format!("| {what} | {disk} stores | {cuts} stores |"));
        match found.each_ref().map(|found| found.found > 0) == [fault != Fault::None; 2] {
            true => found_all += usize::from(fault != Fault::None),
            false => row.wrong(format!("{what}: disk {disk}, cuts {cuts}; {:?}", found.map(|found| found.first))),
        }
    }
    row.rounds = rounds + rounds.div_ceil(2);
    row.faults = Some((found_all, FAULTS.len()));
    row.end()
}
