//! The power of the tests: each fault put into the model must be noticed.

use std::fmt::Write;

use model::faults::{COLUMN_FAULTS, FAULTS, OWN_FAULTS, RIGHT_FAULTS, SWEEP_FAULTS, WHOLE_FAULTS};
use model::Fault;

use crate::generate::Scope;
use crate::gives::GIVING_FAULTS;
use crate::run::{report, Tally, Watch};
use crate::sides::Kind;
use crate::{bench, columns, examples, orders, random_lists, turns, whole};

/// The side that a fault is held against.
const UNCHANGED: Kind = Kind::Library;

/// After how many calls of random lists the fault is noticed.
fn noticed(fault: Fault, seed: u64, calls: u64, scope: Scope) -> Option<u64> {
    let sides = [UNCHANGED, Kind::Model(fault)];
    random_lists(sides, Watch::All, seed, calls, scope, &mut Tally::new()).map(|(_, calls)| calls)
}

/// Prints how the named fault shows: the shrunk list and the least state, or the page area, or the page.
pub fn show(name: &str, seed: u64, calls: u64) -> bool {
    std::panic::set_hook(Box::new(|_| {}));
    let of_calls = FAULTS.iter().chain(SWEEP_FAULTS).chain(OWN_FAULTS).chain(RIGHT_FAULTS);
    let Some(named) =
        of_calls.chain(WHOLE_FAULTS).chain(COLUMN_FAULTS).find(|(fault, _)| format!("{fault:?}") == name)
    else {
        println!("no fault is named {name}");
        return false;
    };
    let &(fault, what) = named;
    println!("{fault:?}: {what}");
    let faulty = Kind::Model(fault);
    let sides = [UNCHANGED, faulty];
    let shows = if WHOLE_FAULTS.contains(named) {
        whole::noticed(fault, seed, calls).map(|(_, area)| whole::report(&area, fault))
    } else if COLUMN_FAULTS.contains(named) {
        columns::noticed(sides, seed, calls).map(|(_, lent)| lent.report(sides))
    } else {
        let list = random_lists(sides, Watch::All, seed, calls, Scope::Small, &mut Tally::new());
        list.map(|(list, _)| report(&list, UNCHANGED, faulty))
    };
    shows.unwrap_or_else(|| println!("not noticed in {calls} calls, page areas or pages"));
    true
}

fn shown(noticed: Option<u64>) -> String {
    noticed.map_or("no".to_string(), |n| n.to_string())
}

fn yes(noticed: bool) -> &'static str {
    if noticed {
        "yes"
    } else {
        "no"
    }
}

/// The lines of a table of faults, and how many of them are not noticed.
#[derive(Default)]
struct Table {
    lines: String,
    missed: usize,
}

impl Table {
    fn add(&mut self, fault: impl std::fmt::Debug, noticed: Option<u64>, cells: &[&str]) {
        self.missed += usize::from(noticed.is_none());
        let cells = cells.join(" | ");
        println!("{:>8}  {fault:?}: {cells}", shown(noticed));
        writeln!(self.lines, "| `{fault:?}` | {cells} |").unwrap();
    }
}

/// Whether the examples notice a fault of the calls; after how many calls lists of calls and cuts do, and all lists.
fn by_lists(fault: Fault, seed: u64, calls: u64) -> (bool, [Option<u64>; 2]) {
    let by_example = examples::run(UNCHANGED, Kind::Model(fault)).is_err();
    let by_calls = noticed(fault, seed, calls / 10, Scope::Legal);
    (by_example, [by_calls, noticed(fault, seed, calls, Scope::Small)])
}

/// Faults of the calls.
fn calls_table(faults: &[(Fault, &str)], seed: u64, calls: u64) -> Table {
    let mut table = Table::default();
    for &(fault, what) in faults {
        let (by_example, [by_calls, by_all]) = by_lists(fault, seed, calls);
        table.add(fault, by_all, &[what, yes(by_example), &shown(by_calls), &shown(by_all)]);
    }
    table
}

/// .. and of the sweeping step: the order that stood before must notice them too.
fn sweeps_table(seed: u64, calls: u64) -> Table {
    let mut table = Table::default();
    for &(fault, what) in SWEEP_FAULTS {
        let (by_example, [by_calls, by_all]) = by_lists(fault, seed, calls);
        let by_order = orders::noticed(fault, seed, calls / 10);
        let cells = [by_calls, by_all, by_order].map(shown);
        table.add(fault, by_order.and(by_all), &[what, yes(by_example), &cells[0], &cells[1], &cells[2]]);
    }
    table
}

/// .. and of own numbers, from old stores too.
fn own_table(seed: u64, calls: u64) -> Table {
    let mut table = Table::default();
    for &(fault, what) in OWN_FAULTS {
        let (by_example, [by_calls, by_all]) = by_lists(fault, seed, calls);
        let by_old = noticed(fault, seed, calls / 10, Scope::Old);
        let cells = [by_calls, by_old, by_all].map(shown);
        table.add(fault, by_all, &[what, yes(by_example), &cells[0], &cells[1], &cells[2]]);
    }
    table
}

/// Faults of the held forms alone.
const HELD: [Fault; 16] = [
    Fault::OwnNumbersTaken,
    Fault::EighteenBeforeSeven,
    Fault::EighteenAfterEleven,
    Fault::OwnNumberIsSeven,
    Fault::EighteenTellsObject,
    Fault::OwnNumberInDataRefused,
    Fault::OwnNumberInWordThreeTaken,
    Fault::RootMayNameItself,
    Fault::OldWordTested,
    Fault::OwnNumberAgainTaken,
    Fault::RefusedOwnSetIsRecorded,
    Fault::RefusedOwnSetUnflushes,
    Fault::ReadHidesOwn,
    Fault::OwnOverwrittenUnpruned,
    Fault::AbortClearsOwn,
    Fault::BackClearsOwn,
];

/// .. of clients and their rights.
const HELD_RIGHTS: [Fault; 24] = [
    Fault::RightsUntested,
    Fault::WriteLockNeedsReading,
    Fault::ReadLockNeedsWriting,
    Fault::UpgradeUntested,
    Fault::NineteenBeforeFour,
    Fault::NineteenAfterSix,
    Fault::NineteenTellsHolder,
    Fault::MissingRightIsFive,
    Fault::TransactionForClient,
    Fault::RightOfNextPage,
    Fault::RightsByClient,
    Fault::RightsByEightClients,
    Fault::ClientAfterFour,
    Fault::AnyClientTaken,
    Fault::BeginKeepsClient,
    Fault::GrantWhileReopening,
    Fault::GrantWhileActive,
    Fault::GrantLooksAtInactive,
    Fault::GrantPageAboveTaken,
    Fault::GrantTellsRight,
    Fault::GrantOnlyRaises,
    Fault::ClientOutlivesCommit,
    Fault::ClientOutlivesAbort,
    Fault::ReadRightBeforeLock,
];

/// The library beside the model, and the held forms made by a model with the fault.
fn held_table(faults: &[Fault], scope: Scope, seed: u64, calls: u64) -> Table {
    let mut table = Table::default();
    for &fault in faults {
        let sides = [UNCHANGED, Kind::Held(fault)];
        let found = random_lists(sides, Watch::All, seed, calls, scope, &mut Tally::new());
        let found = found.map(|(_, calls)| calls);
        table.add(fault, found, &[&shown(found)]);
    }
    table
}

/// Faults that are put into both sides, so that the tally of steps alone can notice them.
const TALLIED: [Fault; 14] = [
    Fault::MarksAllInFirstStep,
    Fault::SkippedPageIsNoStep,
    Fault::PrunedScannedAgain,
    Fault::TurnIsNoStep,
    Fault::FreeSlotIsNoStep,
    Fault::NothingFreedIsNoStep,
    Fault::RefusedSweepIsStep,
    Fault::EndKeepsStepNumber,
    Fault::ReopenKeepsPass,
    Fault::NothingToFreeStays,
    Fault::NothingToFreeIsNoStep,
    Fault::LockedPageStays,
    Fault::NothingThereStays,
    Fault::RefusedSweepMovesOn,
];

/// .. so that what was read before alone can.
const READ_AGAIN: [Fault; 14] = [
    Fault::ReadShowsZeros,
    Fault::CotDroppedAtCommitInPass,
    Fault::PrunedNoRoots,
    Fault::PrunedStaysWhite,
    Fault::SweepIgnoresFlaggedCot,
    Fault::WriterBesideReaders,
    Fault::WriterThatReadsBecomesReader,
    Fault::WritesUnderReadLock,
    Fault::ReadsCopies,
    Fault::CreateMakesNoCotEntry,
    Fault::BackGivesUpLocks,
    Fault::SweepDropsReadLocks,
    Fault::SweptPageIsForgotten,
    Fault::UnmarkedOfNextPage,
];

/// .. so that the own numbers of the pages alone can.
const OWNS: [Fault; 10] = [
    Fault::OwnNumbersTaken,
    Fault::OwnNumberInWordThreeTaken,
    Fault::RootMayNameItself,
    Fault::RootAloneRefused,
    Fault::OldWordTested,
    Fault::SameWordRefused,
    Fault::FieldComparedWithObject,
    Fault::RefusedOwnSetWrites,
    Fault::AbortPutsOwn,
    Fault::BackPutsOwn,
];

/// .. so that the ledger of clients, rights and locks alone can.
const BY_LEDGER: [Fault; 44] = [
    Fault::RightsUntested,
    Fault::ReadLockUntested,
    Fault::WriteLockUntested,
    Fault::WriteLockNeedsReading,
    Fault::ReadLockNeedsWriting,
    Fault::ReadLockNeedsNoMore,
    Fault::UpgradeUntested,
    Fault::UpgradeNeedsReading,
    Fault::NineteenAfterSix,
    Fault::NineteenTellsHolder,
    Fault::NineteenTellsClient,
    Fault::MissingRightIsFive,
    Fault::AllAreClientZero,
    Fault::TransactionForClient,
    Fault::RightOfNextClient,
    Fault::RightOfNextPage,
    Fault::RightOfAnyClient,
    Fault::RightOnAnyPage,
    Fault::RightsByFour,
    Fault::BeginKeepsClient,
    Fault::BeginNotesTransaction,
    Fault::GrantIgnored,
    Fault::GrantWhileActive,
    Fault::GrantByTransactionNumber,
    Fault::GrantMayRaise,
    Fault::GrantMayLower,
    Fault::GrantOfSameTaken,
    Fault::GrantWhereUnlocked,
    Fault::GrantOnlyRaises,
    Fault::GrantOfNextClientToo,
    Fault::GrantOfAllPages,
    Fault::RightsOutliveReopening,
    Fault::RightsEndWithCommit,
    Fault::RightsEndWithEmptying,
    Fault::FormatGivesClientZero,
    Fault::ReopeningGivesClientZero,
    Fault::ClientEndsWithMark,
    Fault::ClientEndsWithBack,
    Fault::ClientEndsWithFlush,
    Fault::ReadShowsZeros,
    Fault::WritesUnderReadLock,
    Fault::WriterBesideReaders,
    Fault::AbortKeepsReadLocks,
    Fault::HolderHighest,
];

/// Faults in both sides, noticed by what is watched alone.
fn watched_table(watch: Watch, faults: &[Fault], seed: u64, calls: u64) -> Table {
    let mut table = Table::default();
    for &fault in faults {
        let both = [Kind::Model(fault); 2];
        let found = random_lists(both, watch, seed, calls, Scope::Legal, &mut Tally::new());
        let found = found.map(|(_, calls)| calls);
        table.add(fault, found, &[&shown(found)]);
    }
    table
}

/// What the bench program may do wrong with rights, noticed by its script of them.
fn giving_table() -> Table {
    let mut table = Table::default();
    for (gives, what) in GIVING_FAULTS {
        let noticed = bench::noticed(gives);
        table.add(gives, noticed.then_some(1), &[what, yes(noticed)]);
    }
    table
}

/// The faults of `whole`.
fn whole_table(seed: u64, areas: u64) -> Table {
    let mut table = Table::default();
    for &(fault, what) in WHOLE_FAULTS {
        let by_areas = whole::noticed(fault, seed, areas).map(|(n, _)| n);
        table.add(fault, by_areas, &[what, &shown(by_areas)]);
    }
    table
}

/// The faults of `to_columns` and `from_columns`: in both sides, they show only where a page is not given back.
fn columns_table(seed: u64, pages: u64) -> Table {
    let mut table = Table::default();
    for &(fault, what) in COLUMN_FAULTS {
        let faulty = Kind::Model(fault);
        let by_example = turns::run(UNCHANGED, faulty).is_err();
        let by = |sides| columns::noticed(sides, seed, pages).map(|(n, _)| n);
        let [by_pages, not_back] = [by([UNCHANGED, faulty]), by([faulty, faulty])];
        table.add(fault, by_pages, &[what, yes(by_example), &shown(not_back), &shown(by_pages)]);
    }
    table
}

/// docs/TESTS.md with these tables, by their names in the template.
fn page(tables: &[(&str, usize, Table)], seed: u64, calls: u64) -> String {
    let numbers = [("seed", seed), ("calls", calls), ("tenth", calls / 10)];
    let figures = include_str!("../../depot_tests/figures.md").trim_end();
    let mut page = include_str!("tests.md").replace("{server}", figures);
    for (name, number) in numbers {
        page = page.replace(&format!("{{{name}}}"), &number.to_string());
    }
    for (name, faults, table) in tables {
        page = page.replace(&format!("{{{name}}}"), &faults.to_string());
        page = page.replace(&format!("{{{name}_table}}"), table.lines.trim_end());
    }
    page
}

/// Each table with its name and how many faults it has.
fn tables(seed: u64, calls: u64) -> Vec<(&'static str, usize, Table)> {
    let tenth = calls / 10;
    vec![
        ("calls_faults", FAULTS.len(), calls_table(FAULTS, seed, calls)),
        ("sweep_faults", SWEEP_FAULTS.len(), sweeps_table(seed, calls)),
        ("own_faults", OWN_FAULTS.len(), own_table(seed, calls)),
        ("held", HELD.len(), held_table(&HELD, Scope::Old, seed, tenth)),
        ("right_faults", RIGHT_FAULTS.len(), calls_table(RIGHT_FAULTS, seed, calls)),
        ("held_rights", HELD_RIGHTS.len(), held_table(&HELD_RIGHTS, Scope::Legal, seed, tenth)),
        ("tallied", TALLIED.len(), watched_table(Watch::Steps, &TALLIED, seed, tenth)),
        ("read_again", READ_AGAIN.len(), watched_table(Watch::Reads, &READ_AGAIN, seed, calls)),
        ("owns", OWNS.len(), watched_table(Watch::Owns, &OWNS, seed, tenth)),
        ("by_ledger", BY_LEDGER.len(), watched_table(Watch::Rights, &BY_LEDGER, seed, tenth)),
        ("giving_faults", GIVING_FAULTS.len(), giving_table()),
        ("whole_faults", WHOLE_FAULTS.len(), whole_table(seed, tenth)),
        ("column_faults", COLUMN_FAULTS.len(), columns_table(seed, tenth)),
    ]
}

pub fn run(seed: u64, calls: u64, write: Option<&str>) -> bool {
    std::panic::set_hook(Box::new(|_| {})); // a faulty model may panic: that is noticed too
    let tables = tables(seed, calls);
    let same = orders::run(seed, calls / 10);
    let missed: usize = tables.iter().map(|(_, _, table)| table.missed).sum();
    let of_model = [FAULTS, SWEEP_FAULTS, OWN_FAULTS, RIGHT_FAULTS, WHOLE_FAULTS, COLUMN_FAULTS];
    let faults = of_model.iter().map(|faults| faults.len()).sum::<usize>() + GIVING_FAULTS.len();
    println!("power: {faults} faults against {}, {missed} not noticed", UNCHANGED.name());
    if let Some(path) = write {
        if let Err(error) = std::fs::write(path, page(&tables, seed, calls)) {
            println!("{path}: {error}");
            return false;
        }
    }
    missed == 0 && same
}
