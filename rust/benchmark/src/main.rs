//! Times the proved library, lent and held, the model, a plain sum, a plain search, the server and SQLite in one
//! run, takes the sizes of backups, and writes docs/BENCHMARKS.md.
//!
//!   benchmark DIRECTORY FILE DEPOT
//!   benchmark served DIRECTORY FILE DEPOT
//!
//! DIRECTORY is for the files that the workload, the backups, the server and SQLite write; FILE becomes the page,
//! of *served* only the section of the server; DEPOT is the server's program. tests/benchmark calls it.

mod arranging;
mod backup;
mod cases;
mod chains;
mod compress;
mod damage;
mod disk;
mod growth;
mod losses;
mod machine;
mod random;
mod reads;
mod report;
mod runs;
mod search;
mod served;
mod served_client;
mod served_depot;
mod served_holdup;
mod served_load;
mod served_losses;
mod served_others;
mod served_report;
mod served_rounds;
mod served_sqlite;
mod served_starts;
mod served_tablet;
mod served_visit;
mod sqlite;
mod starts;
mod states;
mod tables;
mod timing;
mod workload;
mod yard;

use std::path::Path;
use std::time::Duration;

use report::{Results, Row, Table};
use states::{Size, FILLS};
use timing::{measure, Times};
use workload::Plan;

const SMALL: Size = Size { pages: 4, records: 64 };
const LARGE: Size = Size { pages: 256, records: 4096 };

/// In each, as many pass steps as keep up with the garbage.
const PLANS: [Plan; 2] = [Plan { size: LARGE, levels: 3, steps: 4 }, Plan { size: SMALL, levels: 0, steps: 5 }];

fn main() {
    let words: Vec<String> = std::env::args().skip(1).collect();
    let words: Vec<&str> = words.iter().map(String::as_str).collect();
    match words[..] {
        ["sqlite-fill", file] => served_starts::fill_sqlite(Path::new(file), LARGE.pages),
        ["sqlite-open", file] => served_starts::open_sqlite(Path::new(file)),
        ["served", directory, file, depot] => {
            let served = served::served(LARGE, Path::new(directory), Path::new(depot));
            write(file, &served_report::section(&served));
        }
        [directory, file, depot] => write(file, &page(Path::new(directory), Path::new(depot))),
        _ => {
            eprintln!("usage: benchmark [served] DIRECTORY FILE DEPOT");
            std::process::exit(2);
        }
    }
}

fn write(file: &str, page: &str) {
    std::fs::write(file, page).expect("the page is written");
}

fn page(directory: &Path, depot: &Path) -> String {
    let clock = timing::clock();
    let brief = Duration::from_millis(100);
    report::page(&Results {
        check: [LARGE, SMALL].map(|size| (size, check(size, clock))).into(),
        damages: damages(LARGE, clock, brief),
        tables: [LARGE, SMALL].map(|size| Table { size, rows: rows(size, clock, brief) }).into(),
        pages: (growth::by_pages(), growth::grow(&growth::by_pages(), clock, brief)),
        records: (growth::by_records(), growth::grow(&growth::by_records(), clock, brief)),
        workloads: PLANS.map(|plan| runs::workload(plan, 3, directory, clock)).into(),
        starts: starts::starts(LARGE, clock, brief),
        chains: chains::chains(LARGE, clock, 5 * brief),
        backups: backup::sizes(&PLANS, LARGE, directory),
        arranging: arranging::arranging(LARGE, clock, brief),
        served: served::served(LARGE, directory, depot),
        machine: machine::describe(disk::sync_time(directory)),
    })
}

/// The check of refusal 1 alone: a lock for a transaction that is not active.
fn check(size: Size, clock: f64) -> [Times; 3] {
    FILLS.map(|fill| {
        let list = cases::cases(size, fill);
        let case = list.iter().find(|case| (case.name, case.number) == ("lock_read", 4)).expect("a case");
        measure(case, clock, Duration::from_millis(1000))
    })
}

fn damages(size: Size, clock: f64, budget: Duration) -> Vec<(&'static str, Times)> {
    damage::damages(size).iter().map(|(place, case)| (*place, measure(case, clock, budget))).collect()
}

fn rows(size: Size, clock: f64, budget: Duration) -> Vec<Row> {
    let lists = FILLS.map(|fill| cases::cases(size, fill));
    let row = |i: usize| {
        let case = &lists[0][i];
        let times = [0, 1, 2].map(|fill| measure(&lists[fill][i], clock, budget));
        Row { name: case.name, number: case.number, floor: case.floor, times }
    };
    (0..lists[0].len()).map(row).collect()
}
