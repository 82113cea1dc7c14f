//! Tries the record server, rust/depot.
//!
//!   depot_tests disk                 every state that a power cut may leave, at small sizes
//!   depot_tests cuts                 cuts at random under load, on a disk in memory
//!   depot_tests faults               planted faults: `disk` and `cuts` must find each
//!   depot_tests kill DEPOT           kill -9 of the program under load over TCP [--clients N]
//!   depot_tests failures DEPOT       what is wrong with a folder, a disk, a machine
//!   depot_tests abuse DEPOT          what tablets may do that they should not
//!   depot_tests lines DEPOT BENCH    random lines against the bench program
//!   depot_tests short DEPOT BENCH OUT_DIR   all of it, briefly
//!   depot_tests long DEPOT BENCH OUT_DIR    all of it, for [--minutes N]; [--write FILE] writes the figures
//!
//! [--seed N] [--rounds N | --seconds N] [--out DIR]; the exit status is 0 where nothing is wrong.

mod abuse;
mod books;
mod bounds;
mod channel;
mod committed;
mod crew;
mod cuts;
mod damaged;
mod desk;
mod disk;
mod failing;
mod failures;
mod faults;
mod flips;
mod ground;
mod history;
mod kill;
mod lines;
mod options;
mod pair;
mod planted;
mod platter;
mod power;
mod process;
mod promises;
mod queues;
#[path = "../../tests/src/random.rs"]
mod random;
mod report;
mod scribble;
mod setup;
mod states;
mod tablets;
mod together;
mod walk;
mod yard;

use std::process::exit;

use options::Options;
use report::Row;

fn main() {
    let words: Vec<String> = std::env::args().skip(1).collect();
    let (mode, rest) = words.split_first().unwrap_or_else(|| usage("a subcommand is to be named"));
    let mut options = Options::read(rest).unwrap_or_else(|what| usage(&what));
    if let ("short" | "long", Some(out)) = (mode.as_str(), options.named.get(2)) {
        options.out = options::own_folder(out.as_ref());
    }
    let one: fn(&Options) -> Row = match mode.as_str() {
        "short" => finish(&together::short(&options), &options),
        "long" => finish(&together::long(&options), &options),
        "disk" => disk::run,
        "cuts" => cuts::run,
        "faults" => planted::run,
        "kill" => kill::run,
        "failures" => failures::run,
        "abuse" => abuse::run,
        "lines" => lines::run,
        _ => usage(&format!("{mode}: no such subcommand")),
    };
    let row = one(&options);
    println!("{}", row.line());
    finish(&[row], &options)
}

/// What a good run has made is taken away; what a bad one has left may be looked at.
fn finish<T>(rows: &[Row], options: &Options) -> T {
    let good = rows.iter().all(Row::good);
    if good {
        let _ = std::fs::remove_dir_all(&options.out);
    }
    exit(if good { 0 } else { 1 })
}

fn usage<T>(what: &str) -> T {
    eprintln!("depot_tests: {what}");
    eprintln!(
        "usage: depot_tests disk | cuts | faults | kill DEPOT | failures DEPOT | abuse DEPOT | lines DEPOT BENCH"
    );
    eprintln!(
        "       depot_tests short DEPOT BENCH OUT_DIR | long DEPOT BENCH OUT_DIR [--minutes N] [--write FILE]"
    );
    eprintln!("       [--seed N] [--rounds N | --seconds N] [--clients N] [--out DIR]");
    exit(2)
}
