//! All of it, one after the other: briefly, or for so many minutes.

use crate::options::Options;
use crate::report::{page, Row};
use crate::{abuse, cuts, disk, failures, kill, lines, planted};

fn say(row: Row) -> Row {
    println!("{}", row.line());
    row
}

/// Under a minute and a half. What tablets may do takes time and no work: it runs beside the rest.
pub fn short(options: &Options) -> Vec<Row> {
    let beside = options.with(10).within("abuse");
    std::thread::scope(|scope| {
        let abuse = scope.spawn(|| say(abuse::run(&beside)));
        let mut rows = vec![
            say(disk::run(&options.with(40))),
            say(cuts::run(&options.with(1000))),
            say(planted::run(&options.with(12))),
            say(kill::run(&options.with(30))),
            say(failures::run(&options.with(10))),
            say(lines::run(&options.with(10_000))),
        ];
        rows.push(abuse.join().expect("abuse does not panic"));
        rows
    })
}

/// For so many minutes, most of them for the cuts; the figures are written.
pub fn long(options: &Options) -> Vec<Row> {
    let share = |percent: u64| options.for_seconds(60 * options.minutes * percent / 100);
    let rows = vec![
        say(disk::run(&share(30))),
        say(cuts::run(&share(30))),
        say(planted::run(&options.with(4 * options.minutes))),
        say(kill::run(&share(20))),
        say(failures::run(&options.with(40))),
        say(abuse::run(&options.with(40))),
        say(lines::run(&share(10))),
    ];
    if let Some(file) = &options.write {
        std::fs::write(file, page(&rows, options.seed)).unwrap_or_else(|error| println!("{file}: {error}"));
    }
    rows
}
