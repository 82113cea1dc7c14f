//! The server against SQLite: ahead or behind, and in what behind.

use crate::report::ratio;
use crate::served::Served;
use crate::served_load::{mean, within};
use crate::served_report::{many, name, time};
use crate::served_rounds::{median, Row, Who, CLIENTS};
use crate::served_tablet::Manner;

/// By more than the noise.
const NOISE: f64 = 1.05;

fn of_sqlite(served: &Served, clients: usize) -> impl Iterator<Item = &Row> {
    let sqlite = |row: &&Row| matches!(row.who, Who::Busy | Who::Mutex);
    served.rows.iter().filter(move |row| row.clients == clients).filter(sqlite)
}

/// The server's row, and that of SQLite's ways of waiting which makes more commits.
pub fn rivals(served: &Served, clients: usize) -> [&Row; 2] {
    let own = |row: &&Row| row.clients == clients && row.who == Who::Depot(Manner::Together);
    let other = of_sqlite(served, clients).max_by(|a, b| a.median().total_cmp(&b.median()));
    [served.rows.iter().find(own).expect("the server's row"), other.expect("a row of SQLite's")]
}

/// Commits a second of both: in the best round, and in the median.
fn rates(own: &Row, other: &Row) -> [[f64; 2]; 2] {
    [[own.best(), other.best()], [own.median(), other.median()]]
}

/// Whether the first makes more commits than the second, both by the best round and by the median.
fn more(own: &Row, other: &Row) -> bool {
    rates(own, other).iter().all(|[own, other]| *own > NOISE * other)
}

pub fn standing(served: &Served, clients: usize) -> String {
    let [own, other] = rivals(served, clients);
    let rates = rates(own, other);
    let place = match () {
        () if more(own, other) => "ahead of",
        () if more(other, own) => "behind",
        () => "level with",
    };
    let [best, median] = rates.map(|[own, other]| format!("{} times ({own:.0} to {other:.0})", ratio(own, other)));
    let named = format!("{}: {place} {}", many(clients), name(other));
    format!("{named}, with {best} its commits in the best round, {median} in the median.")
}

/// All in which the server is behind.
pub fn losses(served: &Served) -> Vec<String> {
    let pairs = CLIENTS.into_iter().flat_map(|clients| {
        let own = rivals(served, clients)[0];
        of_sqlite(served, clients).map(move |other| (own, other))
    });
    let starts = [&served.depot_starts, &served.sqlite_starts].map(|starts| median(&starts.times));
    let start = longer("median", starts.map(|milliseconds| 1e3 * milliseconds));
    let start = start.map(|by| format!("A start after kill -9: {by}."));
    pairs.filter_map(|(own, other)| loss(own, other)).chain(start).collect()
}

fn loss(own: &Row, other: &Row) -> Option<String> {
    let rate = more(other, own).then(|| format!("commits a second {:.0} to {:.0}", own.median(), other.median()));
    let means = [own, other].map(|row| mean(&row.times));
    let most = [own, other].map(|row| within(&row.times, 0.99));
    let times = [longer("mean time", means), longer("99 of 100 within", most)];
    let list: Vec<String> = rate.into_iter().chain(times.into_iter().flatten()).collect();
    (!list.is_empty()).then(|| format!("{}, {}: {}.", many(own.clients), name(other), list.join(", ")))
}

/// Of microseconds.
fn longer(what: &str, [own, other]: [f64; 2]) -> Option<String> {
    (own > NOISE * other).then(|| format!("{what} {} to {}", time(own), time(other)))
}
