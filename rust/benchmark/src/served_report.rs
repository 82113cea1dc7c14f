//! The section *The server* of the page.

use std::fmt::Write;

use crate::report::{self, duration, head, line};
use crate::served::Served;
use crate::served_depot::Memory;
use crate::served_holdup::{HoldUp, BUSY};
use crate::served_load::{mean, within};
use crate::served_losses::{losses, rivals, standing};
use crate::served_others::MOST;
use crate::served_rounds::{median, Row, Who, CLIENTS, ROUNDS};
use crate::served_starts::Starts;

pub fn section(served: &Served) -> String {
    let mut page = include_str!("../page/served.md").to_string();
    page += &commits(served);
    page += &others(&served.rows);
    page += "\nCommits a second, ahead or behind:\n\n";
    CLIENTS.iter().for_each(|&clients| page += &format!("- {}\n", standing(served, clients)));
    page += &behind(served);
    page += include_str!("../page/served_manners.md");
    page += &manners(served);
    page += include_str!("../page/served_starts.md");
    page += &starts(served);
    page += &memory(served);
    page += include_str!("../page/served_checkpoints.md");
    page += &hold_up(&served.hold_up);
    page
}

pub fn many(clients: usize) -> String {
    format!("{clients} client{}", if clients == 1 { "" } else { "s" })
}

/// Connections that wait for none are told by no way of waiting.
pub fn name(row: &Row) -> &'static str {
    match row.who {
        Who::Depot(_) => "depot",
        Who::Busy if row.clients == 1 => "SQLite",
        Who::Busy => "SQLite, busy timeout",
        Who::Mutex => "SQLite, mutex",
    }
}

/// Of microseconds.
pub fn time(micros: f64) -> String {
    match micros {
        m if m < 1e3 => duration(1e3 * m),
        m if m < 1e4 => format!("{:.1} ms", m / 1e3),
        m => format!("{:.0} ms", m / 1e3),
    }
}

fn commits(served: &Served) -> String {
    let mut page = format!("Commits a second, {}, {ROUNDS} rounds:\n\n", report::name(served.size));
    let heads =
        ["clients", "", "best", "median", "fewest", "one sync", "mean time", "99 of 100 within", "longest"];
    head(&mut page, &heads.map(String::from));
    for row in &served.rows {
        let rates = [row.best(), row.median(), row.fewest].map(|rate| format!("{rate:.0}"));
        let times = [median(&row.syncs), mean(&row.times), within(&row.times, 0.99), within(&row.times, 1.0)];
        let named = [row.clients.to_string(), name(row).to_string()];
        line(&mut page, &[&named[..], &rates[..], &times.map(time)[..]].concat());
    }
    let refused: usize = served.rows.iter().chain(&served.manners).map(|row| row.refused).sum();
    let most = rivals(served, CLIENTS[CLIENTS.len() - 1])[0];
    let counts = most.counts;
    writeln!(
        page,
        "\nOf all visits to the server {refused} were refused and made again. In the last round with {} its collector \
         ended {} passes, and freed {} records beside {} commits.",
        many(most.clients),
        counts.passes,
        counts.freed,
        counts.commits
    )
    .expect("a string");
    page
}

/// Whether the machine had nothing else to do.
fn others(rows: &[Row]) -> String {
    let all: Vec<f64> = rows.iter().flat_map(|row| row.others.clone()).collect();
    let most = all.iter().copied().fold(0.0, f64::max);
    let [usual, most_percent] = [median(&all), most].map(|part| format!("{:.0} %", 100.0 * part));
    let told = format!(
        "Just before the rounds other programs used {usual} of the processors' time, {most_percent} at most."
    );
    match most > MOST {
        true => {
            format!("\n{told} **These figures are of a machine that had other work: they compare nothing.**\n")
        }
        false => format!("\n{told}\n"),
    }
}

fn behind(served: &Served) -> String {
    let list = losses(served);
    if list.is_empty() {
        return "\nBehind SQLite in nothing that is measured here.\n".to_string();
    }
    let lines: String = list.iter().map(|loss| format!("- {loss}\n")).collect();
    format!("\nBehind SQLite by more than a twentieth, depot's figure first:\n\n{lines}")
}

fn manners(served: &Served) -> String {
    let mut page = String::new();
    head(
        &mut page,
        &["clients", "together", "the next one ahead", "together, with images", "a line at a time"]
            .map(String::from),
    );
    for clients in CLIENTS {
        let rows = served.manners.iter().filter(|row| row.clients == clients);
        let rates: Vec<String> = rows.map(|row| format!("{:.0}", row.median())).collect();
        line(&mut page, &[&[clients.to_string()][..], &rates[..]].concat());
    }
    page
}

fn starts(served: &Served) -> String {
    let mut page = String::new();
    head(&mut page, &["", "its log", "median", "least", "most"].map(String::from));
    let rows = [("depot", "records", &served.depot_starts), ("SQLite", "pages", &served.sqlite_starts)];
    for (who, unit, Starts { times, log }) in rows {
        let [least, most] = [f64::min, f64::max].map(|of| times.iter().copied().reduce(of).unwrap_or(0.0));
        let fill = log.iter().min().copied().unwrap_or(0);
        let shown = [median(times), least, most].map(|time| format!("{time:.1}"));
        line(&mut page, &[&[who.to_string(), format!("{fill} {unit} or more")][..], &shown[..]].concat());
    }
    page
}

fn memory(served: &Served) -> String {
    let mut page =
        "\n### Memory\n\nMegabytes of the server's process: resident, and at most so far.\n\n".to_string();
    head(&mut page, &["", "VmRSS", "VmHWM"].map(String::from));
    let busy = CLIENTS.map(|clients| (format!("{}, busy", many(clients)), rivals(served, clients)[0].memory));
    let idle = ("idle, nobody has come".to_string(), served.idle);
    for (when, Memory { now, peak }) in std::iter::once(idle).chain(busy) {
        let sizes = [now, peak].map(|kilobytes| format!("{:.1}", kilobytes as f64 / 1024.0));
        line(&mut page, &[&[when][..], &sizes[..]].concat());
    }
    page
}

fn hold_up(hold_up: &HoldUp) -> String {
    let mut page = String::new();
    let heads = ["", "answers", "median", "99 of 100 within", "999 of 1000 within", "longest"];
    head(&mut page, &heads.map(String::from));
    let rows = [
        ("the chain, nobody else comes".to_string(), &hold_up.idle),
        (format!("the chain, {BUSY} others commit"), &hold_up.busy),
        ("the visits of those others".to_string(), &hold_up.visits),
    ];
    for (what, times) in rows {
        let shown = [0.5, 0.99, 0.999, 1.0].map(|part| time(within(times, part)));
        line(&mut page, &[&[what, times.len().to_string()][..], &shown[..]].concat());
    }
    writeln!(
        page,
        "\nMeanwhile {} checkpoints were made, at {:.0} commits a second. By the server's own clock one held the store \
         for {} at most.",
        hold_up.checkpoints,
        hold_up.rate,
        time(hold_up.longest as f64)
    )
    .expect("a string");
    page
}
