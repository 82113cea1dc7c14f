//! The page docs/BENCHMARKS.md.

use std::fmt::Write;

use crate::arranging::Arranging;
use crate::backup::Sizes;
use crate::cases::Floor;
use crate::chains::Chain;
use crate::growth::Growth;
use crate::losses::losses;
use crate::reads::reads;
use crate::runs::Workload;
use crate::served::Served;
use crate::starts::Start;
use crate::states::{Fill, Size, FILLS};
use crate::timing::Times;
use crate::workload::USES;
use crate::{served_losses, served_report};

/// A call with one answer, at the three fills of the log.
pub struct Row {
    pub name: &'static str,
    pub number: u32,
    pub floor: Floor,
    pub times: [Times; 3],
}

/// All calls at one size.
pub struct Table {
    pub size: Size,
    pub rows: Vec<Row>,
}

pub struct Results {
    pub machine: Vec<(&'static str, String)>,
    pub check: Vec<(Size, [Times; 3])>,
    pub damages: Vec<(&'static str, Times)>,
    pub tables: Vec<Table>,
    pub pages: (Vec<Size>, Vec<Growth>),
    pub records: (Vec<Size>, Vec<Growth>),
    pub workloads: Vec<Workload>,
    pub starts: Vec<Start>,
    pub chains: Vec<Chain>,
    pub backups: Vec<Sizes>,
    pub arranging: [Arranging; 2],
    pub served: Served,
}

pub fn page(results: &Results) -> String {
    let mut page = include_str!("../page/head.md").to_string();
    page += "\n## The machine\n\n| | |\n|---|---|\n";
    results.machine.iter().for_each(|(what, which)| line(&mut page, &[what.to_string(), which.clone()]));
    page += "\n## Where it loses\n\n";
    page += &losses(results);
    for loss in served_losses::losses(&results.served) {
        page += &format!("- The server against SQLite, {loss}\n");
    }
    page += include_str!("../page/reads.md");
    page += &reads(&results.tables[0]);
    page += &starts(&results.starts);
    page += &chains(&results.chains);
    page += include_str!("../page/check.md");
    page += &check(results);
    page += include_str!("../page/calls.md");
    results.tables.iter().for_each(|table| page += &calls(table));
    page += include_str!("../page/growth.md");
    page += &growth("P (L = 64)", &results.pages, |size| size.pages, "page");
    page += &growth("L (P = 4)", &results.records, |size| size.records, "record");
    page += include_str!("../page/workload.md");
    results.workloads.iter().for_each(|workload| page += &rates(workload));
    page += include_str!("../page/tail.md");
    page += &served_report::section(&results.served);
    page += include_str!("../page/backup.md");
    page += &backups(&results.backups);
    page += include_str!("../page/arranging.md");
    page += &arranging(&results.arranging);
    page
}

pub fn line(page: &mut String, cells: &[String]) {
    writeln!(page, "| {} |", cells.join(" | ")).unwrap();
}

pub fn head(page: &mut String, cells: &[String]) {
    line(page, cells);
    writeln!(page, "|{}", "---|".repeat(cells.len())).unwrap();
}

pub fn name(size: Size) -> String {
    format!("P = {}, L = {}", size.pages, size.records)
}

pub fn answer(number: u32) -> String {
    if number == 0 {
        "accepted".to_string()
    } else {
        format!("refused, {number}")
    }
}

/// Microseconds, with about three digits.
fn micros(nanos: f64) -> String {
    let micros = nanos / 1e3;
    match micros {
        m if m >= 100.0 => format!("{m:.0}"),
        m if m >= 10.0 => format!("{m:.1}"),
        m => format!("{m:.2}"),
    }
}

pub fn ratio(of: f64, to: f64) -> String {
    if to <= 0.0 {
        "-".to_string()
    } else {
        format!("{:.2}", of / to)
    }
}

/// Nanoseconds, or microseconds where there are many.
pub fn duration(nanos: f64) -> String {
    if nanos < 1e3 {
        format!("{nanos:.0} ns")
    } else {
        format!("{} µs", micros(nanos))
    }
}

/// Of what not every case has.
fn some(time: Option<f64>, show: impl Fn(f64) -> String) -> String {
    time.map_or("-".to_string(), show)
}

fn starts(list: &[Start]) -> String {
    let mut page = include_str!("../page/starts.md").to_string();
    head(&mut page, &["disk", "`kophdaen_whole`", "`Held::open`"].map(String::from));
    for start in list {
        line(&mut page, &[start.disk.to_string(), duration(start.whole), duration(start.open)]);
    }
    page
}

fn chains(list: &[Chain]) -> String {
    let mut page = include_str!("../page/chain.md").to_string();
    let heads = ["graph", "objects in the chain", "held", "plain", "held / plain", "lent", "model"];
    head(&mut page, &heads.map(String::from));
    for Chain { graph, objects, times: t } in list {
        let named = [graph.to_string(), objects.to_string()];
        let ratio = some(t.held, |held| ratio(held, t.floor));
        let cells = [some(t.held, micros), micros(t.floor), ratio, micros(t.lent), micros(t.model)];
        line(&mut page, &[&named[..], &cells[..]].concat());
    }
    page
}

fn check(results: &Results) -> String {
    let mut page = String::new();
    let heads = ["size", "log", "lent", "held", "model", "floor", "lent / floor", "lent / model"];
    head(&mut page, &heads.map(String::from));
    for (size, times) in &results.check {
        for (fill, t) in FILLS.iter().zip(times) {
            let cells = [micros(t.lent), some(t.held, micros), micros(t.model), micros(t.floor)];
            let ratios = [ratio(t.lent, t.floor), ratio(t.lent, t.model)];
            let named = [name(*size), fill.name().to_string()];
            line(&mut page, &[&named[..], &cells[..], &ratios[..]].concat());
        }
    }
    page += include_str!("../page/damage.md");
    head(&mut page, &["damaged", "lent", "model", "lent / model"].map(String::from));
    for (place, t) in &results.damages {
        line(&mut page, &[place.to_string(), micros(t.lent), micros(t.model), ratio(t.lent, t.model)]);
    }
    page
}

fn calls(table: &Table) -> String {
    let mut page = format!("\n### {}\n", name(table.size));
    for (i, fill) in FILLS.into_iter().enumerate() {
        page += &calls_at(table, i, fill);
    }
    page
}

fn calls_at(table: &Table, i: usize, fill: Fill) -> String {
    let all = floor(table, i);
    let mut page = format!("\nLog {}. Floor of the six areas: {} µs.\n\n", fill.name(), micros(all));
    let heads = ["call", "answer", "lent", "held", "held / lent", "model", "lent / model", "lent / floor"];
    head(&mut page, &heads.map(String::from));
    for row in &table.rows {
        let t = row.times[i];
        let floor = match row.floor {
            Floor::All => all,
            Floor::Stable | Floor::Search(_) => t.floor,
            Floor::Nothing => 0.0,
        };
        let cells = [
            format!("`{}`", row.name),
            answer(row.number),
            micros(t.lent),
            some(t.held, micros),
            some(t.held, |held| format!("{:.3}", held / t.lent)),
            micros(t.model),
            ratio(t.lent, t.model),
            ratio(t.lent, floor),
        ];
        line(&mut page, &cells);
    }
    page
}

/// The sum over the six areas is the same work in every case: the least of all its samples.
fn floor(table: &Table, fill: usize) -> f64 {
    let all = table.rows.iter().filter(|row| row.floor == Floor::All);
    all.map(|row| row.times[fill].floor).fold(f64::MAX, f64::min)
}

fn growth(what: &str, (sizes, table): &(Vec<Size>, Vec<Growth>), of: fn(&Size) -> usize, unit: &str) -> String {
    let mut page = "\n".to_string();
    let mut heads = vec!["call".to_string(), "answer".to_string()];
    heads.extend(sizes.iter().map(|size| format!("{} {}", what.split(' ').next().unwrap_or(""), of(size))));
    heads.push(format!("ns for one more {unit}: held"));
    heads.extend(["lent", "model", "floor"].map(String::from));
    head(&mut page, &heads);
    let more = (of(&sizes[sizes.len() - 1]) - of(&sizes[0])) as f64;
    for grown in table {
        let mut cells = vec![format!("`{}`", grown.name), answer(grown.number)];
        let shown = |t: &Times| format!("{}, {} ({})", some(t.held, micros), micros(t.lent), micros(t.model));
        cells.extend(grown.times.iter().map(shown));
        let (first, last) = (grown.times[0], grown.times[grown.times.len() - 1]);
        let slope = |to: f64, from: f64| format!("{:.2}", (to - from) / more);
        cells.push(some(last.held, |held| slope(held, first.held.unwrap_or(held))));
        for (to, from) in [(last.lent, first.lent), (last.model, first.model), (last.floor, first.floor)] {
            cells.push(slope(to, from));
        }
        line(&mut page, &cells);
    }
    page
}

fn rates(workload: &Workload) -> String {
    let plan = workload.plan;
    let mut page = format!("\n### {}\n\n", name(plan.size));
    writeln!(
        page,
        "{} directory objects, {} objects reached in all; a pass takes {} transactions.\n",
        plan.directories(),
        plan.live(),
        plan.pass_length()
    )
    .unwrap();
    let heads = ["", "one sync, µs", "without a collector", "with it", "slowdown", "time in the collector"];
    head(&mut page, &heads.map(String::from));
    for (who, rates) in &workload.rates {
        let sync = if rates.sync > 0.0 { format!("{:.0}", rates.sync) } else { "-".to_string() };
        let speeds = [rates.without, rates.with].map(|rate| format!("{rate:.0}"));
        let costs = [rates.without / rates.with - 1.0, rates.share].map(|cost| format!("{:.1} %", 100.0 * cost));
        line(&mut page, &[&[who.clone(), sync][..], &speeds[..], &costs[..]].concat());
    }
    page += "\nTransactions with the collector over those of SQLite, where both wait alike for the disk:\n\n";
    head(&mut page, &["SQLite", "held", "lent"].map(String::from));
    for against in workload.against() {
        let times = against.own.map(|(_, own)| format!("{:.2}", own / against.rate));
        line(&mut page, &[&[against.name][..], &times[..]].concat());
    }
    page += &uses(workload);
    writeln!(page, "\nSteps made because the client found no free slots: {}.", workload.waits).unwrap();
    page
}

fn uses(workload: &Workload) -> String {
    let mut page = "\nThe time by use, in memory, with the pass beside:\n\n".to_string();
    head(&mut page, &["use", "held", "lent"].map(String::from));
    let percent = |share: f64| format!("{:.1} %", 100.0 * share);
    for (used, what) in USES {
        let shares = workload.uses.map(|shares| percent(shares[used as usize]));
        line(&mut page, &[&[what.to_string()][..], &shares[..]].concat());
    }
    let rest = workload.uses.map(|shares| percent(1.0 - shares.iter().sum::<f64>()));
    line(&mut page, &[&["the client's own".to_string()][..], &rest[..]].concat());
    page
}

fn backups(list: &[Sizes]) -> String {
    let mut page = String::new();
    let mut heads = ["store", "slots occupied", "bytes"].map(String::from).to_vec();
    heads.extend(list[0].compressed.iter().map(|(compressor, _)| compressor.join(" ")));
    head(&mut page, &heads);
    for sizes in list {
        let occupied = format!("{} of {}", sizes.occupied, sizes.slots);
        let mut cells = vec![sizes.store.clone(), occupied, sizes.bytes.to_string()];
        let shown =
            |[rows, columns]: [usize; 2]| format!("{rows}, {columns} ({})", ratio(columns as f64, rows as f64));
        cells.extend(sizes.compressed.iter().map(|(_, both)| shown(*both)));
        line(&mut page, &cells);
    }
    page
}

fn arranging(list: &[Arranging]) -> String {
    let mut page = String::new();
    head(&mut page, &["call", "library, ns", "plain, ns", "library / plain", "copy, ns"].map(String::from));
    for Arranging { call, library, plain, copy } in list {
        let [ns, plain_ns, copy_ns] = [library, plain, copy].map(|time| format!("{time:.0}"));
        line(&mut page, &[format!("`{call}`"), ns, plain_ns, ratio(*library, *plain), copy_ns]);
    }
    page
}
