//! Where the library is slower than what it is compared with, or a backup by columns larger than by rows.

use crate::report::{answer, name, ratio, Results};
use crate::runs::Workload;
use crate::states::FILLS;
use crate::timing::Times;

/// What is slower than something that it is held to, plainly: held calls first.
pub fn losses(results: &Results) -> String {
    let mut list = Vec::new();
    results.workloads.iter().for_each(|workload| sqlite_losses(workload, &mut list));
    list.sort_by_key(|loss| !loss.starts_with("Held"));
    for (form, of) in [("held", held as fn(&Times) -> Option<f64>), ("lent", lent)] {
        model_losses(results, form, of, &mut list);
    }
    floor_losses(results, &mut list);
    chain_losses(results, &mut list);
    backup_losses(results, &mut list);
    if list.is_empty() {
        return "Nowhere in this run.\n".to_string();
    }
    list.iter().map(|loss| format!("- {loss}\n")).collect()
}

fn held(t: &Times) -> Option<f64> {
    t.held
}

fn lent(t: &Times) -> Option<f64> {
    Some(t.lent)
}

/// One form of the calls against the model.
fn model_losses(results: &Results, form: &str, of: fn(&Times) -> Option<f64>, list: &mut Vec<String>) {
    for table in &results.tables {
        for row in &table.rows {
            let call = format!("`{}`, {form}, {}, {}", row.name, answer(row.number), name(table.size));
            let logs = FILLS.map(|fill| format!("{} log", fill.name()));
            list.extend(call_loss(&call, of, logs.iter().zip(&row.times)));
        }
    }
    for (sizes, table) in [&results.pages, &results.records] {
        for grown in table {
            let call = format!("`{}`, {form}, {}, full log", grown.name, answer(grown.number));
            let places: Vec<String> = sizes.iter().map(|size| name(*size)).collect();
            list.extend(call_loss(&call, of, places.iter().zip(&grown.times)));
        }
    }
    for (place, t) in &results.damages {
        let time = of(t).filter(|&time| slower(time, t.model));
        list.extend(
            time.map(|time| format!("Refusal 1, damaged {place}: {} times the model.", ratio(time, t.model))),
        );
    }
}

/// Where a call is slower than the model, in one line.
fn call_loss<'a>(
    call: &str,
    of: fn(&Times) -> Option<f64>,
    places: impl Iterator<Item = (&'a String, &'a Times)>,
) -> Option<String> {
    let lost: Vec<String> = places
        .filter_map(|(place, t)| of(t).map(|time| (place, time, t.model)))
        .filter(|&(_, time, model)| slower(time, model))
        .map(|(place, time, model)| format!("{} ({place})", ratio(time, model)))
        .collect();
    (!lost.is_empty()).then(|| format!("{call}: {} times the model.", lost.join(", ")))
}

/// By more than the clock's grain and the noise.
fn slower(time: f64, model: f64) -> bool {
    time > 1.05 * model && time > model + 20.0
}

/// The check against the floor, where it takes more than twice as long.
fn floor_losses(results: &Results, list: &mut Vec<String>) {
    for (size, times) in &results.check {
        for (fill, t) in FILLS.iter().zip(times).filter(|(_, t)| t.lent > 2.0 * t.floor) {
            let (place, by) = (name(*size), ratio(t.lent, t.floor));
            list.push(format!("The check of refusal 1, {place}, {} log: {by} times the floor.", fill.name()));
        }
    }
}

/// Held chains against the plain search, where they take more than half as long again.
fn chain_losses(results: &Results, list: &mut Vec<String>) {
    for chain in &results.chains {
        let time = chain.times.held.filter(|&held| held > 1.5 * chain.times.floor);
        list.extend(time.map(|held| {
            format!("`chain`, held, {}: {} times a plain search.", chain.graph, ratio(held, chain.times.floor))
        }));
    }
}

/// Columns against rows, and arranging a page against two plain loops.
fn backup_losses(results: &Results, list: &mut Vec<String>) {
    for sizes in &results.backups {
        let larger = sizes.compressed.iter().filter(|(_, [rows, columns])| columns > rows);
        let lost: Vec<String> = larger
            .map(|(with, [rows, columns])| {
                format!("{} ({})", ratio(*columns as f64, *rows as f64), with.join(" "))
            })
            .collect();
        if !lost.is_empty() {
            list.push(format!("Backup, {}: by columns {} times the bytes by rows.", sizes.store, lost.join(", ")));
        }
    }
    for a in results.arranging.iter().filter(|a| a.library > 1.05 * a.plain) {
        list.push(format!("`{}`: {} times two plain loops.", a.call, ratio(a.library, a.plain)));
    }
}

/// SQLite against the library that waits for the disk as it does.
fn sqlite_losses(workload: &Workload, list: &mut Vec<String>) {
    let place = name(workload.plan.size);
    for against in workload.against() {
        for (form, own) in against.own.iter().filter(|(_, own)| against.rate > 1.05 * own) {
            let by = format!("{:.1} times ({:.0} to {own:.0} a second)", against.rate / own, against.rate);
            list.push(format!(
                "{form} calls, workload, {place}: SQLite, {}, runs {by} as many transactions.",
                against.name
            ));
        }
    }
}
