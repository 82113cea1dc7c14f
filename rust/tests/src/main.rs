//! Compares the proved library with the model, the model with the Python oracle, and the tests
//! with wrong behaviours put into the model.
//!
//!   compare examples
//!   compare random  [--seed N] [--calls N] [--large | --old]
//!   compare whole   [--seed N] [--calls N]
//!   compare columns [--seed N] [--calls N]
//!   compare orders  [--seed N] [--calls N]
//!   compare open    [--seed N] [--calls N]
//!   compare bench   [FILE.in ..]
//!   compare power   [--seed N] [--calls N] [--write FILE]
//!   compare show FAULT [--seed N] [--calls N]
//!   compare oracle PROGRAM [--seed N] [--calls N] [--large]
//!
//! Exit status 0 where nothing differs (power: and every fault is noticed), else 1.

mod actions;
mod bench;
mod chains;
mod columns;
mod contractors;
mod crowd;
mod examples;
mod generate;
mod gives;
mod grants;
mod graphs;
mod holders;
mod images;
mod ledger;
mod marks;
mod old;
mod old_stores;
mod open;
mod oracle;
mod orders;
mod own_sets;
mod owns;
mod passes;
mod power;
mod random;
mod readers;
mod reads;
mod rights;
mod rubbish;
mod run;
mod sets;
mod shares;
mod sides;
mod steps;
mod sweeps;
mod tablets;
mod turns;
mod whole;

use std::process::exit;
use std::time::Instant;

use actions::List;
use generate::{plan, Generator, Scope};
use model::layout::*;
use random::Random;
use run::{readers_of_swept, report, Pair, Tally, Watch};
use sides::{Kind, MODEL};

struct Options {
    seed: u64,
    calls: u64,
    scope: Scope,
    write: Option<String>,
    /// A fault, the oracle's program, or files.
    named: Vec<String>,
}

impl Options {
    fn read(words: &[String]) -> Options {
        let mut options =
            Options { seed: 1, calls: 1_000_000, scope: Scope::Small, write: None, named: Vec::new() };
        let mut rest = words.iter();
        while let Some(word) = rest.next() {
            match word.as_str() {
                "--large" => options.scope = Scope::Large,
                "--old" => options.scope = Scope::Old,
                "--seed" | "--calls" | "--write" => {
                    let value = rest.next().cloned().unwrap_or_else(usage);
                    match word.as_str() {
                        "--write" => options.write = Some(value),
                        "--seed" => options.seed = value.parse().unwrap_or_else(|_| usage()),
                        _ => options.calls = value.parse().unwrap_or_else(|_| usage()),
                    }
                }
                _ => options.named.push(word.clone()),
            }
        }
        options
    }

    /// The one thing that is named.
    fn name(&self) -> &str {
        self.named.first().unwrap_or_else(usage)
    }
}

fn main() {
    let words: Vec<String> = std::env::args().skip(1).collect();
    let (mode, rest) = words.split_first().unwrap_or_else(usage);
    let options = Options::read(rest);
    let Options { seed, calls, .. } = options;
    let good = match mode.as_str() {
        "examples" => run_examples(),
        "random" => run_random(&options),
        "whole" => whole::run(seed, calls),
        "columns" => columns::run(seed, calls),
        "orders" => orders::run(seed, calls),
        "open" => open::run(seed, calls),
        "bench" => bench::run(&options.named),
        "power" => power::run(seed, calls, options.write.as_deref()),
        "show" => power::show(options.name(), seed, calls),
        "oracle" => oracle::run(options.name(), seed, calls, options.scope),
        _ => usage(),
    };
    exit(if good { 0 } else { 1 });
}

fn usage<T>() -> T {
    eprintln!("usage: compare examples | random | whole | columns | orders | open | bench [FILE.in ..] | power | show FAULT | oracle PROGRAM [--seed N] [--calls N] [--large | --old] [--write FILE]");
    exit(2)
}

fn run_examples() -> bool {
    match examples::run(Kind::Library, MODEL) {
        Ok([examples, calls]) => {
            print!("examples: {} against model, {examples} examples, ", Kind::Library.name());
            println!("{calls} calls, no difference");
            true
        }
        Err(what) => {
            println!("examples: {what}");
            false
        }
    }
}

/// Runs random lists on both sides, led by the left one, until so many calls are made or the two
/// differ, or what is watched does not hold of the left one: then the list and how many calls it took.
pub fn random_lists(
    [left, right]: [Kind; 2],
    watch: Watch,
    seed: u64,
    calls: u64,
    scope: Scope,
    tally: &mut Tally,
) -> Option<(List, u64)> {
    let mut lists = Random::new(seed);
    let mut lead = Areas::default();
    let mut made = 0;
    while made < calls {
        let mut random = Random::new(lists.next());
        let (pages, records, style, length) = plan(&mut random, scope);
        let mut generator = Generator::new(random, style, pages);
        let mut pair = Pair::new(left, right, pages, records);
        pair.watch = watch;
        let mut list = List { pages, records, actions: Vec::new() };
        while list.actions.len() < length && made < calls {
            AREAS.iter().for_each(|&area| pair.left.area(area).clone_into(lead.of_mut(area)));
            let action = generator.next(&lead);
            let swept = readers_of_swept(&lead);
            list.actions.push(action.clone());
            made += u64::from(action.call().is_some());
            match pair.step(&action) {
                Ok(answer) => tally.note(&action, answer, swept),
                Err(_) => return Some((list, made)),
            }
        }
        tally.add(&pair);
    }
    None
}

fn run_random(options: &Options) -> bool {
    let mut tally = Tally::new();
    let started = Instant::now();
    let sides = [Kind::Library, MODEL];
    let found = random_lists(sides, Watch::All, options.seed, options.calls, options.scope, &mut tally);
    let seconds = started.elapsed().as_secs_f64();
    tally.print();
    println!("{:.1} s, {:.0} calls per second, seed {}", seconds, tally.calls as f64 / seconds, options.seed);
    match found {
        None => {
            println!("random: {} against model, no difference", Kind::Library.name());
            true
        }
        Some((list, calls)) => {
            println!("after {calls} calls:");
            report(&list, Kind::Library, MODEL);
            false
        }
    }
}
