//! kill -9 of the program under load over TCP, now and then in the midst of a start; after each, every client's
//! records must be a pair that was told or sent since.

use std::path::{Path, PathBuf};
use std::sync::atomic::{AtomicBool, AtomicU32, Ordering};
use std::sync::Arc;
use std::time::Duration;

use crate::bounds::empty_log;
use crate::channel::Tcp;
use crate::crew::{Crew, Stopped};
use crate::desk::told;
use crate::options::Options;
use crate::process::{fresh, text, Program, Serving};
use crate::random::Random;
use crate::report::Row;
use crate::yard::Yard;

#[derive(Default)]
struct Figures {
    kills: u64,
    in_start: u64,
    stops: u64,
    checks: u64,
    backups: u64,
    refused: u64,
    told: u64,
}

struct Yards {
    program: Program,
    out: PathBuf,
    folder: PathBuf,
    crews: Vec<Crew>,
    random: Random,
    figures: Figures,
}

const SERVE: [&str; 4] = ["--pass-commits", "64", "--drain-grace", "0.2"];

impl Yards {
    fn new(program: Program, out: &Path, clients: usize, mut random: Random) -> Result<Yards, String> {
        let folder = fresh(out, "kill")?;
        let yard = Yard::new(clients);
        let room = [256, 700, 2000][random.below(3)];
        program.format(&folder, yard.pages(), room)?;
        let mut serving = program.ready(&folder, &SERVE)?;
        yard.plant(&mut Tcp::connect(serving.address())?)?;
        program.done(&["stop", text(&folder)])?;
        serving.wait().is(0)?;
        let out = out.to_path_buf();
        Ok(Yards { program, out, folder, crews: Crew::all(&yard), random, figures: Figures::default() })
    }

    /// A start, a look at every pair, load, and the kill.
    fn round(&mut self) -> Result<(), String> {
        if self.random.percent(20) {
            self.kill_a_start();
        }
        if self.random.percent(15) {
            self.program.done(&["check", text(&self.folder)])?;
            self.figures.checks += 1;
        }
        let serving = self.program.ready(&self.folder, &SERVE)?;
        let mut channel = Tcp::connect(serving.address())?;
        self.crews.iter_mut().try_for_each(|crew| crew.verify_by(&mut channel))?;
        drop(channel);
        let backup = self.random.percent(10).then(|| self.out.join("backup"));
        let stops = self.random.percent(10);
        let least = self.load(serving, backup.as_deref(), stops)?;
        self.figures.kills += u64::from(!stops);
        self.figures.stops += u64::from(stops);
        backup.map_or(Ok(()), |backup| self.restore(&backup, &least))
    }

    /// All clients at work until the server is killed, or stopped; meanwhile a backup may be taken. What was told
    /// when it was asked for.
    fn load(&mut self, serving: Serving, backup: Option<&Path>, stops: bool) -> Result<Vec<[u32; 2]>, String> {
        let (killed, time) = (AtomicBool::new(false), self.random.between(1, 120));
        let seeds: Vec<u64> = self.crews.iter().map(|_| self.random.next()).collect();
        let shown: Vec<[Arc<AtomicU32>; 2]> = self.crews.iter().map(Crew::shown).collect();
        let (address, program, store) = (serving.address().to_string(), &self.program, text(&self.folder));
        std::thread::scope(|scope| {
            let work = |crew, seed| work(crew, &address, seed, &killed);
            let crews = self.crews.iter_mut().zip(seeds);
            let threads: Vec<_> = crews.map(|(crew, seed)| scope.spawn(move || work(crew, seed))).collect();
            std::thread::sleep(Duration::from_millis(time as u64));
            let least = shown.iter().map(told).collect();
            let saved = backup.map(|backup| program.done(&["backup", store, text(backup)]));
            killed.store(true, Ordering::SeqCst);
            let stopped = if stops { stop(serving, &self.folder) } else { Ok(drop(serving.kill())) };
            let ends = threads.into_iter().map(|thread| thread.join().expect("no client panics"));
            let ends: Vec<Result<(), Stopped>> = ends.collect();
            saved.transpose()?;
            stopped?;
            ends.into_iter().try_for_each(|end| match end {
                Err(Stopped::Wrong(what)) => Err(what),
                _ => Ok(()),
            })?;
            Ok(least)
        })
    }

    /// A store restored from the backup has a pair of each client, and what was told when it was asked for.
    fn restore(&mut self, backup: &Path, least: &[[u32; 2]]) -> Result<(), String> {
        let folder = fresh(&self.out, "restored")?.join("store");
        self.program.done(&["restore", text(&folder), text(backup)])?;
        std::fs::remove_file(backup).map_err(|error| error.to_string())?;
        let serving = self.program.ready(&folder, &SERVE)?;
        let mut channel = Tcp::connect(serving.address())?;
        self.figures.backups += 1;
        self.crews.iter().zip(least).try_for_each(|(crew, &[count, note])| {
            let found = crew.reader().read_by(&mut channel)?;
            let right = (count..=crew.last()).contains(&found.count) && (note..=crew.last()).contains(&found.note);
            right.then_some(()).ok_or(format!("a backup has count {}, told before was {count}", found.count))
        })
    }

    fn kill_a_start(&mut self) {
        let serving = self.program.spawn(&self.folder, &SERVE);
        std::thread::sleep(Duration::from_micros(self.random.below(8000) as u64));
        serving.kill();
        self.figures.in_start += 1;
    }

    fn sum(&mut self) {
        self.figures.told = self.crews.iter().map(|crew| crew.commits).sum();
        self.figures.refused = self.crews.iter().map(|crew| crew.refused).sum();
    }
}

/// A signal ends the server under load, with an empty log.
fn stop(mut serving: Serving, folder: &Path) -> Result<(), String> {
    serving.signal("TERM")?;
    serving.wait().is(0)?;
    empty_log(folder)
}

/// A client over TCP until the server is killed; an end before that is wrong.
fn work(crew: &mut Crew, address: &str, seed: u64, killed: &AtomicBool) -> Result<(), Stopped> {
    let is_killed = || killed.load(Ordering::SeqCst);
    let worked = Tcp::connect(address)
        .map_err(Stopped::Ended)
        .and_then(|mut channel| crew.work(&mut channel, &mut Random::new(seed), &|| !is_killed()));
    match worked {
        Err(Stopped::Ended(why)) if !is_killed() => Err(Stopped::Wrong(format!("the connection ended: {why}"))),
        other => other,
    }
}

fn rounds(options: &Options, yards: &mut Yards) -> Result<(), String> {
    let budget = options.budget(60);
    while budget.allows(yards.figures.kills + yards.figures.stops) {
        yards.round()?;
    }
    let serving = yards.program.ready(&yards.folder, &SERVE)?;
    let mut channel = Tcp::connect(serving.address())?;
    yards.crews.iter_mut().try_for_each(|crew| crew.verify_by(&mut channel))
}

fn run_all(options: &Options, row: &mut Row) -> Result<(), String> {
    let program = Program::new(options.named(0, "DEPOT")?);
    let mut yards = Yards::new(program, &options.out, options.clients, Random::new(options.seed))?;
    let result = rounds(options, &mut yards);
    yards.sum();
    let Figures { kills, in_start, stops, checks, backups, refused, told } = yards.figures;
    (row.rounds, row.told) = (kills, told);
    let more = format!("{in_start} kills in a start, {stops} stops, {checks} checks, {backups} backups restored");
    row.more = format!("{} clients, {more}, {refused} transactions without room", options.clients);
    result
}

pub fn run(options: &Options) -> Row {
    let mut row = Row::new("kill", "kills");
    let result = run_all(options, &mut row);
    row.note(result);
    row.end()
}
