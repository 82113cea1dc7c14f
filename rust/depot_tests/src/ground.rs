//! A folder with a store of some clients' records, for a case that tries the program itself.

use std::path::{Path, PathBuf};
use std::time::Instant;

use crate::channel::Tcp;
use crate::crew::{Crew, Stopped};
use crate::options::Options;
use crate::process::{fresh, text, Program, Serving};
use crate::random::Random;
use crate::report::Row;
use crate::yard::Yard;

/// What a case has: the program, and a place for its folders.
pub struct Ground {
    pub program: Program,
    pub out: PathBuf,
    pub random: Random,
    pub rounds: u64,
}

pub type Case = (&'static str, fn(&mut Ground) -> Result<(), String>);

/// Runs the cases.
pub fn run(what: &'static str, cases: &[&[Case]], options: &Options) -> Row {
    let mut row = Row::new(what, "cases");
    let Some(mut ground) = row.note(Ground::new(options)) else { return row.end() };
    for (name, case) in cases.iter().copied().flatten() {
        let started = Instant::now();
        let result = case(&mut ground).map_err(|text| format!("{name}: {text}"));
        row.rounds += 1;
        if row.note(result).is_some() {
            options.say(&format!("{what}: {name}: {:.1} s", started.elapsed().as_secs_f64()));
        }
    }
    row.end()
}

/// A store, and what its clients know of it.
pub struct Stock {
    pub folder: PathBuf,
    pub crews: Vec<Crew>,
}

/// Few clients and a small log.
pub const CLIENTS: usize = 2;
pub const RECORDS: usize = 200;
/// No pass, so that nothing but what clients do is in the log.
pub const QUIET: [&str; 4] = ["--pass-commits", "0", "--begin-wait", "1"];

fn ended(stopped: Stopped) -> String {
    match stopped {
        Stopped::Ended(why) | Stopped::Wrong(why) => why,
    }
}

impl Ground {
    fn new(options: &Options) -> Result<Ground, String> {
        let program = Program::new(options.named(0, "DEPOT")?);
        std::fs::create_dir_all(&options.out).map_err(|error| error.to_string())?;
        let random = Random::new(options.seed);
        Ok(Ground { program, out: options.out.clone(), random, rounds: options.rounds(20) })
    }

    /// A formatted folder with the clients' records, and its server.
    pub fn stock(&mut self, name: &str) -> Result<(Stock, Serving), String> {
        let folder = fresh(&self.out, name)?.join("store");
        let yard = Yard::new(CLIENTS);
        self.program.format(&folder, yard.pages(), RECORDS)?;
        let serving = self.program.ready(&folder, &QUIET)?;
        yard.plant(&mut Tcp::connect(serving.address())?)?;
        Ok((Stock { folder, crews: Crew::all(&yard) }, serving))
    }

    /// So many commits of each client.
    pub fn work(&mut self, stock: &mut Stock, serving: &Serving, commits: u64) -> Result<(), String> {
        let mut channel = Tcp::connect(serving.address())?;
        let random = &mut self.random;
        stock.crews.iter_mut().try_for_each(|crew| crew.commit(commits, &mut channel, random)).map_err(ended)
    }

    /// A stock with some commits whose server was killed: its log has records.
    pub fn killed(&mut self, name: &str, commits: u64) -> Result<Stock, String> {
        let (stock, serving) = self.stock(name)?;
        self.stop(&stock.folder, serving)?;
        let mut stock = stock;
        let serving = self.program.ready(&stock.folder, &QUIET)?;
        self.work(&mut stock, &serving, commits)?;
        serving.kill();
        Ok(stock)
    }

    /// One whose server was stopped: its log is empty.
    pub fn stopped(&mut self, name: &str, commits: u64) -> Result<Stock, String> {
        let (mut stock, serving) = self.stock(name)?;
        self.work(&mut stock, &serving, commits)?;
        self.stop(&stock.folder, serving)?;
        Ok(stock)
    }

    pub fn stop(&self, folder: &Path, mut serving: Serving) -> Result<(), String> {
        self.program.done(&["stop", text(folder)])?;
        serving.wait().is(0)
    }

    /// Starts a server, and looks at every client's records.
    pub fn verified(&self, stock: &mut Stock) -> Result<Serving, String> {
        let serving = self.program.ready(&stock.folder, &QUIET)?;
        verify(stock, &serving)?;
        Ok(serving)
    }

    /// Neither `check` nor `serve` takes the folder: this exit status, and a message.
    pub fn refused(&self, folder: &Path, code: i32) -> Result<(), String> {
        self.program.run(&["check", text(folder)])?.is(code)?;
        match self.program.serve(folder, &QUIET) {
            Ok(_) => Err("the server starts".to_string()),
            Err(exit) => exit.is(code),
        }
    }
}

pub fn verify(stock: &mut Stock, serving: &Serving) -> Result<(), String> {
    let mut channel = Tcp::connect(serving.address())?;
    stock.crews.iter_mut().try_for_each(|crew| crew.verify_by(&mut channel))
}
