//! The words behind a subcommand.

use std::path::{Path, PathBuf};
use std::time::{Duration, Instant};

/// Each has a connection, of which a server takes so many, and two pages.
const MOST_CLIENTS: u64 = 60;

#[derive(Clone)]
pub struct Options {
    pub seed: u64,
    rounds: Option<u64>,
    seconds: Option<u64>,
    pub clients: usize,
    /// Where folders are made.
    pub out: PathBuf,
    pub named: Vec<String>,
    /// Where the page of figures is written.
    pub write: Option<String>,
    pub minutes: u64,
    quiet: bool,
}

impl Options {
    pub fn read(words: &[String]) -> Result<Options, String> {
        let out = own_folder(&std::env::temp_dir());
        let mut options = Options {
            seed: 1,
            rounds: None,
            seconds: None,
            clients: 8,
            out,
            named: Vec::new(),
            write: None,
            minutes: 30,
            quiet: false,
        };
        let mut rest = words.iter();
        while let Some(word) = rest.next() {
            match word.strip_prefix("--") {
                Some(name) => options.take(name, rest.next().ok_or(format!("{word} needs a value"))?)?,
                None => options.named.push(word.clone()),
            }
        }
        Ok(options)
    }

    fn take(&mut self, name: &str, value: &str) -> Result<(), String> {
        let number = || value.parse::<u64>().map_err(|_| format!("--{name} {value}: no number"));
        match name {
            "seed" => self.seed = number()?,
            "rounds" => self.rounds = Some(number()?),
            "seconds" => self.seconds = Some(number()?),
            "clients" => self.clients = number()?.clamp(1, MOST_CLIENTS) as usize,
            "out" => self.out = own_folder(value.as_ref()),
            "minutes" => self.minutes = number()?,
            "write" => self.write = Some(value.to_string()),
            _ => return Err(format!("--{name}: no such option")),
        }
        Ok(())
    }

    pub fn rounds(&self, usual: u64) -> u64 {
        self.rounds.unwrap_or(usual)
    }

    /// So many rounds, quietly.
    pub fn with(&self, rounds: u64) -> Options {
        Options { rounds: Some(rounds), seconds: None, quiet: true, ..self.clone() }
    }

    /// As many rounds as so many seconds take, quietly.
    pub fn for_seconds(&self, seconds: u64) -> Options {
        Options { rounds: None, seconds: Some(seconds), quiet: true, ..self.clone() }
    }

    /// In a folder of that name.
    pub fn within(&self, name: &str) -> Options {
        Options { out: self.out.join(name), ..self.clone() }
    }

    /// More than the line at the end.
    pub fn say(&self, line: &str) {
        if !self.quiet {
            println!("{line}");
        }
    }

    /// So many rounds, unless a number or a time was named.
    pub fn budget(&self, rounds: u64) -> Budget {
        let until = self.seconds.map(|seconds| Instant::now() + Duration::from_secs(seconds));
        let rounds = self.rounds.unwrap_or(if until.is_some() { u64::MAX } else { rounds });
        Budget { rounds, until }
    }

    pub fn named(&self, at: usize, what: &str) -> Result<&str, String> {
        self.named.get(at).map(String::as_str).ok_or(format!("{what} is to be named"))
    }
}

/// A folder in this one that nobody else has, as it is taken away in the end.
pub fn own_folder(folder: &Path) -> PathBuf {
    folder.join(format!("depot_tests.{}", std::process::id()))
}

/// How long to go on.
pub struct Budget {
    rounds: u64,
    until: Option<Instant>,
}

impl Budget {
    pub fn allows(&self, done: u64) -> bool {
        done < self.rounds && self.until.is_none_or(|until| Instant::now() < until)
    }
}
