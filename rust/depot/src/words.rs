//! The words of a command line: names in their order, and options with a value behind them.

use std::ops::RangeInclusive;
use std::str::FromStr;
use std::time::Duration;

use crate::status::{Stop, USAGE};

pub struct Words {
    names: Vec<String>,
    options: Vec<(String, String)>,
}

fn wrong(text: String) -> Stop {
    Stop::new(USAGE, format!("{text}; `depot --help` has the words"))
}

impl Words {
    /// `flags` have no value.
    pub fn new(words: &[String], flags: &[&str]) -> Result<Words, Stop> {
        let mut parted = Words { names: Vec::new(), options: Vec::new() };
        let mut words = words.iter();
        while let Some(word) = words.next() {
            if flags.contains(&word.as_str()) {
                parted.options.push((word.clone(), String::new()));
            } else if word.starts_with("--") {
                let value = words.next().ok_or_else(|| wrong(format!("{word} wants a value")))?;
                parted.options.push((word.clone(), value.clone()));
            } else {
                parted.names.push(word.clone());
            }
        }
        Ok(parted)
    }

    /// The names, which are to be just so many.
    pub fn names<const N: usize>(&self, what: &str) -> Result<[&str; N], Stop> {
        let names: Vec<&str> = self.names.iter().map(String::as_str).collect();
        names.try_into().map_err(|_| wrong(format!("wanted: {what}")))
    }

    pub fn flag(&mut self, name: &str) -> bool {
        let before = self.options.len();
        self.options.retain(|(option, _)| option != name);
        self.options.len() < before
    }

    /// An option's value, if it is there.
    pub fn option<T: FromStr>(&mut self, name: &str) -> Result<Option<T>, Stop> {
        let Some(at) = self.options.iter().position(|(option, _)| option == name) else {
            return Ok(None);
        };
        let (_, value) = self.options.remove(at);
        value.parse().map(Some).map_err(|_| wrong(format!("{name} {value}: not understood")))
    }

    /// A number within bounds.
    pub fn count(&mut self, name: &str, bounds: RangeInclusive<usize>, otherwise: usize) -> Result<usize, Stop> {
        let count = self.option(name)?.unwrap_or(otherwise);
        match bounds.contains(&count) {
            true => Ok(count),
            false => Err(wrong(format!("{name} {count}: not {} to {}", bounds.start(), bounds.end()))),
        }
    }

    /// A time in seconds, as `2` or `0.5`.
    pub fn seconds(&mut self, name: &str, otherwise: Duration) -> Result<Duration, Stop> {
        const DAY: f64 = 86_400.0;
        match self.option::<f64>(name)? {
            None => Ok(otherwise),
            Some(seconds) if (0.0..=DAY).contains(&seconds) => Ok(Duration::from_secs_f64(seconds)),
            Some(seconds) => Err(wrong(format!("{name} {seconds}: not 0 to {DAY} seconds"))),
        }
    }

    /// No option is left.
    pub fn end(&self) -> Result<(), Stop> {
        match self.options.first() {
            None => Ok(()),
            Some((option, _)) => Err(wrong(format!("{option}: no such option here, or twice"))),
        }
    }
}
