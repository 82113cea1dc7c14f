//! What a run did, as a line and as a row of the table of figures.

use std::fmt::Write;
use std::time::Instant;

pub struct Row {
    what: &'static str,
    started: Instant,
    seconds: f64,
    pub rounds: u64,
    /// What a round is.
    unit: &'static str,
    pub told: u64,
    pub states: u64,
    /// Planted faults that were found, of how many.
    pub faults: Option<(usize, usize)>,
    /// More of it, in words.
    pub more: String,
    /// Rows of a table of its own.
    pub table: Vec<String>,
    pub wrong: Vec<String>,
}

impl Row {
    pub fn new(what: &'static str, unit: &'static str) -> Row {
        let (more, table, wrong) = (String::new(), Vec::new(), Vec::new());
        let started = Instant::now();
        Row { what, started, seconds: 0.0, rounds: 0, unit, told: 0, states: 0, faults: None, more, table, wrong }
    }

    /// Something is wrong: it is said at once.
    pub fn wrong(&mut self, text: String) {
        println!("{}: WRONG: {text}", self.what);
        self.wrong.push(text);
    }

    pub fn note<T>(&mut self, result: Result<T, String>) -> Option<T> {
        result.map_err(|text| self.wrong(text)).ok()
    }

    /// The run has ended.
    pub fn end(mut self) -> Row {
        self.seconds = self.started.elapsed().as_secs_f64();
        self
    }

    pub fn good(&self) -> bool {
        self.wrong.is_empty()
    }

    pub fn line(&self) -> String {
        let mut line = format!("{}: {} {}", self.what, self.rounds, self.unit);
        let counts = [(self.told, "commits told"), (self.states, "states tried")];
        counts
            .iter()
            .filter(|(count, _)| *count > 0)
            .for_each(|(count, what)| write!(line, ", {count} {what}").unwrap());
        if let Some((found, all)) = self.faults {
            write!(line, ", {found} of {all} planted faults found").unwrap();
        }
        if !self.more.is_empty() {
            write!(line, ", {}", self.more).unwrap();
        }
        let verdict =
            if self.good() { "nothing wrong".to_string() } else { format!("{} WRONG", self.wrong.len()) };
        write!(line, "; {verdict}, {:.1} s", self.seconds).unwrap();
        line
    }

    fn cells(&self) -> String {
        let number = |count: u64| if count == 0 { String::new() } else { parted(count) };
        let faults = self.faults.map_or(String::new(), |(found, all)| format!("{found} of {all}"));
        let (what, unit, rounds) = (self.what, self.unit, parted(self.rounds));
        let (told, states, wrong) = (number(self.told), number(self.states), self.wrong.len());
        format!(
            "| {what} | {rounds} {unit} | {told} | {states} | {faults} | {wrong} | {} |",
            parted(self.seconds as u64)
        )
    }
}

/// A number with commas.
fn parted(number: u64) -> String {
    let digits = number.to_string();
    let mut text = String::new();
    for (i, digit) in digits.chars().enumerate() {
        if i > 0 && (digits.len() - i) % 3 == 0 {
            text.push(',');
        }
        text.push(digit);
    }
    text
}

/// The page of figures.
pub fn page(rows: &[Row], seed: u64) -> String {
    let mut page = format!("Figures of the long run, written by `tests/server`, seed {seed}:\n\n");
    page.push_str("| what | rounds | commits told | states tried | planted faults found | wrong | seconds |\n");
    page.push_str("|---|---|---|---|---|---|---|\n");
    rows.iter().for_each(|row| writeln!(page, "{}", row.cells()).unwrap());
    page.push('\n');
    rows.iter()
        .filter(|row| !row.more.is_empty())
        .for_each(|row| writeln!(page, "- {}: {}.", row.what, row.more).unwrap());
    for row in rows.iter().filter(|row| !row.table.is_empty()) {
        write!(
            page,
            "\n| planted fault | found by `disk` | found by `cuts` |\n|---|---|---|\n{}\n",
            row.table.join("\n")
        )
        .unwrap();
    }
    page
}
