//! The bench program by the model (document 01, "The bench program"): its output for lines that are read, or held, with
//! the library's answers, to the output that a file has.

use std::io::{Read, Write};

use calls::Call;

use crate::actions::Action;
use crate::gives::Gives;
use crate::run::Pair;
use crate::sides::{Kind, MODEL};

/// "It formats P = 4, L = 64".
pub const PAGES: usize = 4;
const RECORDS: usize = 64;

/// Calls that have no line.
const NO_LINE: [&str; 6] = ["format", "chain", "mark", "back", "share", "grant"];

/// "lines end in CRLF, which the last input line may lack"
fn lines(input: &str) -> Vec<&str> {
    let mut lines: Vec<&str> = input.split("\r\n").collect();
    if lines.last() == Some(&"") {
        lines.pop();
    }
    lines
}

/// The call that a line is, if it is one. A begin's line has no client: the grammar stays (DECISIONS 95).
fn call(line: &str, gives: Gives) -> Option<Call> {
    let mut fields = line.split(',');
    let name = fields.next().filter(|name| !NO_LINE.contains(name))?;
    let numbers: Option<Vec<u32>> = fields.map(number).collect();
    match (name, numbers?.as_slice()) {
        ("begin", &[t]) => Some(Call::Begin(t, gives.client(t))),
        ("begin", _) => None,
        (name, numbers) => Call::named(name, numbers),
    }
}

/// "Numbers have no leading zeros and 32 bits."
fn number(field: &str) -> Option<u32> {
    field.parse().ok().filter(|number: &u32| number.to_string() == field)
}

/// The bench program on one side and the model.
struct Bench {
    pair: Pair,
    gives: Gives,
    /// Reopenings that have finished.
    finished: u64,
    line: u64,
    output: String,
}

impl Bench {
    /// Makes a call, and the grants after it, which have no output line.
    fn make(&mut self, call: Call) -> Result<u64, String> {
        let answer = self.pair.step(&Action::from(call))?;
        let grants = self.gives.grants(call, answer, self.finished);
        self.finished += u64::from(call == Call::ReopenStep && answer == PAGES as u64);
        for grant in grants {
            self.pair.step(&Action::from(grant))?;
            self.line += u64::from(self.gives == Gives::GrantsHaveLines);
        }
        Ok(answer)
    }

    /// "Each output line is line number, answer (0 or a refusal) and value.". "A line that is no call answers 1."
    fn answer(&mut self, line: &str) -> Result<(), String> {
        self.line += 1;
        let n = self.line;
        let answer = match call(line, self.gives) {
            Some(call) => self.make(call).map_err(|what| format!("line {n}: {what}"))?,
            None => 1 << 32,
        };
        self.output.push_str(&format!("{n},{},{}\r\n", answer >> 32, answer as u32));
        Ok(())
    }
}

/// This side's output, or where it differs from the model.
fn output(input: &str, side: Kind, gives: Gives) -> Result<String, String> {
    let pair = Pair::new(side, MODEL, PAGES, RECORDS);
    let mut bench = Bench { pair, gives, finished: 0, line: 0, output: String::new() };
    bench.make(Call::Format)?;
    lines(input).into_iter().try_for_each(|line| bench.answer(line))?;
    Ok(bench.output)
}

/// Writes the output for what is read.
pub fn write() -> Result<(), String> {
    let mut input = Vec::new();
    std::io::stdin().read_to_end(&mut input).map_err(|error| error.to_string())?;
    let output = output(&String::from_utf8_lossy(&input), MODEL, Gives::AllAgain)?;
    std::io::stdout().write_all(output.as_bytes()).map_err(|error| error.to_string())
}

/// The library's output for a file NAME.in must be what NAME.out has, and the model's.
fn check(file: &str) -> Result<(), String> {
    let read = |path: &str| {
        let bytes = std::fs::read(path).map_err(|error| format!("{path}: {error}"))?;
        Ok::<String, String>(String::from_utf8_lossy(&bytes).into_owned())
    };
    let name = file.strip_suffix(".in").ok_or(format!("{file}: no name that ends in .in"))?;
    let (written, wanted) = (output(&read(file)?, Kind::Library, Gives::AllAgain)?, read(&format!("{name}.out"))?);
    let unlike = lines(&written).iter().zip(lines(&wanted)).position(|(left, right)| *left != right);
    match unlike {
        Some(at) => Err(format!("{file}: line {} is {}", at + 1, lines(&written)[at])),
        None if written != wanted => Err(format!("{file}: another number of lines")),
        None => Ok(()),
    }
}

/// Whether the script of rights notices a wrong giving: its output is another.
pub fn noticed(gives: Gives) -> bool {
    let [input, wanted] =
        [include_str!("../../../tests/bench/rights.in"), include_str!("../../../tests/bench/rights.out")];
    output(input, MODEL, gives).as_deref() != Ok(wanted)
}

/// With files these are checked; else the lines are read, and the output is written.
pub fn run(files: &[String]) -> bool {
    let done = match files {
        [] => write(),
        _ => files.iter().try_for_each(|file| check(file)),
    };
    match &done {
        Err(what) => println!("bench: {what}"),
        Ok(()) if files.is_empty() => {}
        Ok(()) => println!("bench: {} scripts, no difference", files.len()),
    }
    done.is_ok()
}
