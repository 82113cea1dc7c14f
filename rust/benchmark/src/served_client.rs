//! A connection to the server: lines are sent together, and as many answers taken.

use std::fmt::{Arguments, Write as _};
use std::io::{Read, Write};
use std::net::TcpStream;
use std::time::Duration;

use kophdaen::OBJECT_WORDS;

/// A server that takes longer to answer is taken for one that hangs.
const PATIENCE: Duration = Duration::from_secs(30);

/// What a line was answered: 0 or a refusal, and as many values behind it as are looked at. What is no number
/// counts as 0.
#[derive(Clone, Copy, Default, Debug)]
pub struct Answer {
    pub number: u32,
    pub values: [u32; OBJECT_WORDS],
}

impl Answer {
    pub fn accepted(&self) -> bool {
        self.number == 0
    }

    /// Its line's number must be the one expected.
    fn parse(line: &str, expected: u64) -> Answer {
        let mut words = line.trim_end().split(',');
        let number = words.next().and_then(|word| word.parse::<u64>().ok());
        assert_eq!(number, Some(expected), "an answer out of order: {line}");
        let mut answer = Answer::default();
        let mut word = || words.next().and_then(|word| word.parse().ok());
        answer.number = word().unwrap_or_else(|| panic!("no answer: {line}"));
        answer.values.iter_mut().for_each(|value| *value = word().unwrap_or(0));
        answer
    }
}

pub struct Client {
    stream: TcpStream,
    /// Lines that wait to be sent, and their number.
    lines: String,
    waiting: usize,
    /// Lines that were answered.
    answered: u64,
    /// Bytes of answers that are not taken yet.
    told: Vec<u8>,
}

impl Client {
    pub fn connect(address: &str) -> Client {
        let stream = TcpStream::connect(address).expect("a connection to the server");
        stream.set_nodelay(true).expect("no delay");
        stream.set_read_timeout(Some(PATIENCE)).expect("a timeout");
        Client { stream, lines: String::new(), waiting: 0, answered: 0, told: Vec::new() }
    }

    /// A line to be sent with others.
    pub fn say(&mut self, line: Arguments) {
        self.lines.write_fmt(line).expect("a string takes all");
        self.lines.push('\n');
        self.waiting += 1;
    }

    /// Sends what was said, in one write, and waits for the answers.
    pub fn exchange(&mut self) -> Vec<Answer> {
        let lines = self.waiting;
        self.send();
        self.answers(lines)
    }

    /// Sends what was said; the answers are taken later.
    pub fn send(&mut self) {
        self.stream.write_all(self.lines.as_bytes()).expect("lines are sent");
        self.lines.clear();
        self.waiting = 0;
    }

    /// The next so many answers.
    pub fn answers(&mut self, lines: usize) -> Vec<Answer> {
        let end = self.receive(lines);
        let told = std::str::from_utf8(&self.told[..end]).expect("answers are text");
        let answer = |(i, line)| Answer::parse(line, self.answered + 1 + i as u64);
        let answers: Vec<Answer> = told.lines().enumerate().map(answer).collect();
        self.answered += lines as u64;
        self.told.drain(..end);
        answers
    }

    /// Waits for so many lines; answers where they end.
    fn receive(&mut self, lines: usize) -> usize {
        let Some(last) = lines.checked_sub(1) else {
            return 0; // lines that went one at a time are all answered
        };
        let mut piece = [0; 4096];
        loop {
            let mut ends = self.told.iter().enumerate().filter(|(_, &byte)| byte == b'\n');
            if let Some((end, _)) = ends.nth(last) {
                return end + 1;
            }
            let bytes = self.stream.read(&mut piece).expect("answers are received");
            assert!(bytes > 0, "the server ended the connection");
            self.told.extend(&piece[..bytes]);
        }
    }

    /// One line, which must be accepted.
    pub fn ask(&mut self, line: Arguments) -> Answer {
        self.say(line);
        let answer = self.exchange()[0];
        assert!(answer.accepted(), "{line} is refused: {answer:?}");
        answer
    }
}
