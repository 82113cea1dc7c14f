//! What a tablet may do that it should not: lines that are none, too long, half, or never read; too many
//! connections; and what holds of the others meanwhile.

use std::net::Shutdown;
use std::time::{Duration, Instant};

use kophdaen::OBJECT_WORDS;

use crate::channel::{Channel, Ended, Reply, Tcp};
use crate::ground::{Case, Ground};
use crate::options::Options;
use crate::process::{fresh, Serving};
use crate::report::Row;
use crate::{ground, queues, tablets};

const CASES: [Case; 9] = [
    ("lines that are no calls", no_calls),
    ("a line at its longest", longest_line),
    ("an endless line", endless_line),
    ("bytes at random", random_bytes),
    ("half lines", half_lines),
    ("many lines in one write", many_lines),
    ("a client that closes without reading", closes_early),
    ("a client that never reads", never_reads),
    ("80 connections", many_connections),
];

/// The longest line that is taken.
const LINE_BYTES: usize = 2048;

/// A formatted folder with a server on it.
pub fn serving(ground: &Ground, name: &str, options: &[&str]) -> Result<Serving, String> {
    let folder = fresh(&ground.out, name)?.join("store");
    ground.program.format(&folder, 4, 64)?;
    ground.program.ready(&folder, options)
}

/// The answer must be this.
pub fn expect(channel: &mut dyn Channel, line: &str, answer: u32) -> Result<Reply, String> {
    let reply = channel.ask(line).map_err(|why| format!("{line}: {why}"))?;
    match reply.answer == answer {
        true => Ok(reply),
        false => Err(format!("{line}: {answer} is wanted: {}", reply.text())),
    }
}

pub fn expect_all(channel: &mut dyn Channel, lines: &[(&str, u32)]) -> Result<(), String> {
    lines.iter().try_for_each(|(line, answer)| expect(channel, line, *answer).map(drop))
}

/// The server still serves: a transaction from its begin to its commit. The locks of a connection fall soon after
/// its end.
fn goes_on(serving: &mut Serving) -> Result<(), String> {
    let mut channel = Tcp::connect(serving.address())?;
    expect(&mut channel, "begin,3", 0)?;
    let until = Instant::now() + Duration::from_secs(5);
    while channel.ask("lockw,3,0")?.answer != 0 {
        if Instant::now() > until {
            return Err("page 0 stays locked".to_string());
        }
        std::thread::sleep(Duration::from_millis(5));
    }
    expect_all(&mut channel, &[("set,3,1,4,7", 0), ("flush,3,0", 0), ("commit,3", 0)])?;
    match serving.is_running() {
        true => Ok(()),
        false => Err("the server has ended".to_string()),
    }
}

/// The connection ends, within some time.
fn ends(channel: &mut Tcp) -> Result<(), String> {
    let until = Instant::now() + Duration::from_secs(10);
    while Instant::now() < until {
        if channel.answer().is_err() {
            return Ok(());
        }
    }
    Err("the connection does not end".to_string())
}

/// Leading zeros, signs, spaces, too many numbers and too few, the server's own calls, ..
const NO_CALLS: &str = "begin|begin,|begin,00|begin,01|begin,+1|begin,-1|begin, 0|begin,0 | begin,0|BEGIN,0|\
    begin,0,0|begin;0|\"begin\",0|begin,0\0|begin,4294967296|begin,99999999999999999999|set,0,1,4|flush,0,0,1|\
    force|store,0|empty|pass|step|reopen|restep|format|grant,0,0,2|hello,|hello,a,b|\
    hello,12345678901234567890123456789012 |chain|chain,|mark,0|\t|";

fn no_calls(ground: &mut Ground) -> Result<(), String> {
    let mut serving = serving(ground, "no_calls", &[])?;
    let mut channel = Tcp::connect(serving.address())?;
    NO_CALLS.split('|').try_for_each(|line| expect(&mut channel, line, 1).map(drop))?;
    let (reply, lines) = (expect(&mut channel, "begin,0\r", 0)?, NO_CALLS.split('|').count() as u64);
    if reply.line != lines + 1 {
        return Err(format!("line {} is answered as {}", lines + 1, reply.text()));
    }
    expect_all(&mut channel, &[("begin,16", 3), ("begin,4294967295", 3), ("commit,3", 4), ("read,0,1", 5)])?;
    goes_on(&mut serving)
}

fn longest_line(ground: &mut Ground) -> Result<(), String> {
    let mut serving = serving(ground, "longest_line", &[])?;
    let mut channel = Tcp::connect(serving.address())?;
    expect(&mut channel, &"x".repeat(LINE_BYTES), 1)?;
    expect(&mut channel, "begin,0", 0)?;
    expect(&mut channel, "lockw,0,0", 0)?;
    channel.send(format!("{}\n", "x".repeat(LINE_BYTES + 2)).as_bytes())?;
    ends(&mut channel)?;
    goes_on(&mut serving)
}

fn endless_line(ground: &mut Ground) -> Result<(), String> {
    let mut serving = serving(ground, "endless_line", &[])?;
    let mut channel = Tcp::connect(serving.address())?;
    let sent: Result<(), Ended> = (0..2000).try_for_each(|_| channel.send(&[b'1'; 4096]));
    if sent.is_ok() {
        ends(&mut channel)?;
    }
    goes_on(&mut serving)
}

/// Whatever comes, the server goes on, and answers no more than there are lines.
fn random_bytes(ground: &mut Ground) -> Result<(), String> {
    let mut serving = serving(ground, "random_bytes", &[])?;
    for _ in 0..ground.rounds {
        let mut channel = Tcp::connect(serving.address())?;
        let bytes: Vec<u8> = (0..ground.random.between(1, 5000)).map(|_| ground.random.word() as u8).collect();
        let _ = channel.send(&bytes);
        let _ = channel.stream.shutdown(Shutdown::Write);
        let answers = std::iter::from_fn(|| channel.answer().ok()).count();
        if answers > bytes.iter().filter(|&&byte| byte == b'\n').count() {
            return Err(format!("{answers} answers to too few lines"));
        }
    }
    goes_on(&mut serving)
}

fn half_lines(ground: &mut Ground) -> Result<(), String> {
    let mut serving = serving(ground, "half_lines", &[])?;
    let mut channel = Tcp::connect(serving.address())?;
    for part in ["beg", "in", ",", "0", "\r", "\nlockw,0,", "0\r\nre"] {
        channel.send(part.as_bytes())?;
        std::thread::sleep(Duration::from_millis(5));
    }
    let replies = [channel.reply()?, channel.reply()?];
    channel.send(b"ad,0,1\n")?;
    let read = channel.reply()?;
    if replies.iter().any(|reply| reply.answer != 0) || read.answer != 0 || read.rest.len() != OBJECT_WORDS {
        return Err(format!("lines in parts are answered {replies:?} and {read:?}"));
    }
    channel.send(b"set,0,1,4,3\nflush,0,0\ncommit,0\nbegin,1")?;
    channel.stream.shutdown(Shutdown::Write).map_err(|error| error.to_string())?;
    let answers: Vec<String> = std::iter::from_fn(|| channel.answer().ok()).collect();
    match answers.len() == 3 && answers[2].starts_with("6,0,") {
        true => goes_on(&mut serving),
        false => Err(format!("a client that has said its last line is answered {answers:?}")),
    }
}

fn many_lines(ground: &mut Ground) -> Result<(), String> {
    let mut serving = serving(ground, "many_lines", &[])?;
    let mut channel = Tcp::connect(serving.address())?;
    let lines: String = (0..3000).map(|i| if i % 2 == 0 { "begin,0\r\n" } else { "abort,0\n" }).collect();
    let mut replies = Vec::new();
    channel.exchange(&lines, &mut replies)?;
    let wrong = replies.iter().enumerate().find(|(i, reply)| reply.line != *i as u64 + 1 || reply.answer != 0);
    match wrong {
        Some((i, reply)) => Err(format!("line {} is answered {}", i + 1, reply.text())),
        None => goes_on(&mut serving),
    }
}

fn closes_early(ground: &mut Ground) -> Result<(), String> {
    let mut serving = serving(ground, "closes_early", &[])?;
    let lines = "begin,0\nlockw,0,0\nset,0,1,4,9\nflush,0,0\ncommit,0\n".repeat(50);
    (0..ground.rounds).try_for_each(|_| Tcp::connect(serving.address())?.send(lines.as_bytes()))?;
    goes_on(&mut serving)
}

/// It is let go after some seconds; others are served meanwhile, and its locks fall then.
fn never_reads(ground: &mut Ground) -> Result<(), String> {
    let mut serving = serving(ground, "never_reads", &[])?;
    let mut silent = Tcp::connect(serving.address())?;
    expect_all(&mut silent, &[("begin,0", 0), ("lockw,0,1", 0), ("lockr,0,0", 0)])?;
    silent.stream.set_write_timeout(Some(Duration::from_millis(300))).map_err(|error| error.to_string())?;
    let lines = "read,0,1\n".repeat(2000);
    let sent = (0..2000).try_for_each(|_| silent.send(lines.as_bytes()));
    if sent.is_ok() {
        return Err("answers that nobody reads pile up".to_string());
    }
    let mut channel = Tcp::connect(serving.address())?;
    expect_all(&mut channel, &[("begin,0", 0), ("lockw,0,1", 6), ("lockw,0,2", 0)])?;
    let until = Instant::now() + Duration::from_secs(12);
    while channel.ask("lockw,0,1")?.answer != 0 {
        if Instant::now() > until {
            return Err("it keeps its lock".to_string());
        }
        std::thread::sleep(Duration::from_millis(100));
    }
    goes_on(&mut serving)
}

fn many_connections(ground: &mut Ground) -> Result<(), String> {
    let mut serving = serving(ground, "many_connections", &[])?;
    let opened: Result<Vec<Tcp>, Ended> = (0..80).map(|_| Tcp::connect(serving.address())).collect();
    let mut opened = opened?;
    let answers: Vec<Result<Reply, Ended>> = opened.iter_mut().map(|channel| channel.ask("hello,van")).collect();
    let taken = answers.iter().filter(|answer| answer.as_ref().is_ok_and(|reply| reply.answer == 0)).count();
    let busy = |answer: &&Result<Reply, Ended>| match answer {
        Ok(reply) => (reply.line, reply.answer) == (0, 100),
        Err(_) => true,
    };
    let refused = answers.iter().filter(busy).count();
    if (taken, refused) != (64, 16) {
        return Err(format!("{taken} are taken and {refused} refused"));
    }
    opened.truncate(60);
    std::thread::sleep(Duration::from_millis(100));
    goes_on(&mut serving)
}

pub fn run(options: &Options) -> Row {
    ground::run("abuse", &[&CASES, &queues::CASES, &tablets::CASES], options)
}
