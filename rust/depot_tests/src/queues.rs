//! What is shared: sixteen transactions, the log's room, and the time that a transaction may be idle.

use std::time::{Duration, Instant};

use kophdaen::OBJECT_WORDS;

use crate::abuse::{expect, expect_all, serving};
use crate::channel::{Channel, Tcp};
use crate::ground::{Case, Ground};
use crate::process::Serving;

pub const CASES: [Case; 7] = [
    ("18 begins", eighteen_begins),
    ("five begins of one connection", five_begins),
    ("a begin waits in line", begin_waits),
    ("begins are taken in their order", in_order),
    ("a dropped connection's locks", dropped_locks),
    ("an idle transaction", idle),
    ("a full log", full_log),
];

fn connect(serving: &Serving, count: usize) -> Result<Vec<Tcp>, String> {
    (0..count).map(|_| Tcp::connect(serving.address())).collect()
}

/// Four of each of four connections.
fn sixteen(serving: &Serving) -> Result<Vec<Tcp>, String> {
    let mut channels = connect(serving, 4)?;
    for channel in &mut channels {
        expect_all(channel, &[("begin,0", 0), ("begin,1", 0), ("begin,14", 0), ("begin,15", 0)])?;
    }
    Ok(channels)
}

fn eighteen_begins(ground: &mut Ground) -> Result<(), String> {
    let serving = serving(ground, "eighteen_begins", &["--begin-wait", "0.7"])?;
    let _running = sixteen(&serving)?;
    let mut waiting = connect(&serving, 2)?;
    let started = Instant::now();
    waiting.iter_mut().try_for_each(|channel| channel.send(b"begin,0\n"))?;
    let replies: Vec<u32> =
        waiting.iter_mut().map(|channel| channel.reply().map_or(0, |reply| reply.answer)).collect();
    let seconds = started.elapsed().as_secs_f64();
    match replies == [100, 100] && (0.6..5.0).contains(&seconds) {
        true => Ok(()),
        false => Err(format!("after {seconds:.1} s two begins are answered {replies:?}")),
    }
}

fn five_begins(ground: &mut Ground) -> Result<(), String> {
    let serving = serving(ground, "five_begins", &[])?;
    let mut channel = Tcp::connect(serving.address())?;
    expect_all(
        &mut channel,
        &[("begin,0", 0), ("begin,5", 0), ("begin,9", 0), ("begin,15", 0), ("begin,1", 103)],
    )?;
    expect_all(&mut channel, &[("begin,5", 4), ("begin,16", 3), ("abort,9", 0), ("begin,1", 0), ("begin,2", 103)])
}

fn begin_waits(ground: &mut Ground) -> Result<(), String> {
    let serving = serving(ground, "begin_waits", &[])?;
    let mut running = sixteen(&serving)?;
    let mut waiting = Tcp::connect(serving.address())?;
    waiting.send(b"begin,7\nlockr,7,0\n")?;
    std::thread::sleep(Duration::from_millis(300));
    let started = Instant::now();
    expect(&mut running[2], "abort,14", 0)?;
    let replies = [waiting.reply()?.answer, waiting.reply()?.answer];
    match replies == [0, 0] && started.elapsed() < Duration::from_secs(3) {
        true => Ok(()),
        false => Err(format!("a begin that waited is answered {replies:?} after {:?}", started.elapsed())),
    }
}

fn in_order(ground: &mut Ground) -> Result<(), String> {
    let serving = serving(ground, "in_order", &[])?;
    let mut running = sixteen(&serving)?;
    let mut waiting = connect(&serving, 3)?;
    waiting.iter_mut().try_for_each(|channel| {
        std::thread::sleep(Duration::from_millis(200));
        channel.send(b"begin,0\n")
    })?;
    std::thread::sleep(Duration::from_millis(200));
    for (i, channel) in waiting.iter_mut().enumerate() {
        expect(&mut running[i], "abort,0", 0)?;
        let reply = channel.reply()?;
        if reply.answer != 0 {
            return Err(format!("the begin in place {i} of the line is answered {}", reply.text()));
        }
    }
    Ok(())
}

fn dropped_locks(ground: &mut Ground) -> Result<(), String> {
    let serving = serving(ground, "dropped_locks", &[])?;
    let mut dropped = Tcp::connect(serving.address())?;
    expect_all(&mut dropped, &[("begin,0", 0), ("lockw,0,0", 0), ("set,0,1,4,5", 0), ("create,0,2", 0)])?;
    let mut other = Tcp::connect(serving.address())?;
    expect_all(&mut other, &[("begin,0", 0), ("lockw,0,0", 6)])?;
    drop(dropped);
    let until = Instant::now() + Duration::from_secs(5);
    while other.ask("lockw,0,0")?.answer != 0 {
        if Instant::now() > until {
            return Err("the locks of a dropped connection stay".to_string());
        }
    }
    let words = expect(&mut other, "read,0,1", 0)?.words();
    match words == [0; OBJECT_WORDS] {
        true => expect(&mut other, "create,0,2", 0).map(drop),
        false => Err(format!("what a dropped connection set stays: {words:?}")),
    }
}

fn idle(ground: &mut Ground) -> Result<(), String> {
    let serving = serving(ground, "idle", &["--idle", "1"])?;
    let [mut idle, mut busy] = [Tcp::connect(serving.address())?, Tcp::connect(serving.address())?];
    expect_all(&mut idle, &[("begin,0", 0), ("lockw,0,0", 0), ("begin,1", 0)])?;
    expect_all(&mut busy, &[("begin,0", 0), ("lockw,0,1", 0)])?;
    for _ in 0..16 {
        std::thread::sleep(Duration::from_millis(100));
        expect(&mut busy, "read,0,1", 5)?;
    }
    expect_all(&mut busy, &[("lockw,0,0", 0), ("read,0,1", 0)])?;
    expect_all(
        &mut idle,
        &[("read,0,1", 101), ("read,0,1", 4), ("commit,1", 101), ("commit,1", 4), ("begin,0", 0)],
    )
}

/// One that holds on keeps the log from being emptied: begins wait, then it is aborted.
fn full_log(ground: &mut Ground) -> Result<(), String> {
    let serving = serving(ground, "full_log", &["--drain-grace", "0.3"])?;
    let [mut holding, mut other] = [Tcp::connect(serving.address())?, Tcp::connect(serving.address())?];
    expect_all(&mut holding, &[("begin,0", 0), ("lockw,0,1", 0), ("create,0,17", 0)])?;
    let lines = ["begin,0", "lockw,0,0", "set,0,1,4,1", "set,0,1,5,2", "flush,0,0", "commit,0"];
    let until = Instant::now() + Duration::from_secs(10);
    let mut emptied = false;
    while !emptied && Instant::now() < until {
        let answers: Result<Vec<u32>, String> = lines.iter().map(|line| Ok(other.ask(line)?.answer)).collect();
        let answers = answers?;
        if answers.iter().any(|answer| ![0, 11].contains(answer)) {
            return Err(format!("beside one that holds on, a transaction is answered {answers:?}"));
        }
        emptied = holding_is_lost(&serving)?;
    }
    expect_all(&mut holding, &[("set,0,17,4,1", 101), ("set,0,17,4,1", 4), ("begin,0", 0)])
}

/// Whether page 1 is free.
fn holding_is_lost(serving: &Serving) -> Result<bool, String> {
    let mut channel = Tcp::connect(serving.address())?;
    expect(&mut channel, "begin,3", 0)?;
    Ok(channel.ask("lockw,3,1")?.answer == 0)
}
