//! Sizes at their bounds, one server for each folder, one formatting, and how a server is ended.

use std::io::{Read, Write};
use std::os::unix::net::UnixStream;
use std::path::Path;
use std::time::{Duration, Instant};

use depot::image;

use crate::channel::{Channel, Tcp};
use crate::ground::{verify, Case, Ground, QUIET};
use crate::process::{files_in, fresh, text, Exit};

pub const CASES: [Case; 10] = [
    ("sizes at their bounds", at_bounds),
    ("sizes out of bounds", out_of_bounds),
    ("wrong words", wrong_words),
    ("a second server on the folder", second_server),
    ("formatting over a store", format_again),
    ("stopped by a signal, and by a command", stops),
    ("a stop with transactions running", stop_with_running),
    ("nobody takes what the server says", unheard),
    ("few files may be open", few_files),
    ("the operator's socket", operator),
];

fn format(ground: &Ground, folder: &Path, pages: &str, records: &str) -> Result<Exit, String> {
    ground.program.run(&["format", text(folder), "--pages", pages, "--records", records])
}

fn at_bounds(ground: &mut Ground) -> Result<(), String> {
    let out = fresh(&ground.out, "at_bounds")?;
    for (pages, records) in [(1, 1), (1, 4096), (256, 1), (256, 4096)] {
        let folder = out.join(format!("{pages}_{records}"));
        ground.program.format(&folder, pages, records)?;
        let serving = ground.program.ready(&folder, &QUIET)?;
        let mut channel = Tcp::connect(serving.address())?;
        let begun = channel.ask("begin,0")?.answer;
        let page = channel.ask(&format!("lockw,0,{}", pages - 1))?.answer;
        match (records, begun, page) {
            (1, 11 | 100, 4) | (4096, 0, 0) => {}
            _ => return Err(format!("P = {pages}, L = {records}: begin answers {begun}, lockw {page}")),
        }
        channel.ask("abort,0")?;
        ground.stop(&folder, serving)?;
    }
    Ok(())
}

fn out_of_bounds(ground: &mut Ground) -> Result<(), String> {
    let folder = fresh(&ground.out, "out_of_bounds")?.join("store");
    let sizes = [
        ("0", "64"),
        ("257", "64"),
        ("4", "0"),
        ("4", "4097"),
        ("-1", "64"),
        ("four", "64"),
        ("4", "99999999999999999999"),
    ];
    for (pages, records) in sizes {
        format(ground, &folder, pages, records)?.is(2)?;
        if folder.join("depot.0").exists() {
            return Err(format!("a store of {pages} pages and {records} records is made"));
        }
    }
    Ok(())
}

fn wrong_words(ground: &mut Ground) -> Result<(), String> {
    let folder = fresh(&ground.out, "wrong_words")?;
    let folder = text(&folder);
    let lines: [&[&str]; 8] = [
        &[],
        &["sing"],
        &["serve"],
        &["format"],
        &["serve", folder, "--listen"],
        &["serve", folder, "--listen", "here"],
        &["serve", folder, "--fast", "1"],
        &["status", folder, folder],
    ];
    lines.into_iter().try_for_each(|words| ground.program.run(words)?.is(2))?;
    ["status", "watch", "stop", "rights"]
        .into_iter()
        .try_for_each(|word| ground.program.run(&[word, folder])?.is(5))
}

fn second_server(ground: &mut Ground) -> Result<(), String> {
    let (mut stock, serving) = ground.stock("second_server")?;
    ground.work(&mut stock, &serving, 2)?;
    match ground.program.serve(&stock.folder, &QUIET) {
        Ok(_) => return Err("a second server starts".to_string()),
        Err(exit) => exit.is(4)?,
    }
    ground.program.run(&["check", text(&stock.folder)])?.is(4)?;
    format(ground, &stock.folder, "4", "64")?.is(4)?;
    ground.work(&mut stock, &serving, 2)?;
    verify(&mut stock, &serving)?;
    ground.program.done(&["status", text(&stock.folder)]).map(drop)
}

fn format_again(ground: &mut Ground) -> Result<(), String> {
    let mut stock = ground.killed("format_again", 2)?;
    let before = files_in(&stock.folder)?;
    format(ground, &stock.folder, "4", "64")?.is(1)?;
    if files_in(&stock.folder)? != before {
        return Err("the files are changed".to_string());
    }
    ground.verified(&mut stock).map(drop)
}

pub fn empty_log(folder: &Path) -> Result<(), String> {
    let found = image::read(&files_in(folder)?).map_err(|damage| damage.to_string())?;
    match found.records.is_empty() {
        true => Ok(()),
        false => Err("the log is not empty".to_string()),
    }
}

fn stops(ground: &mut Ground) -> Result<(), String> {
    let mut stock = ground.killed("stops", 2)?;
    for way in ["TERM", "INT", "stop"] {
        let mut serving = ground.verified(&mut stock)?;
        ground.work(&mut stock, &serving, 3)?;
        match way {
            "stop" => ground.program.done(&["stop", text(&stock.folder)]).map(drop)?,
            signal => serving.signal(signal)?,
        }
        serving.wait().is(0)?;
        empty_log(&stock.folder)?;
    }
    ground.verified(&mut stock).map(drop)
}

/// What runs is let go on for a while, a begin is told that the server stops, and what is left is aborted.
fn stop_with_running(ground: &mut Ground) -> Result<(), String> {
    let mut stock = ground.killed("stop_with_running", 2)?;
    let mut serving = ground.program.ready(&stock.folder, &["--stop-grace", "2"])?;
    let mut channel = Tcp::connect(serving.address())?;
    let mut asked = |line: &str| channel.ask(line).map(|reply| reply.answer);
    let before = ["begin,0", "lockw,0,0", "set,0,1,4,77", "begin,1"].map(&mut asked);
    serving.signal("TERM")?;
    std::thread::sleep(Duration::from_millis(300));
    let after = ["begin,2", "flush,0,0", "commit,0"].map(&mut asked);
    serving.wait().is(0)?;
    empty_log(&stock.folder)?;
    if before.iter().any(|answer| *answer != Ok(0)) || after != [Ok(102), Ok(0), Ok(0)] {
        return Err(format!("answers are {before:?} and then {after:?}"));
    }
    let serving = ground.verified(&mut stock)?;
    let mut channel = Tcp::connect(serving.address())?;
    let reads = ["begin,0", "lockr,0,0", "read,0,1"].map(|line| channel.ask(line));
    match &reads[2] {
        Ok(reply) if reply.words().get(4) == Some(&77) => Ok(()),
        other => Err(format!("the last commit before the stop is {other:?}")),
    }
}

/// Neither standard output nor standard error can be written.
fn unheard(ground: &mut Ground) -> Result<(), String> {
    let mut stock = ground.stopped("unheard", 2)?;
    let free = std::net::TcpListener::bind("127.0.0.1:0").and_then(|listener| listener.local_addr());
    let address = free.map_err(|error| error.to_string())?.to_string();
    let deaf = ground.program.behind("exec > /dev/full 2> /dev/full");
    let mut serving = deaf.spawn(&stock.folder, &["--listen", &address]);
    let until = Instant::now() + Duration::from_secs(10);
    let mut channel = Tcp::connect(&address);
    while channel.is_err() && Instant::now() < until {
        std::thread::sleep(Duration::from_millis(20));
        channel = Tcp::connect(&address);
    }
    let mut channel = channel?;
    stock.crews.iter_mut().try_for_each(|crew| crew.verify_by(&mut channel))?;
    ground.program.done(&["stop", text(&stock.folder)])?;
    match serving.wait().code {
        Some(0) => Ok(()),
        code => Err(format!("it ends with {code:?}")),
    }
}

/// Connections beyond the limit are not taken, and the others are served.
fn few_files(ground: &mut Ground) -> Result<(), String> {
    let mut stock = ground.stopped("few_files", 2)?;
    let serving = ground.program.behind("ulimit -n 40").ready(&stock.folder, &QUIET)?;
    let mut channel = Tcp::connect(serving.address())?;
    channel.ask("hello,van")?;
    let crowd: Vec<Result<Tcp, String>> = (0..60).map(|_| Tcp::connect(serving.address())).collect();
    std::thread::sleep(Duration::from_millis(200));
    stock.crews.iter_mut().try_for_each(|crew| crew.verify_by(&mut channel))?;
    drop(crowd);
    std::thread::sleep(Duration::from_millis(300));
    ground.work(&mut stock, &serving, 3)?;
    ground.stop(&stock.folder, serving)?;
    ground.verified(&mut stock).map(drop)
}

/// What a line of the operator's socket is answered; the rest of it is not read.
fn told(folder: &Path, line: &[u8]) -> Result<String, std::io::Error> {
    let mut stream = UnixStream::connect(folder.join("control"))?;
    stream.set_read_timeout(Some(Duration::from_secs(10)))?;
    stream.write_all(line)?;
    stream.shutdown(std::net::Shutdown::Write)?;
    let mut answer = [0; 2];
    stream.read_exact(&mut answer).map(|()| String::from_utf8_lossy(&answer).into_owned())
}

/// Lines that are no question, half ones, and many at once.
fn operator(ground: &mut Ground) -> Result<(), String> {
    let (mut stock, serving) = ground.stock("operator")?;
    for line in [&b"sing\n"[..], b"\n", b"", b"status now\n", b"\xff\xfe\n", &[b'x'; 5000]] {
        if told(&stock.folder, line).is_ok_and(|answer| answer == "ok") {
            return Err(format!("{:?} is answered", String::from_utf8_lossy(line)));
        }
    }
    let silent: Vec<_> = (0..20).map(|_| UnixStream::connect(stock.folder.join("control"))).collect();
    let status = told(&stock.folder, b"status\n").map_err(|error| error.to_string())?;
    drop(silent);
    if status != "ok" {
        return Err(format!("status is answered {status:?}"));
    }
    ground.work(&mut stock, &serving, 2)?;
    ground.stop(&stock.folder, serving)
}
