//! What tablets are told: whom to call (L2), why a record is here (L1), what is not for them (L9), and the other
//! lines beside the bench program's.

use std::path::Path;
use std::time::{Duration, Instant};

use kophdaen::{OBJECT_WORDS, PAGE_WORDS};

use crate::abuse::{expect, expect_all, serving};
use crate::channel::Tcp;
use crate::ground::{Case, Ground};
use crate::process::{fresh, text};

pub const CASES: [Case; 6] = [
    ("who has the page", holder),
    ("a chain", chain),
    ("a contractor's tablet", contractor),
    ("a change of rights holds up nobody else", rights_wait),
    ("a page's image", image),
    ("marks", marks),
];

fn holder(ground: &mut Ground) -> Result<(), String> {
    let serving = serving(ground, "holder", &[])?;
    let [mut first, mut second] = [Tcp::connect(serving.address())?, Tcp::connect(serving.address())?];
    let hello = expect(&mut first, "hello,van 3", 0)?;
    expect_all(&mut first, &[("begin,9", 0), ("lockw,9,1", 0), ("begin,2", 0), ("lockr,2,2", 0)])?;
    expect_all(&mut second, &[("begin,9", 0), ("hello,yard", 0), ("lockr,9,2", 0)])?;
    let told = [expect(&mut second, "lockr,9,1", 6)?, expect(&mut second, "lockw,9,2", 6)?];
    let other = expect(&mut first, "lockw,2,2", 6)?;
    let right = hello.rest == ["0"]
        && told[0].rest == ["9", "0", "9", "van 3"]
        && told[1].rest == ["2", "0", "2", "van 3"]
        && other.rest == ["0", "0", "9", "yard"];
    right.then_some(()).ok_or(format!("{hello:?} {told:?} {other:?}"))
}

/// Root, 2, 17, and 3 that nothing leads to.
const PLANT: [(&str, u32); 12] = [
    ("begin,0", 0),
    ("lockw,0,0", 0),
    ("lockw,0,1", 0),
    ("create,0,2", 0),
    ("create,0,17", 0),
    ("create,0,3", 0),
    ("set,0,1,2,2", 0),
    ("set,0,2,0,17", 0),
    ("set,0,17,4,4242", 0),
    ("flush,0,0", 0),
    ("flush,0,1", 0),
    ("commit,0", 0),
];

fn chain(ground: &mut Ground) -> Result<(), String> {
    let serving = serving(ground, "chain", &["--pass-commits", "0"])?;
    let mut channel = Tcp::connect(serving.address())?;
    expect_all(&mut channel, &PLANT)?;
    let told = ["chain,17", "chain,1"].map(|line| expect(&mut channel, line, 0));
    expect_all(&mut channel, &[("chain,40", 15), ("chain,0", 3), ("chain,65", 3)])?;
    match told {
        [Ok(far), Ok(root)] if far.rest == ["3", "1", "2", "17"] && root.rest == ["1", "1"] => Ok(()),
        other => Err(format!("{other:?}")),
    }
}

fn put_clients(folder: &Path, rights: &str) -> Result<(), String> {
    let text = format!("client 0 shop\nright 0 all write\nclient 1 contractor listen 127.0.0.1:0\n{rights}");
    std::fs::write(folder.join("clients"), text).map_err(|error| error.to_string())
}

/// A second address, with less: page 0 to read, page 2 to write.
fn contractor(ground: &mut Ground) -> Result<(), String> {
    let folder = fresh(&ground.out, "contractor")?.join("store");
    ground.program.format(&folder, 4, 64)?;
    put_clients(&folder, "right 1 0 read\nright 1 2 write\n")?;
    let serving = ground.program.ready(&folder, &["--pass-commits", "0"])?;
    let mut shop = Tcp::connect(serving.address())?;
    expect_all(&mut shop, &PLANT)?;
    let mut tablet = Tcp::connect(serving.addresses.get(1).ok_or("one address alone")?)?;
    let hello = expect(&mut tablet, "hello,fence builder", 0)?;
    if hello.rest != ["1"] {
        return Err(format!("the contractor is {}", hello.text()));
    }
    expect_all(&mut tablet, &[("begin,0", 0), ("lockr,0,0", 0), ("lockw,0,0", 19), ("lockr,0,1", 19)])?;
    expect_all(&mut tablet, &[("lockw,0,2", 0), ("create,0,33", 0), ("read,0,1", 0), ("set,0,1,4,1", 5)])?;
    expect_all(&mut tablet, &[("flush,0,2", 0), ("commit,0", 0), ("chain,17", 19), ("chain,1", 0)])?;
    expect_all(&mut shop, &[("begin,0", 0), ("lockw,0,0", 0)])?;
    expect_all(&mut tablet, &[("begin,0", 0), ("lockr,0,3", 19)])?;
    let told = expect(&mut tablet, "lockr,0,0", 6)?;
    if told.rest[1] != "0" {
        return Err(format!("who has page 0: {}", told.text()));
    }
    more_rights(ground, &folder, &mut tablet)
}

/// Rights that are read again are given once the client runs no transaction; until then its begins wait.
fn more_rights(ground: &Ground, folder: &Path, tablet: &mut Tcp) -> Result<(), String> {
    put_clients(folder, "right 1 all read\n")?;
    ground.program.done(&["rights", text(folder)])?;
    expect_all(tablet, &[("lockr,0,3", 19), ("lockw,0,2", 0), ("abort,0", 0)])?;
    expect_all(tablet, &[("begin,0", 0), ("lockr,0,3", 0), ("lockw,0,2", 19), ("abort,0", 0)])?;
    put_clients(folder, "right 1 9 read\n")?;
    ground.program.run(&["rights", text(folder)])?.is(1)?;
    expect_all(tablet, &[("begin,0", 0), ("lockr,0,3", 0)])
}

/// A contractor's begin waits for its new rights while another transaction of its client runs; the shop's do not.
fn rights_wait(ground: &mut Ground) -> Result<(), String> {
    let folder = fresh(&ground.out, "rights_wait")?.join("store");
    ground.program.format(&folder, 4, 64)?;
    put_clients(&folder, "right 1 0 read\n")?;
    let serving = ground.program.ready(&folder, &[])?;
    let tablets = serving.addresses.get(1).ok_or("one address alone")?;
    let [mut running, mut waiting] = [Tcp::connect(tablets)?, Tcp::connect(tablets)?];
    expect(&mut running, "begin,0", 0)?;
    put_clients(&folder, "right 1 0 write\n")?;
    ground.program.done(&["rights", text(&folder)])?;
    waiting.send(b"begin,0\nlockw,0,0\n")?;
    std::thread::sleep(Duration::from_millis(200));
    let (mut shop, started) = (Tcp::connect(serving.address())?, Instant::now());
    expect_all(&mut shop, &[("begin,0", 0), ("abort,0", 0)])?;
    if started.elapsed() > Duration::from_secs(1) {
        return Err(format!("the shop's begin takes {:.1} s", started.elapsed().as_secs_f64()));
    }
    expect_all(&mut running, &[("lockw,0,0", 19), ("abort,0", 0)])?;
    let answers = [waiting.reply()?.answer, waiting.reply()?.answer];
    match answers == [0, 0] {
        true => Ok(()),
        false => Err(format!("the begin that waited and its lock are answered {answers:?}")),
    }
}

/// A flush with the page's words: they must be those of the occupied slots.
fn image(ground: &mut Ground) -> Result<(), String> {
    let serving = serving(ground, "image", &["--pass-commits", "0"])?;
    let mut channel = Tcp::connect(serving.address())?;
    expect_all(&mut channel, &[("begin,0", 0), ("lockw,0,0", 0), ("set,0,1,7,4294967295", 0)])?;
    let words = |word: u32| -> String {
        let mut words = vec!["0".to_string(); PAGE_WORDS];
        words[OBJECT_WORDS] = word.to_string(); // the root's last, behind the map
        words.join(",")
    };
    let right = words(u32::MAX);
    expect(&mut channel, &format!("flush,0,0,{}", words(5)), 9)?;
    expect(&mut channel, "commit,0", 10)?;
    expect(&mut channel, &format!("flush,0,0,{right},0"), 1)?;
    expect(&mut channel, &format!("flush,0,1,{right}"), 5)?;
    expect(&mut channel, &format!("flush,0,0,{right}"), 0)?;
    expect(&mut channel, "commit,0", 0).map(drop)
}

fn marks(ground: &mut Ground) -> Result<(), String> {
    let serving = serving(ground, "marks", &["--pass-commits", "0"])?;
    let mut channel = Tcp::connect(serving.address())?;
    let lines = [
        ("begin,0", 0),
        ("lockw,0,0", 0),
        ("back,0,0", 16),
        ("set,0,1,4,1", 0),
        ("mark,0,3", 0),
        ("set,0,1,4,2", 0),
        ("create,0,9", 0),
        ("back,0,3", 0),
        ("read,0,9", 7),
        ("mark,0,4", 3),
        ("commit,0", 10),
        ("flush,0,0", 0),
    ];
    expect_all(&mut channel, &lines)?;
    let words = expect(&mut channel, "read,0,1", 0)?.words();
    expect(&mut channel, "commit,0", 0)?;
    match words.get(4) == Some(&1) {
        true => Ok(()),
        false => Err(format!("after going back the root is {words:?}")),
    }
}
