//! The commands beside `depot serve` and `depot client`.

use std::fs;
use std::io::{self, BufRead, Read, Write};
use std::path::Path;
use std::time::Duration;

use kophdaen::layout::{page_range, MOST_PAGES, MOST_RECORDS, SLOTS};
use kophdaen::{Held, PAGE_WORDS, RECORD_WORDS};

use crate::backup::Backup;
use crate::clients::{self, Clients};
use crate::disk::{self, Folder};
use crate::image::{self, Files, Found};
use crate::status::{Stop, DAMAGED, NOT_RUNNING};
use crate::words::Words;
use crate::{control, server};

/// Of a new store, unless another number is asked for.
const PAGES: usize = 64;

pub fn format(mut words: Words) -> Result<(), Stop> {
    let pages = words.count("--pages", 1..=MOST_PAGES, PAGES)?;
    let records = words.count("--records", 1..=MOST_RECORDS, MOST_RECORDS)?;
    words.end()?;
    let [folder] = words.names("depot format DIR [--pages P] [--records L]")?;
    let held = Held::format(pages, records).map_err(|why| Stop::failed(why.to_string()))?;
    Folder::format(Path::new(folder), held.stored(), records)?;
    println!("depot: formatted {folder}: {pages} pages, room for {} records, a log of {records}", SLOTS * pages);
    Ok(())
}

pub fn status(words: Words) -> Result<(), Stop> {
    words.end()?;
    let [folder] = words.names("depot status DIR")?;
    let mut text = String::new();
    control::ask(Path::new(folder), "status")?.read_to_string(&mut text).map_err(lost)?;
    print!("{text}");
    Ok(())
}

pub fn watch(words: Words) -> Result<(), Stop> {
    words.end()?;
    let [folder] = words.names("depot watch DIR")?;
    for line in control::ask(Path::new(folder), "watch")?.lines() {
        let line = line.map_err(lost)?;
        // Whoever has read enough closes the pipe.
        if writeln!(io::stdout(), "{line}").is_err() {
            return Ok(());
        }
    }
    Ok(())
}

pub fn stop(words: Words) -> Result<(), Stop> {
    words.end()?;
    let [folder] = words.names("depot stop DIR")?;
    let folder = Path::new(folder);
    control::ask(folder, "stop").map(drop)?;
    // Once the process is gone the folder is free.
    for _ in 0..500 {
        if disk::lock(folder).is_ok() {
            println!("depot: stopped");
            return Ok(());
        }
        std::thread::sleep(Duration::from_millis(10));
    }
    Err(Stop::failed("the server has emptied its log, and does not end"))
}

pub fn rights(words: Words) -> Result<(), Stop> {
    words.end()?;
    let [folder] = words.names("depot rights DIR")?;
    control::ask(Path::new(folder), "rights").map(drop)?;
    println!(
        "depot: {folder}/{} was read again; clients get their new rights once they run no transaction",
        clients::FILE
    );
    Ok(())
}

fn lost(error: io::Error) -> Stop {
    Stop::failed(format!("the server ended before it answered: {error}"))
}

pub fn backup(words: Words) -> Result<(), Stop> {
    words.end()?;
    let [folder, file] = words.names("depot backup DIR FILE (FILE may be - for standard output)")?;
    let bytes = backup_bytes(Path::new(folder))?;
    if Backup::read(&bytes).is_none() {
        return Err(Stop::failed("the server ended before the backup was whole"));
    }
    if file == "-" {
        // Flushed here, since what the exit writes it does not answer for.
        let mut out = io::stdout();
        let written = out.write_all(&bytes).and_then(|()| out.flush());
        return written.map_err(|error| Stop::failed(format!("cannot write the backup: {error}")));
    }
    let path = Path::new(file);
    if path.exists() {
        return Err(Stop::failed(format!("{file} is there already; nothing was changed")));
    }
    disk::write_whole(path, &bytes)?;
    disk::sync_folder(path)?;
    println!("depot: {} bytes to {file}", bytes.len());
    Ok(())
}

/// From the server, or where none runs from the files.
fn backup_bytes(folder: &Path) -> Result<Vec<u8>, Stop> {
    let mut bytes = Vec::new();
    match control::ask(folder, "backup") {
        Ok(mut reader) => reader.read_to_end(&mut bytes).map(|_| bytes).map_err(lost),
        Err(stop) if stop.status == NOT_RUNNING => {
            let (_, files) = Folder::open(folder)?;
            let Found { pages, records, room, .. } = found(&files)?;
            Ok(Backup { pages, records, room }.bytes())
        }
        Err(stop) => Err(stop),
    }
}

fn found(files: &Files) -> Result<Found, Stop> {
    image::read(files).map_err(|damage| Stop::new(DAMAGED, damage.to_string()))
}

/// Reopens what the backup has, and makes a store of it.
pub fn restore(words: Words) -> Result<(), Stop> {
    words.end()?;
    let [folder, file] = words.names("depot restore DIR FILE (FILE may be - for standard input)")?;
    let mut bytes = Vec::new();
    let read = match file {
        "-" => io::stdin().read_to_end(&mut bytes).map(drop),
        _ => fs::read(file).map(|read| bytes = read),
    };
    read.map_err(|error| Stop::failed(format!("cannot read {file}: {error}")))?;
    let backup = Backup::read(&bytes).ok_or(Stop::new(DAMAGED, format!("{file} is no whole backup")))?;
    let Backup { pages, records, room } = backup;
    let found = Found { id: 0, epoch: 0, file: 0, pages, records, room, behind: 0, torn: false };
    let held = server::open(&found, &mut |_| {})?;
    Folder::format(Path::new(folder), held.stored(), room)?;
    println!("depot: restored {folder} from {file}: {}", contents(held.stored()));
    Ok(())
}

/// Reads the files as a start would, and says what it would find; nothing is written.
pub fn check(words: Words) -> Result<(), Stop> {
    words.end()?;
    let [folder] = words.names("depot check DIR")?;
    let (_, files) = Folder::open(Path::new(folder))?;
    println!("the files are read; looking at their checksums");
    let found = found(&files)?;
    let records = found.records.len() / RECORD_WORDS;
    println!("snapshot {} counts, epoch {}; store {:016x}", found.file, found.epoch, found.id);
    if found.torn {
        println!("the other snapshot is not whole: a cut fell into a checkpoint, or there was none yet");
    }
    println!(
        "{records} of {} log places are stable records; {} more lie behind a gap and do not count",
        found.room, found.behind
    );
    let held = server::open(&found, &mut |text| println!("{text}"))?;
    let pages = found.pages.len() / PAGE_WORDS;
    Clients::read(Path::new(folder), pages)?;
    println!("{}", contents(held.stored()));
    println!("the store is sound: a server may start");
    Ok(())
}

/// How many records there are, and how many of them the root does not reach.
fn contents(stored: &[u32]) -> String {
    let pages = stored.len() / PAGE_WORDS;
    let occupied: u32 = (0..pages).map(|page| stored[page_range(page).start].count_ones()).sum();
    format!("{occupied} of {} slots are occupied, on {pages} pages", SLOTS * pages)
}
