//! A disk that is full, and one whose writes or syncs fail.

use std::path::{Path, PathBuf};
use std::process::Command;

use crate::channel::Tcp;
use crate::crew::Stopped;
use crate::ground::{verify, Case, Ground, QUIET};
use crate::process::{files_in, fresh, text, Program};

pub const CASES: [Case; 8] = [
    ("no file may grow", no_growth),
    ("the disk is full", full_disk),
    ("a backup to a full disk", full_backup),
    ("syncs fail", failing_syncs),
    ("writes fail", failing_writes),
    ("writes fail in the middle", short_writes),
    ("a formatting that is cut short", cut_formatting),
    ("a restoring that is cut short", cut_restoring),
];

/// The largest of the store's files, in units of bash's limit.
fn largest(folder: &Path) -> Result<usize, String> {
    let files = files_in(folder)?;
    let [first, second] = &files.snapshots;
    Ok([first.len(), second.len(), files.log.len()].into_iter().max().unwrap_or(0).div_ceil(1024))
}

/// Under a limit of the files' own length the server starts, works, empties its log and stops.
fn no_growth(ground: &mut Ground) -> Result<(), String> {
    let mut stock = ground.stopped("no_growth", 2)?;
    let limited = ground.program.behind(&format!("ulimit -f {}", largest(&stock.folder)?));
    let serving = limited.ready(&stock.folder, &QUIET)?;
    ground.work(&mut stock, &serving, 40)?;
    verify(&mut stock, &serving)?;
    ground.stop(&stock.folder, serving)?;
    ground.verified(&mut stock).map(drop)
}

/// A small file system of its own; none where this machine does not let us.
struct Mount(PathBuf);

impl Mount {
    fn new(folder: PathBuf) -> Option<Mount> {
        let words = ["-t", "tmpfs", "-o", "size=256k", "none", text(&folder)];
        let mounted = Command::new("mount").args(words).output().is_ok_and(|output| output.status.success());
        mounted.then_some(Mount(folder))
    }
}

impl Drop for Mount {
    fn drop(&mut self) {
        let _ = Command::new("umount").arg(&self.0).output();
    }
}

/// Fills what room is left.
fn fill(folder: &Path) {
    let mut bytes = 1 << 16;
    let mut number = 0;
    while bytes > 0 {
        match std::fs::write(folder.join(format!("filler.{number}")), vec![1; bytes]) {
            Ok(()) => number += 1,
            Err(_) => bytes /= 2,
        }
    }
}

fn full_disk(ground: &mut Ground) -> Result<(), String> {
    let Some(mount) = Mount::new(fresh(&ground.out, "full_disk")?) else {
        println!("failures: the disk is full: not tried, no file system can be mounted here");
        return Ok(());
    };
    let out = std::mem::replace(&mut ground.out, mount.0.clone());
    let result = on_full_disk(ground, &mount.0);
    ground.out = out;
    result
}

fn on_full_disk(ground: &mut Ground, folder: &Path) -> Result<(), String> {
    let (mut stock, serving) = ground.stock("stock")?;
    fill(folder);
    ground.work(&mut stock, &serving, 40)?;
    let backup = folder.join("backup");
    ground.program.run(&["backup", text(&stock.folder), text(&backup)])?.is(1)?;
    if backup.exists() {
        return Err("half a backup is left".to_string());
    }
    ground.work(&mut stock, &serving, 5)?;
    ground.stop(&stock.folder, serving)?;
    let serving = ground.verified(&mut stock)?;
    ground.work(&mut stock, &serving, 5)?;
    serving.kill();
    ground.verified(&mut stock).map(drop)
}

/// The command fails with a message, and the server goes on.
fn full_backup(ground: &mut Ground) -> Result<(), String> {
    let (mut stock, serving) = ground.stock("full_backup")?;
    ground.work(&mut stock, &serving, 2)?;
    let (store, backup) = (text(&stock.folder).to_string(), ground.out.join("full_backup/backup"));
    let limited = ground.program.behind("trap '' XFSZ; ulimit -f 1");
    limited.run(&["backup", &store, text(&backup)])?.is(1)?;
    if backup.exists() {
        return Err("half a backup is left".to_string());
    }
    if ground.out.join("full_backup/backup.new").exists() {
        return Err("half a backup is left under another name".to_string());
    }
    ground.program.behind("exec > /dev/full").run(&["backup", &store, "-"])?.is(1)?;
    small_backup(ground)?;
    ground.work(&mut stock, &serving, 2)?;
    ground.program.done(&["backup", &store, text(&backup)])?;
    let restored = ground.out.join("full_backup/restored");
    ground.program.done(&["restore", text(&restored), text(&backup)])?;
    serving.kill();
    stock.folder = restored;
    ground.verified(&mut stock).map(drop)
}

/// One that fits into a buffer: it must be noticed too that it cannot be written.
fn small_backup(ground: &Ground) -> Result<(), String> {
    let store = ground.out.join("full_backup/small");
    ground.program.format(&store, 1, 1)?;
    ground.program.behind("exec > /dev/full").run(&["backup", text(&store), "-"])?.is(1)
}

const SOURCE: &str = include_str!("../../../tests/failing_disk.c");

/// The program with the library before it that makes the disk fail.
fn failing(ground: &Ground) -> Result<Program, String> {
    let (source, library) = (ground.out.join("failing_disk.c"), ground.out.join("failing_disk.so"));
    std::fs::write(&source, SOURCE).map_err(|error| error.to_string())?;
    let words = ["-std=c11", "-shared", "-fPIC", text(&source), "-o", text(&library)];
    let compiled = Command::new("cc").args(words).output().map_err(|error| format!("cc: {error}"))?;
    match compiled.status.success() {
        true => Ok(ground.program.with("LD_PRELOAD", text(&library))),
        false => Err(String::from_utf8_lossy(&compiled.stderr).into_owned()),
    }
}

/// From the first on, from the second on, ..: the server ends with 1, a commit is told only by a sync that was
/// made, and what was told is there.
fn failing_from(ground: &mut Ground, name: &str, program: &Program, variable: &str) -> Result<(), String> {
    let mut stock = ground.stopped(name, 2)?;
    for number in 1..=ground.rounds.clamp(4, 40) {
        let program = program.with(variable, &number.to_string());
        let told = match program.serve(&stock.folder, &QUIET) {
            Err(exit) => exit.is(1).map(|()| 0)?,
            Ok(mut serving) => {
                let before = stock.crews[0].commits;
                let mut channel = Tcp::connect(serving.address())?;
                match stock.crews[0].commit(number + 1, &mut channel, &mut ground.random) {
                    Err(Stopped::Ended(_)) => {}
                    other => return Err(format!("with {variable} {number} the work ends with {other:?}")),
                }
                serving.wait().is(1)?;
                stock.crews[0].commits - before
            }
        };
        if told + 1 > number {
            return Err(format!("with {variable} {number} {told} commits are told"));
        }
        ground.verified(&mut stock)?.kill();
    }
    Ok(())
}

fn failing_syncs(ground: &mut Ground) -> Result<(), String> {
    let program = failing(ground)?;
    failing_from(ground, "failing_syncs", &program, "FAIL_SYNC")
}

fn failing_writes(ground: &mut Ground) -> Result<(), String> {
    let program = failing(ground)?;
    failing_from(ground, "failing_writes", &program, "FAIL_WRITE")
}

fn short_writes(ground: &mut Ground) -> Result<(), String> {
    let program = failing(ground)?.with("FAIL_SHORT", "1");
    failing_from(ground, "short_writes", &program, "FAIL_WRITE")
}

/// Killed at its first write or sync, at its second, ..: made again it makes a store, or there is one already.
fn cut_short(ground: &mut Ground, name: &str, words: &dyn Fn(&str) -> Vec<String>) -> Result<(), String> {
    let program = failing(ground)?;
    for number in 1..=ground.rounds.clamp(12, 40) {
        let folder = fresh(&ground.out, name)?.join("store");
        let words = words(text(&folder));
        let words: Vec<&str> = words.iter().map(String::as_str).collect();
        let killed = program.with("KILL_AT", &number.to_string()).run(&words)?;
        let again = ground.program.run(&words)?;
        let right = match (killed.code, again.code) {
            (None | Some(0), Some(0)) => true,
            (_, code) => code == Some(1) && again.said.contains("already"),
        };
        if !right {
            return Err(format!("killed at operation {number}, and done again: {again:?}"));
        }
        ground
            .program
            .ready(&folder, &QUIET)
            .map_err(|why| format!("killed at operation {number}: {why}"))?
            .kill();
    }
    Ok(())
}

fn cut_formatting(ground: &mut Ground) -> Result<(), String> {
    let words = |folder: &str| ["format", folder, "--pages", "2", "--records", "20"].map(str::to_string).to_vec();
    cut_short(ground, "cut_formatting", &words)
}

fn cut_restoring(ground: &mut Ground) -> Result<(), String> {
    let stock = ground.killed("restored", 2)?;
    let backup = ground.out.join("restored/backup");
    ground.program.done(&["backup", text(&stock.folder), text(&backup)])?;
    let words = |folder: &str| ["restore", folder, text(&backup)].map(str::to_string).to_vec();
    cut_short(ground, "cut_restoring", &words)
}
