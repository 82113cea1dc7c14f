//! Damaged folders: which a server takes, and with what state.

use std::fs;

use depot::image::{self, Files, Found, Snapshot, PLACE_BYTES};
use kophdaen::layout::{object_at, REFERENCES, ROOT, SLOTS};
use kophdaen::{PAGE_WORDS, RECORD_WORDS};

use crate::ground::{Case, Ground, Stock};
use crate::process::{files_in, fresh, put_files};

pub const CASES: [Case; 10] = [
    ("no whole snapshot", no_snapshot),
    ("no store in the folder", no_store),
    ("a file is missing, or has another length", lengths),
    ("the newest snapshot is damaged, no records behind it", newest_without_places),
    ("the newest snapshot is damaged, records behind it", newest_with_places),
    ("a place is damaged, and a later one tells that it was synced", place_synced),
    ("the last commit's place is damaged", last_place),
    ("a reference leads to a free slot", free_slot),
    ("a page is unsound", unsound_page),
    ("files of two stores", strangers),
];

const KIND_COMMIT: u32 = 4;

fn damage(bytes: &mut [u8], ground: &mut Ground) {
    let at = ground.random.below(bytes.len());
    bytes[at] ^= 1 << ground.random.below(8);
}

fn found(files: &Files) -> Result<Found, String> {
    image::read(files).map_err(|damage| damage.to_string())
}

fn no_snapshot(ground: &mut Ground) -> Result<(), String> {
    let stock = ground.killed("no_snapshot", 2)?;
    let mut files = files_in(&stock.folder)?;
    let [first, second] = &mut files.snapshots;
    [first, second].into_iter().for_each(|bytes| damage(bytes, ground));
    put_files(&stock.folder, &files)?;
    ground.refused(&stock.folder, 3)
}

fn no_store(ground: &mut Ground) -> Result<(), String> {
    let folder = fresh(&ground.out, "no_store")?;
    ground.refused(&folder, 3)?;
    ground.refused(&folder.join("nowhere"), 3)
}

fn lengths(ground: &mut Ground) -> Result<(), String> {
    let stock = ground.killed("lengths", 2)?;
    let log = stock.folder.join("log");
    let bytes = fs::read(&log).map_err(|error| error.to_string())?;
    let mut longer = bytes.clone();
    longer.push(0);
    for other in [&bytes[..bytes.len() - 1], &bytes[..0], &longer] {
        fs::write(&log, other).map_err(|error| error.to_string())?;
        ground.refused(&stock.folder, 3)?;
    }
    fs::remove_file(&log).map_err(|error| error.to_string())?;
    ground.refused(&stock.folder, 3)
}

fn newest_without_places(ground: &mut Ground) -> Result<(), String> {
    let mut stock = ground.stopped("newest_without_places", 3)?;
    let mut files = files_in(&stock.folder)?;
    let newest = found(&files)?.file;
    damage(&mut files.snapshots[newest], ground);
    put_files(&stock.folder, &files)?;
    let mut serving = ground.verified(&mut stock)?;
    ground.work(&mut stock, &serving, 2)?;
    serving = restart(ground, &stock, serving)?;
    crate::ground::verify(&mut stock, &serving)
}

fn restart(
    ground: &Ground,
    stock: &Stock,
    serving: crate::process::Serving,
) -> Result<crate::process::Serving, String> {
    serving.kill();
    ground.program.ready(&stock.folder, &crate::ground::QUIET)
}

fn newest_with_places(ground: &mut Ground) -> Result<(), String> {
    let stock = ground.killed("newest_with_places", 3)?;
    let mut files = files_in(&stock.folder)?;
    let newest = found(&files)?.file;
    damage(&mut files.snapshots[newest], ground);
    put_files(&stock.folder, &files)?;
    ground.refused(&stock.folder, 3)
}

fn place_synced(ground: &mut Ground) -> Result<(), String> {
    let stock = ground.killed("place_synced", 3)?;
    let mut files = files_in(&stock.folder)?;
    let place = ground.random.below(3);
    damage(&mut files.log[PLACE_BYTES * place..PLACE_BYTES * (place + 1)], ground);
    put_files(&stock.folder, &files)?;
    ground.refused(&stock.folder, 3)
}

/// As if torn: the last commit is lost unseen, and no other.
fn last_place(ground: &mut Ground) -> Result<(), String> {
    let mut stock = ground.killed("last_place", 3)?;
    let mut files = files_in(&stock.folder)?;
    let records = found(&files)?.records;
    let commits = |record: &[u32]| record[0] == KIND_COMMIT;
    let last = records.chunks_exact(RECORD_WORDS).rposition(commits).ok_or("no commit in the log")?;
    damage(&mut files.log[PLACE_BYTES * last..PLACE_BYTES * (last + 1)], ground);
    put_files(&stock.folder, &files)?;
    let loser = stock.crews.last_mut().ok_or("no client")?;
    loser.forget_last();
    ground.verified(&mut stock).map(drop)
}

/// Puts a snapshot of changed pages, with a right sum, over the newest one.
fn changed_pages(ground: &mut Ground, name: &str, change: fn(&mut [u32])) -> Result<(), String> {
    let stock = ground.stopped(name, 2)?;
    let mut files = files_in(&stock.folder)?;
    let newest = found(&files)?.file;
    let Snapshot { id, epoch, room, mut pages, .. } =
        image::read_snapshot(&files.snapshots[newest]).ok_or("the newest snapshot is not whole")?;
    change(&mut pages);
    files.snapshots[newest] = image::snapshot(id, epoch, &pages, room);
    put_files(&stock.folder, &files)?;
    ground.refused(&stock.folder, 3)
}

fn free_slot(ground: &mut Ground) -> Result<(), String> {
    changed_pages(ground, "free_slot", |pages| pages[object_at(ROOT) + REFERENCES - 1] = SLOTS as u32)
}

fn unsound_page(ground: &mut Ground) -> Result<(), String> {
    changed_pages(ground, "unsound_page", |pages| pages[PAGE_WORDS] |= 1 << SLOTS)?;
    changed_pages(ground, "unsound_root", |pages| pages[0] = 0)
}

fn strangers(ground: &mut Ground) -> Result<(), String> {
    let stock = ground.stopped("stranger", 1)?;
    let other = files_in(&stock.folder)?;
    let stock = ground.stopped("strangers", 1)?;
    let mut files = files_in(&stock.folder)?;
    files.snapshots[0] = other.snapshots[0].clone();
    put_files(&stock.folder, &files)?;
    ground.refused(&stock.folder, 3)
}
