//! The three files, as the journal writes them: a trait, and the real folder with its lock.

use std::fs::{self, DirBuilder, File, OpenOptions, TryLockError};
use std::io::{self, ErrorKind, Read};
use std::os::unix::fs::{DirBuilderExt, FileExt, OpenOptionsExt};
use std::path::{Path, PathBuf};

use crate::clients;
use crate::image::{self, Files};
use crate::status::{Stop, DAMAGED, FAILED, TAKEN};

/// One of the files.
#[derive(Clone, Copy, PartialEq, Eq, Debug)]
pub enum Part {
    Snapshot(usize),
    Log,
}

impl Part {
    pub fn name(self) -> &'static str {
        match self {
            Part::Snapshot(0) => "depot.0",
            Part::Snapshot(_) => "depot.1",
            Part::Log => "log",
        }
    }
}

/// Where the journal writes. A write may reach the disk at any time, in any order and in part, until a sync of its
/// file has returned; then it is there.
pub trait Disk: Send + Sync {
    fn write(&self, part: Part, at: u64, bytes: &[u8]) -> io::Result<()>;
    fn sync(&self, part: Part) -> io::Result<()>;
}

/// A folder with a store. Its lock is held as long as this lives.
pub struct Folder {
    snapshots: [File; 2],
    log: File,
    _lock: File,
}

impl Disk for Folder {
    fn write(&self, part: Part, at: u64, bytes: &[u8]) -> io::Result<()> {
        self.file(part).write_all_at(bytes, at)
    }

    fn sync(&self, part: Part) -> io::Result<()> {
        self.file(part).sync_data()
    }
}

const PRIVATE_FILE: u32 = 0o600;
const PRIVATE_FOLDER: u32 = 0o700;

fn failed(what: &str, path: &Path, error: io::Error) -> Stop {
    Stop::failed(format!("{what} {}: {error}", path.display()))
}

/// A store that lacks one of its files is damaged.
fn missing(path: &Path, error: io::Error) -> Stop {
    let status = if error.kind() == ErrorKind::NotFound { DAMAGED } else { FAILED };
    Stop::new(status, format!("cannot open {}: {error}", path.display()))
}

fn private(path: &Path, new: bool) -> io::Result<File> {
    let mut options = OpenOptions::new();
    options.read(true).write(true).mode(PRIVATE_FILE);
    if new {
        options.create(true).truncate(true);
    }
    options.open(path)
}

impl Folder {
    fn file(&self, part: Part) -> &File {
        match part {
            Part::Snapshot(which) => &self.snapshots[which],
            Part::Log => &self.log,
        }
    }

    /// Takes the folder's lock and reads its files.
    pub fn open(folder: &Path) -> Result<(Folder, Files), Stop> {
        if !is_store(folder) {
            let text = format!("{}: no store here; make one with `depot format`", folder.display());
            return Err(Stop::new(DAMAGED, text));
        }
        let lock = lock(folder)?;
        let open = |part: Part| {
            let path = folder.join(part.name());
            let mut file = private(&path, false).map_err(|error| missing(&path, error))?;
            let mut bytes = Vec::new();
            file.read_to_end(&mut bytes).map_err(|error| failed("cannot read", &path, error))?;
            Ok((file, bytes))
        };
        let [(first, a), (second, b)] = [open(Part::Snapshot(0))?, open(Part::Snapshot(1))?];
        let (log, places) = open(Part::Log)?;
        let folder = Folder { snapshots: [first, second], log, _lock: lock };
        Ok((folder, Files { snapshots: [a, b], log: places }))
    }

    /// Makes a store of these pages, with an empty log, and a file of clients where there is none. All files get their
    /// full length, so that no later write grows one. The first snapshot gets its name last: a formatting that is cut
    /// short leaves no store, and is done again.
    pub fn format(folder: &Path, pages: &[u32], room: usize) -> Result<(), Stop> {
        make_folder(folder)?;
        let _lock = lock(folder)?;
        if is_store(folder) {
            return Err(Stop::failed(format!(
                "{}: there is a store already; nothing was changed",
                folder.display()
            )));
        }
        let id = random_id().map_err(|error| Stop::failed(format!("no random number: {error}")))?;
        let first = image::snapshot(id, 1, pages, room);
        write_new(&folder.join(Part::Log.name()), &vec![0; image::log_bytes(room)])?;
        write_new(&folder.join(Part::Snapshot(1).name()), &vec![0; first.len()])?;
        let clients = folder.join(clients::FILE);
        if !clients.exists() {
            write_whole(&clients, clients::FIRST.as_bytes())?;
        }
        sync_folder(folder)?;
        write_whole(&folder.join(Part::Snapshot(0).name()), &first)?;
        sync_folder(folder)
    }
}

/// Whether a store was formatted here.
pub fn is_store(folder: &Path) -> bool {
    folder.join(Part::Snapshot(0).name()).exists()
}

/// Makes the folder where there is none, for its owner alone.
fn make_folder(folder: &Path) -> Result<(), Stop> {
    match DirBuilder::new().recursive(true).mode(PRIVATE_FOLDER).create(folder) {
        Ok(()) => Ok(()),
        Err(error) => Err(failed("cannot make", folder, error)),
    }
}

/// One server for each store.
pub fn lock(folder: &Path) -> Result<File, Stop> {
    let path = folder.join("lock");
    let open = OpenOptions::new().create(true).truncate(false).write(true).mode(PRIVATE_FILE).open(&path);
    let file = open.map_err(|error| failed("cannot open", &path, error))?;
    match file.try_lock() {
        Ok(()) => Ok(file),
        Err(TryLockError::WouldBlock) => {
            let text = format!("{}: another depot has this store; `depot stop` ends it", folder.display());
            Err(Stop::new(TAKEN, text))
        }
        Err(TryLockError::Error(error)) => Err(failed("cannot lock", &path, error)),
    }
}

/// A new file of these bytes, synced. Where it cannot be written in full it is taken away again.
pub fn write_new(path: &Path, bytes: &[u8]) -> Result<(), Stop> {
    let written = private(path, true).and_then(|file| file.write_all_at(bytes, 0).and_then(|()| file.sync_all()));
    written.map_err(|error| {
        let _ = fs::remove_file(path);
        failed("cannot write", path, error)
    })
}

/// A new file that has its name once it is whole.
pub fn write_whole(path: &Path, bytes: &[u8]) -> Result<(), Stop> {
    let mut new = path.as_os_str().to_owned();
    new.push(".new");
    write_new(Path::new(&new), bytes)?;
    fs::rename(&new, path).map_err(|error| failed("cannot name", path, error))
}

/// Makes the names in the folder stable, and its own name.
pub fn sync_folder(folder: &Path) -> Result<(), Stop> {
    let parent: PathBuf = match folder.parent() {
        Some(parent) if !parent.as_os_str().is_empty() => parent.into(),
        _ => ".".into(),
    };
    for path in [folder, &parent] {
        let synced = File::open(path).and_then(|file| file.sync_all());
        match synced {
            Err(error) if error.kind() != ErrorKind::PermissionDenied => {
                return Err(failed("cannot sync", path, error));
            }
            _ => {}
        }
    }
    Ok(())
}

fn random_id() -> io::Result<u64> {
    let mut bytes = [0; 8];
    File::open("/dev/urandom")?.read_exact(&mut bytes)?;
    Ok(u64::from_le_bytes(bytes))
}
