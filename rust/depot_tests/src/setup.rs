//! A formatted store on a disk in memory, and how its server is run.

use std::time::Duration;

use depot::image::{self, Files};
use depot::server::Options;
use kophdaen::Held;

/// A formatted store's files.
pub fn formatted(pages: usize, room: usize) -> Files {
    let held = Held::format(pages, room).expect("sizes in bounds");
    let first = image::snapshot(0x6b6f_7068_6461_656e, 1, held.stored(), room);
    Files { snapshots: [first.clone(), vec![0; first.len()]], log: vec![0; image::log_bytes(room)] }
}

/// Options under which nothing waits long.
pub fn hasty() -> Options {
    Options {
        begin_wait: Duration::from_millis(300),
        drain_grace: Duration::from_millis(5),
        stop_grace: Duration::from_millis(5),
        pass_commits: 4,
        ..Options::default()
    }
}
