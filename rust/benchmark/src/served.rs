//! The figures of the server in one run: the section *The server*.

use std::path::Path;
use std::thread::sleep;

use crate::served_depot::{Memory, Program};
use crate::served_holdup::{hold_up, HoldUp};
use crate::served_load::WARMING;
use crate::served_rounds::{manners, rounds, Place, Row};
use crate::served_starts::{self, Starts};
use crate::states::Size;

pub struct Served {
    pub size: Size,
    /// The server and SQLite.
    pub rows: Vec<Row>,
    /// The server alone, its lines sent in each manner.
    pub manners: Vec<Row>,
    pub depot_starts: Starts,
    pub sqlite_starts: Starts,
    /// Of a server that nobody has come to.
    pub idle: Memory,
    pub hold_up: HoldUp,
}

/// All files go to a folder of their own, which is removed at the end.
pub fn served(size: Size, directory: &Path, program: &Path) -> Served {
    let directory = directory.join("served");
    let _ = std::fs::remove_dir_all(&directory);
    std::fs::create_dir_all(&directory).expect("a folder");
    let program = Program { file: program.to_path_buf(), store: directory.join("store") };
    let place = Place { directory, program, size };
    let served = Served {
        size,
        rows: rounds(&place),
        manners: manners(&place),
        depot_starts: served_starts::depot(&place),
        sqlite_starts: served_starts::sqlite(&place),
        idle: idle(&place),
        hold_up: hold_up(&place),
    };
    std::fs::remove_dir_all(&place.directory).expect("the folder is removed");
    served
}

fn idle(place: &Place) -> Memory {
    place.program.format(place.size);
    let depot = place.program.serve();
    sleep(WARMING);
    let memory = depot.memory();
    depot.stop();
    memory
}
