//! What may be wrong with a folder, a disk or a command: what the program does then.

use crate::options::Options;
use crate::report::Row;
use crate::{bounds, damaged, failing, flips, ground};

pub fn run(options: &Options) -> Row {
    ground::run("failures", &[&damaged::CASES, &flips::CASES, &failing::CASES, &bounds::CASES], options)
}
